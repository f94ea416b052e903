"""Mistakes that a wrapper of a program makes: a script for sh that runs instead of the program.

A program with a contract can only make such a mistake if an assumption of the contract is wrong. So
these mutants show that the tests compare all that a program does, independently of the proofs. They
need no build. tests/test_wrappers.py runs them all.
"""

from tests.mutants import Wrapper

TESTS = ("test_create", "test_fmaptool", "test_sizes", "test_borders", "test_unusual_files",
         "test_print", "test_layout", "test_extract", "test_add", "test_remove",
         "test_command_line", "test_stops", "test_locks", "test_pipes", "test_interrupts",
         "test_check_map", "test_check_region", "test_check_needs", "test_check_list",
         "test_check_rows", "test_check_blocks", "test_check_areas", "test_check_components",
         "test_check_board", "test_check_anchor", "test_check_document", "test_check_schema",
         "test_check_random", "test_check_line", "test_check_files", "test_limits", "test_together")


def fault(name, test, said, title, harm, program="cbfstool"):
    """Returns a wrapper that makes a mistake of tests/faults/mistakes.c."""
    return Wrapper(title, program, f'faulty {name} "$@"\n', harm, test, said)


def after(title, condition, change, harm, test, said, program="cbfstool"):
    """Returns a wrapper that makes a change after a run, and ends with the status of the run.

    `condition` is a pattern of the arguments, such as `*" create "*`, and the change may use
    $status.
    """
    script = f'run "$@"\nstatus=$?\ncase " $* " in {condition}) {change} ;; esac\n'
    return Wrapper(title, program, script + "exit $status\n", harm, test, said)


def filtered(title, change, harm, test, said, program="cbfstool"):
    """Returns a wrapper that sends the output through a filter."""
    script = f'run "$@" > "$FOLDER/printed.$$"\nstatus=$?\n{change} < "$FOLDER/printed.$$"\n'
    script += 'rm "$FOLDER/printed.$$"\nexit $status\n'
    return Wrapper(title, program, script, harm, test, said)


def reworded(title, change, harm, test, program="cbfstool"):
    """Returns a wrapper that sends the message through sed."""
    script = f'run "$@" 2> "$FOLDER/told.$$"\nstatus=$?\nsed "{change}" "$FOLDER/told.$$" >&2\n'
    script += 'rm "$FOLDER/told.$$"\nexit $status\n'
    return Wrapper(title, program, script, harm, test, "message of the command differs")


def edited(title, change, harm, test, said="differs"):
    """Returns a wrapper of cbfscheck that sends its output through sed."""
    script = 'run "$@" > "$FOLDER/printed.$$"\nstatus=$?\n'
    script += f"sed '{change}' < \"$FOLDER/printed.$$\"\n"
    script += 'rm "$FOLDER/printed.$$"\nexit $status\n'
    return Wrapper(f"cbfscheck: {title}", "cbfscheck", script, harm, test, said)


ALWAYS = '*'
IMAGE = "image.rom of the command differs"
OUTPUT = "output of the command differs"
STATUS = "status of the command differs"
MESSAGE = "message of the command differs"
# A command that only prints, and a test of it.
LAYOUT = '*" layout "*'
LISTING = "test_layout.Positions.test_a_map_of_version_2_before_the_map"
# Changes the byte at an offset of a file, or the last one.
PATCH = ("printf \"$(printf '\\\\%03o' {value})\" |"
         " dd of={file} bs=1 seek={at} conv=notrunc status=none")
LAST = "$(($(stat -c %s {file}) - 1))"


def patch(file, at=None, value=0x5A):
    """Returns a command that changes one byte of a file, by default the last one."""
    text = PATCH.format(value=value, file=file, at=LAST.format(file=file) if at is None else at)
    return f"[ ! -s {file} ] || {text}"


MUTANTS = [
    # ---- create
    after("create leaves one byte after the image", '*" create "*', 'printf x >> "$1"',
          "The image does not fit into the flash chip.",
          "test_create.Board.test_the_default_region", IMAGE),
    after("create changes the last byte of the image", '*" create "*', patch('"$1"'),
          "The last region is not as the flash map says.",
          "test_create.Board.test_one_region", IMAGE),
    Wrapper("create makes the first of several regions", "cbfstool",
            'for word; do shift; set -- "$@" "${word%%,*}"; done\nrun "$@"\n',
            "The other regions take no component.",
            "test_create.Board.test_any_order_of_the_regions", IMAGE),
    Wrapper("create leaves the old image if it refuses an area", "cbfstool",
            'cp "$1" "$FOLDER/old.$$" 2> /dev/null\nrun "$@"\nstatus=$?\n'
            '[ $status = 0 ] || [ ! -s "$1" ] || cp "$FOLDER/old.$$" "$1"\nexit $status\n',
            "A makefile goes on with the image of an earlier build.",
            "test_create.RefusedAreas.test_regions", IMAGE),
    Wrapper("create leaves the end of a longer image", "cbfstool",
            'tail -c 100 "$1" > "$FOLDER/old.$$" 2> /dev/null\nrun "$@"\nstatus=$?\n'
            '[ $status != 0 ] || cat "$FOLDER/old.$$" >> "$1"\nexit $status\n',
            "The image does not fit into the flash chip.",
            "test_create.Board.test_another_file_is_replaced", IMAGE),
    after("create has status 1 for a bad command line", ALWAYS, "[ $status != 2 ] || exit 1",
          "A makefile cannot distinguish a typing error from a refused map.",
          "test_create.RefusedSources.test_bad_command_lines", STATUS),
    reworded("each refusal of an area is that of the size",
             "s/region outside the image/bad region size/",
             "The user changes the size, and the offset is wrong.",
             "test_create.RefusedAreas.test_regions"),

    # ---- fmaptool
    after("fmaptool changes the base address", ALWAYS, patch('"$2"', 10),
          "The areas of the image lie at other addresses.",
          "test_fmaptool.Tables.test_offsets_of_children_and_a_base_address",
          "out of the command differs", "fmaptool"),
    after("fmaptool changes the last byte of the table", ALWAYS, patch('"$2"'),
          "An area has other flags.", "test_fmaptool.Tables.test_a_board",
          "out of the command differs", "fmaptool"),
    after("fmaptool leaves bytes after a refusal", ALWAYS,
          '[ $status = 0 ] || [ ! -e "$2" ] || echo old > "$2"',
          "A makefile goes on with a table that is none.",
          "test_fmaptool.Refusals.test_layouts", "out of the command differs", "fmaptool"),
    reworded("fmaptool states an offset of a refusal that is too large", "s/ at / at 1/",
             "The user looks for the mistake at another place.",
             "test_fmaptool.Refusals.test_texts", "fmaptool"),
    after("fmaptool has status 2 for a refused descriptor", ALWAYS, "[ $status != 1 ] || exit 2",
          "A makefile takes the refusal for a typing error.",
          "test_fmaptool.Refusals.test_layouts", STATUS, "fmaptool"),
    after("fmaptool prints a word", ALWAYS, "echo done", "A script reads it as a result.",
          "test_fmaptool.Tables.test_a_board", OUTPUT, "fmaptool"),
    after("fmaptool prints a word on standard error", ALWAYS, "echo done >&2",
          "A build with warnings as errors fails.",
          "test_fmaptool.Tables.test_a_board", MESSAGE, "fmaptool"),
    Wrapper("fmaptool empties a descriptor that is its output", "fmaptool",
            '[ ! "$1" -ef "$2" ] || : > "$1"\nrun "$@"\n', "The descriptor is lost.",
            "test_fmaptool.Outputs.test_the_input_is_never_the_output",
            ".fmd of the command differs"),
    fault("hasty", "test_fmaptool.SystemFaults.test_short_reads_and_writes",
          "out of the command differs", "fmaptool takes a short write for a whole one",
          "A table on a nearly full disk has holes.", "fmaptool"),

    # ---- what any command does beside its result
    after("layout leaves another file", LAYOUT, ": > other",
          "A folder of a build fills with files.", LISTING, "other of the command differs"),
    after("layout leaves a folder with a file", LAYOUT, "mkdir made; : > made/other",
          "A folder of a build fills with files.", LISTING, "made/other of the command differs"),
    after("layout removes the image", LAYOUT, 'rm "$1"', "The image is lost.", LISTING, IMAGE),
    after("layout ends by a signal", LAYOUT, "kill -9 $$",
          "A script stops, or takes the listing for incomplete.", LISTING, STATUS),
    after("layout never ends", LAYOUT, "sleep 3600", "A script never goes on.", LISTING, STATUS),
    after("layout does all otherwise", LAYOUT,
          'echo a; echo b >&2; echo c > "$1"; exit 3', "A failure shows one difference of many.",
          LISTING, (STATUS, MESSAGE, OUTPUT, IMAGE)),

    # ---- the limits of the formats
    filtered("layout does not list the last of 65,535 areas", "sed 65536d",
             "The last area cannot be seen.",
             "test_sizes.Areas.test_layout_lists_all_areas", OUTPUT),
    filtered("print lists 32,768 components", "head -n 32768", "Other components cannot be seen.",
             "test_sizes.Components.test_print_lists_all_components", OUTPUT),
    filtered("cbfscheck counts components in 15 bits", "sed 's/\t50000$/\t17232/'",
             "The report hides components.", "test_sizes.Components.test_report", OUTPUT,
             "cbfscheck"),
    after("fmaptool writes 65,534 areas", ALWAYS,
          '[ "$(stat -c %s "$2")" != 2752526 ] || truncate -s 2752484 "$2"',
          "The last area is lost.", "test_sizes.Sections.test_most_areas",
          "out of the command differs", "fmaptool"),
    Wrapper("create makes at most 15 regions", "cbfstool",
            'for word; do shift; set -- "$@" "$(echo "$word" | cut -d , -f 1-15)"; done\n'
            'run "$@"\n', "The last region takes no component.",
            "test_sizes.Regions.test_sixteen_regions", IMAGE),
    Wrapper("create makes 16 of 17 regions", "cbfstool",
            'for word; do shift; set -- "$@" "$(echo "$word" | cut -d , -f 1-16)"; done\n'
            'run "$@"\n', "The last region takes no component, with status 0.",
            "test_sizes.Regions.test_seventeen_regions", STATUS),
    after("extract loses the last byte of the last component", '*" extract "*',
          'truncate -s -1 out', "The content is cut off.",
          "test_sizes.Components.test_extract_finds_the_last_component",
          "out of the command differs"),
    Wrapper("read has its whole region in memory", "cbfstool",
            'run "$@"\nstatus=$?\npython3 -c "bytearray(64 << 20)"\nexit $status\n',
            "A large region needs much memory.",
            "test_sizes.Memory.test_read_of_a_region_of_64_MiB", "KiB of memory"),

    # ---- writes that are refused in part
    fault("unreserved", "test_borders.SizeLimits.test_a_removal",
          "the components are neither those before nor those after",
          "no space is reserved for a header",
          "A header that a full disk cuts loses components."),
    Wrapper("a refused write is success", "cbfstool", 'run "$@" 2> /dev/null\nexit 0\n',
            "A makefile goes on with half of a removal.",
            "test_borders.SizeLimits.test_a_removal", "the image"),
    Wrapper("a refused write changes a byte before the region", "cbfstool",
            'run "$@"\nstatus=$?\n[ $status -lt 128 ] || kill -s XFSZ $$\n'
            '[ $status = 0 ] || ' + patch('"$1"', 1030) + '\nexit $status\n',
            "Bytes of another area are lost.",
            "test_borders.SizeLimits.test_a_removal", "bytes outside the region have changed"),
    Wrapper("a refused write changes another component", "cbfstool",
            'run "$@"\nstatus=$?\n[ $status -lt 128 ] || kill -s XFSZ $$\n'
            'ulimit -S -f unlimited\n[ $status = 0 ] || ' + patch('"$1"', 0x6000)
            + '\nexit $status\n',
            "A component that is not removed is damaged.",
            "test_borders.SizeLimits.test_a_removal", "other bytes have changed"),
    Wrapper("a full disk is a lack of space in the region", "cbfstool",
            'run "$@" 2> "/dev/shm/told.$$"\nstatus=$?\n'
            'sed "s/device fault/no space/" "/dev/shm/told.$$" >&2\nrm "/dev/shm/told.$$"\n'
            'exit $status\n', "The user makes the region larger.",
            "test_borders.FullFileSystem.test_each_hole", "no space"),

    # ---- files that are not plain, short calls
    fault("hasty", "test_unusual_files.ShortCalls.test_each_command", "differs",
          "cbfstool takes a short write for a whole one", "An extracted file has holes."),
    fault("careless", "test_unusual_files.LoopDevice.test_bytes_that_are_not_stored", STATUS,
          "an error of storing the bytes of a device is ignored",
          "The flash chip has other bytes than the command reports."),
    fault("demanding", "test_unusual_files.Locks.test_errors_of_the_lock", STATUS,
          "a file system without locks makes each command fail",
          "No image on such a file system can be used."),
    after("a folder as image has status 2", ALWAYS, "[ ! -d \"$1\" ] || exit 2",
          "A makefile takes the refusal for a typing error.",
          "test_unusual_files.OtherKinds.test_images", STATUS),
    Wrapper("the standard input is a source", "cbfstool",
            'for word; do shift; if [ "$word" = /dev/stdin ]; then\n'
            'cat > "$FOLDER/source.$$"; word=$FOLDER/source.$$; fi; set -- "$@" "$word"; done\n'
            'run "$@"\n', "A source without a length is read without a limit.",
            "test_unusual_files.OtherKinds.test_sources", STATUS),
    after("read changes the last byte of its output", '*" read "*', patch("out"),
          "The extracted region is wrong.",
          "test_unusual_files.LoopDevice.test_each_command", "out of the command differs"),
    Wrapper("an output is emptied before the image is opened", "cbfstool",
            '[ "$2" != extract ] || [ ! -f out ] || : > out\nrun "$@"\n',
            "A refused command destroys an older file.",
            "test_unusual_files.Order.test_an_output_that_stays", "out of the command differs"),
    Wrapper("the image as output is emptied", "cbfstool",
            'for last; do :; done\n[ ! "$last" -ef "$1" ] || [ "$2" = create ] || : > "$1"\n'
            'run "$@"\n', "The image is lost.",
            "test_unusual_files.SameFile.test_the_output_is_never_the_image",
            "of the command differs"),

    # ---- listings, components, regions, and the command line
    after("print prints one more byte", '*" print "*', "printf x", "The last row is wrong.",
          "test_print.Samples.test_listings", OUTPUT),
    after("print has status 1", '*" print "*', "exit 1", "A script takes it for a refusal.",
          "test_print.Samples.test_listings", STATUS),
    after("print prints a word on standard error", '*" print "*', "echo done >&2",
          "A build with warnings as errors fails.",
          "test_print.Samples.test_listings", MESSAGE),
    filtered("print lists LZ4 as LZMA", "sed 's/LZ4$/LZMA/'",
             "The user decompresses with another tool.",
             "test_print.Attributes.test_compressed_components", OUTPUT),
    filtered("an invalid digest is listed as valid", "sed 's/invalid$/valid/'",
             "A changed component is taken for a good one.",
             "test_print.Hashes.test_valid_and_invalid_digests", OUTPUT),
    reworded("damage of a name is that of the extent", "s/: name$/: extent/",
             "The user repairs another field.", "test_print.Heads"),
    filtered("layout prints each flag as 0", "sed 's/0x[0-9a-f]*$/0x0/'",
             "PRESERVE cannot be seen.", "test_layout.Areas.test_the_greatest_numbers", OUTPUT),
    filtered("layout lists the areas of a sample without the first", "sed 2d",
             "The first area cannot be seen.", "test_layout.Areas.test_samples", OUTPUT),
    after("a full disk has status 2", ALWAYS, "[ $status = 0 ] || exit 2",
          "A makefile takes it for a typing error.",
          "test_command_line.FullDevice.test_listings", STATUS),
    reworded("a full disk is a device fault", "s/output fault/device fault/",
             "The user looks for a fault of the image.",
             "test_command_line.FullDevice.test_listings"),
    after("read prints a word", '*" read "*', "echo done", "A script reads it as a result.",
          "test_extract.ReadAndWrite.test_all_areas_of_the_samples_are_read", OUTPUT),
    after("extract changes the last byte of its output", '*" extract "*', patch("out"),
          "The extracted component is wrong.",
          "test_extract.Extract.test_the_components_of_the_samples",
          "out of the command differs"),
    after("write changes the first byte of the image", '*" write "*', patch('"$1"', 0),
          "The flash map or the descriptor is damaged.",
          "test_extract.ReadAndWrite.test_the_region_of_each_sample_is_written", IMAGE),
    after("a refused write changes the image", '*" write "*',
          "[ $status = 0 ] || " + patch('"$1"', 0), "A refused command damages the image.",
          "test_extract.ReadAndWrite.test_the_region_of_each_sample_is_written", IMAGE),
    after("remove changes the last byte of the image", '*" remove "*', patch('"$1"'),
          "The pointer to the master header is lost.",
          "test_remove.Removal.test_the_components_of_the_samples", IMAGE),
    reworded("remove of an absent component names the region",
             "s/no such component/no such region/", "The user looks for another region.",
             "test_remove.Removal.test_refusals"),
    Wrapper("add ignores an alignment", "cbfstool",
            'count=$#\nwhile [ $count -gt 0 ]; do\nset -- "$@" "$1"\nshift\ncount=$((count - 1))\n'
            'if [ "$1" = -a ]; then set -- "$@" -a 1; shift 2; count=$((count - 2)); fi\ndone\n'
            'run "$@"\n', "A component lies at an address that its user cannot use.",
            "test_add.SmallRegions.test_free_space_on_both_sides", IMAGE),
    after("add changes the last byte of the region", '*" add "*', patch('"$1"', 1023),
          "The pointer to the master header is lost.",
          "test_add.SmallRegions.test_content_that_has_room", IMAGE),
    reworded("a type without a name is a bad name", "s/bad type/bad name/",
             "The user changes the name.", "test_add.Refusals.test_refusals"),
    after("a stopped addition changes a byte outside", '*" add "*',
          "[ $status = 0 ] || " + patch('"$1"', 0), "A device fault damages another area.",
          "test_stops.Stops.test_addition", "bytes outside have changed"),

    # ---- locks
    fault("unlocked", "test_locks.Waits.test_beside_a_lock", "does not wait for the lock",
          "cbfstool takes no lock", "Two additions at once lose a component."),
    fault("unlocked", "test_locks.Waits.test_beside_a_lock", "does not wait for the lock",
          "cbfscheck takes no lock", "A check reads half of a change.", "cbfscheck"),
    fault("unlocked", "test_locks.HeldLocks.test_output_to_a_pipe", "takes no lock",
          "extract into a pipe takes no lock", "The content is that of two components."),
    fault("exclusive", "test_locks.Waits.test_beside_a_lock", "TimeoutExpired",
          "a reader takes an exclusive lock", "Readers wait for each other."),
    fault("exclusive", "test_locks.HeldLocks.test_killed", "the lock has another kind",
          "a reader holds an exclusive lock", "Readers wait for each other."),
    fault("shared", "test_locks.Waits.test_beside_a_lock", "does not wait for the lock",
          "a writer takes a shared lock", "Two additions at once lose a component."),
    fault("shared", "test_locks.HeldLocks.test_killed", "the lock has another kind",
          "a writer holds a shared lock", "Two additions at once lose a component."),
    fault("brief", "test_locks.HeldLocks.test_killed", "releases it too early",
          "a command releases its lock at once", "Two additions at once lose a component."),
    fault("kept", "test_pipes.Pipes.test_a_listing", "waits for the reader of the listing",
          "a command keeps its lock while it prints", "A command further down a pipe hangs."),
    fault("inherited", "test_locks.HeldLocks.test_killed", "the lock outlives the command",
          "a process inherits the lock", "All later commands hang."),
    fault("demanding", "test_locks.Waits.test_a_file_system_without_locks", STATUS,
          "a command needs a file system with locks", "No image there can be used."),
    fault("first", "test_locks.ReplacedImages.test_one_file", "differs",
          "a command works on the file that was replaced", "The change is lost."),
    fault("first", "test_locks.ReplacedImages.test_links", "does not wait for the lock",
          "a command works on the former target of a link", "The change is lost."),
    fault("first", "test_locks.ReplacedImages.test_a_removed_image", STATUS,
          "a command works on a removed file", "The change is lost, with status 0."),
    fault("once", "test_locks.ReplacedImages.test_five_files", "does not wait for the lock",
          "a command checks once whether its file was replaced", "The change is lost."),
    fault("once", "test_locks.ReplacedImages.test_many_files", "does not wait for the lock",
          "a command opens its image at most twice", "The change is lost."),
    fault("block", "test_pipes.Readers.test_no_reader", OUTPUT,
          "a listing loses its first block", "Some components cannot be seen."),

    # ---- interrupted calls
    fault("refusing", "test_interrupts.Interrupts.test_interrupted_calls", "differs",
          "an interrupted call is a fault", "A command that is stopped and continued fails."),
    fault("blind", "test_interrupts.Interrupts.test_interrupted_calls", "differs",
          "an interrupted read has read all bytes", "The command uses bytes that it has not read."),
    fault("losing", "test_interrupts.Interrupts.test_interrupted_calls", "differs",
          "an interrupted write has written all bytes", "Some bytes of the image are lost."),
    fault("stubborn", "test_interrupts.EndlessInterrupts.test_endless_interrupts", "differs",
          "an interrupted call is repeated without end", "The command hangs."),

    # ---- reports of cbfscheck
    edited("no overlap is reported", "/overlaps/d", "A write to one area changes another one.",
           "test_check_map.Small.test_an_overlap_at_the_start"),
    edited("a further map is at another offset", "s/0x2bc/0x2c0/", "The user looks at other bytes.",
           "test_check_map.Small.test_two_further_maps"),
    edited("an area that ends one byte outside is accepted", "/0x180.ends outside/d",
           "The update program refuses the image.",
           "test_check_map.Small.test_an_area_that_ends_one_byte_after_the_image"),
    edited("an area outside the limit is not named", "/isn.t checked/d",
           "The user believes that the area was checked.",
           "test_check_map.CheckedBytes.test_an_area_of_one_byte_too_many"),
    edited("a second entry in the tail is not reported", "/0xc0.entry in the unused tail/d",
           "A lost component cannot be found.", "test_check_region.Tails.test_two_entries"),
    edited("the largest content is four bytes smaller", "s/takes.100$/takes\t96/",
           "A build refuses a content that fits.",
           "test_check_region.LargestContent.test_a_run_between_components"),
    edited("an invalid digest is a remark", "s/^bad\\(.*sha512 invalid\\)/remark\\1/",
           "A damaged component is flashed.",
           "test_check_region.Sampled.test_a_content_that_is_not_that_of_its_digest"),
    edited("a need at an offset is always met", "/needed component is elsewhere/d",
           "A board whose bootblock moved is flashed.",
           "test_check_needs.Needs.test_a_component_at_an_offset"),
    edited("the list shows LZ4 as LZMA", "s/LZ4/LZMA/", "A script unpacks with the wrong program.",
           "test_check_list.List.test_compressed_components"),
    edited("17 rows of a kind are printed without a note", "/more of these/d",
           "The user overlooks findings.", "test_check_rows.RowsOfAKind.test_17_rows"),
    edited("one block too few is counted", "s/differ.2$/differ\t1/",
           "The update program erases too little.",
           "test_check_blocks.Areas.test_blocks_from_the_start_of_an_area"),
    edited("a change in a preserved area is a change", "s/^bad\tA/change\tA/",
           "An update loses settings.", "test_check_areas.Preserved"),
    edited("a moved component is not reported", "/component moved/d",
           "A component at a fixed address is lost.",
           "test_check_components.Components.test_two_components_that_moved"),
    edited("an erased bootblock is not missed", "/bootblock.*isn.t there/d",
           "A board without a bootblock is flashed.",
           "test_check_board.Board.test_an_erased_bootblock"),
    edited("an outdated SHA-384 is valid",
           "s/^bad\\(.*sha384\\) invalid: run cbfsseal IMAGE/remark\\1 valid/",
           "The board does not boot.", "test_check_anchor.Reports.test_sha384"),
    edited("a seventeenth area is compared",
           "s/^change\tP8\t-\t0x0\tnot compared/change\tP8\t-\t0x0\terase blocks differ\t1/",
           "A hostile map takes hours.", "test_limits.ComparedAreas.test_a_longer_old_image"),
    edited("the code of a tail's bytes is that of the tail", "s/tail-bytes/tail/",
           "A script ignores the finding.", "test_check_document.RowsOfAKind.test_16_rows"),
    edited("a control character has another code point", "s/u0001/u0002/",
           "A script finds no area of the name.", "test_check_document.Names.test_the_document"),
    edited("a finding has an unknown code", 's/"code":"map"/"code":"flashmap"/',
           "A script fails.", "test_check_schema.Documents", "not valid"),
    Wrapper("a bad report has status 0", "cbfscheck", 'run "$@"\nexit 0\n',
            "A script flashes a bad image.", "test_check_map.Small.test_no_area_FMAP", STATUS),
    reworded("a list of areas is a list of regions", "s/list of areas/list of regions/",
             "The user looks for another option.", "test_check_line.Errors", "cbfscheck"),
    fault("unlocked", "test_check_files.Locks.test_an_exclusive_lock", "False is not true",
          "a check of one image takes no lock", "The report is that of no image.", "cbfscheck"),
    Wrapper("a check takes 100 MB of memory", "cbfscheck",
            'python3 -S -c "bytearray([1]) * 10 ** 8"\nrun "$@"\n',
            "A check on a small machine is killed.",
            "test_limits.ManyAreas.test_nested_areas", "not less than or equal to"),

    # ---- images at random
    edited("a slot whose body is not signed is a signed one",
           "s/\tbody isn.t checked: no length is signed$/\tsigned slot/",
           "A user takes a slot for a signed one.", "test_check_random", OUTPUT),
    edited("flags of a GBB are decimal", "s/\t0x39$/\t57/",
           "A reader takes the number for another one.", "test_check_random", OUTPUT),
    edited("a valid digest of the flash map is an invalid one",
           "s/\tmap hash sha1 valid$/\tmap hash sha1 invalid: run cbfsseal IMAGE/",
           "A user seals an image that is right.", "test_check_random", OUTPUT),

    # ---- many commands at once
    fault("unlocked", "test_together", "seed", "commands at once take no lock",
          "Two additions at once lose a component."),
    fault("shared", "test_together", "seed", "commands at once share the lock",
          "Two additions at once lose a component."),
    fault("kept", "test_together", "does not end in", "a listing into a full pipe keeps its lock",
          "A command further down a pipe hangs."),

    # ---- pages, recipes, scripts, completions and installation
    filtered("a listing has another last byte", "sed 's/none$/nond/'",
             "A user takes a right output for a fault.",
             "test_pages.Examples.test_cbfstool", "+etc/cmdline"),
    after("a listing of an example has status 1", '*" print "*', "status=1",
          "A script stops.", "test_pages.Examples.test_cbfstool_on_another_board", "status: 1"),
    Wrapper("fmaptool prints a warning", "fmaptool", 'echo warning >&2\nrun "$@"\n',
            "A makefile prints a warning.", "test_pages.Examples.test_fmaptool", "+warning"),
    edited("the last row of a report differs", "s/0 changes/1 changes/",
           "A user takes a right report for a fault.", "test_pages.Examples.test_cbfscheck",
           "1 changes"),
    after("a listing of a recipe has status 1", '*" print "*', "status=1",
          "A recipe stops.", "test_recipes.Names.test_a_table", STATUS),
    after("an extracted component has another last byte", '*" extract "*',
          'for file; do :; done; [ ! -s "$file" ] || printf X >> "$file"',
          "A script gets other bytes.", "test_recipes.Makefile.test_all", "!="),
    filtered("a listing has another area", "sed 's/^COREBOOT/DOREBOOT/'",
             "A user cannot complete a region.",
             "test_completion_offers.BashOffers.test_each_line", "DOREBOOT"),
    filtered("a listing has no types", "sed 's/\traw\t/\tnull\t/'",
             "A user cannot complete a component.",
             "test_completion_offers.FishOffers.test_each_line", "!="),
]
