"""Mistakes in the main functions, in the session of cbfstool, and in functions of flash_store that
have no contract.

A function with a contract needs no mutant here, because the prover refuses the change.
"""

from tests.mutants import VERSION, Mutant

CBFSTOOL = "crates/cbfstool/src/main.rt"
SESSION = "crates/cbfstool/src/session.rt"
FMAPTOOL = "crates/fmaptool/src/main.rt"
FMAP_SESSION = "crates/fmaptool/src/session.rt"
CBFSCHECK = "crates/cbfscheck/src/main.rt"
CHECK_TEXTS = "crates/cbfscheck/src/texts.rt"
CBFSSEAL = "crates/cbfsseal/src/main.rt"
SEAL_TEXTS = "crates/cbfsseal/src/texts.rt"
OS_FILE = "crates/flash_store/src/os_file.rt"
OUTPUT_FILE = "crates/flash_store/src/output_file.rt"
DESCRIPTORS = "crates/flash_store/src/standard_descriptors.rt"
IDENTITY = "crates/flash_store/src/file_identity.rt"
ARGUMENTS = "crates/flash_store/src/arguments.rt"

TESTS = (
    "test_statuses", "test_files", "test_order", "test_note", "test_pipes", "test_check_help",
    "test_empty_path", "test_seal", "test_seal_faults", "test_interrupts",
    "test_standard_descriptors", "test_fmaptool", "test_create", "test_unusual_files",
    "test_command_line", "test_print", "test_layout", "test_extract", "test_add", "test_remove",
    "test_locks", "test_check_line", "test_check_files", "test_pages",
)

MUTANTS = [
    # ---- cbfstool
    Mutant(
        "a listing keeps its lock while it prints", SESSION,
        "            image.flash().unlock();\n", "            let _held = image.flash();\n",
        "A command further down the pipe that changes the image waits for ever.",
        "test_pipes.Pipes.test_a_listing",
    ),
    Mutant(
        "a refused listing prints no rows", SESSION,
        "progress.after(*step, self.take(*step));", "progress.after(*step, Ok(self.take(*step)?));",
        "The components before a damaged entry cannot be seen.",
        "test_order.Commands.test_print_shows_the_rows_before_the_damage",
    ),
    Mutant(
        "a failed write of the output is success", SESSION,
        "        Ok(written?)\n", "        let _lost = written;\n        Ok(())\n",
        "A listing or an extracted file on a full disk is cut off with status 0.",
        "test_statuses.FullOutputs.test_an_output_fault",
    ),
    Mutant(
        "a failed write-back is success", SESSION,
        "Ok(image.flash().write_back()?)", "image.flash().write_back().or(Ok(()))",
        "Bytes that a block device has refused are reported as stored.",
        "test_unusual_files.LoopDevice.test_bytes_that_are_not_stored",
    ),
    Mutant(
        "a failed write-back is an output fault", SESSION,
        "Ok(image.flash().write_back()?)",
        "image.flash().write_back().map_err(|_| Refusal::Output)",
        "The message names the output file, and the image has failed.",
        "test_unusual_files.LoopDevice.test_bytes_that_are_not_stored",
    ),
    Mutant(
        "a bad command line has status 1", CBFSTOOL,
        "ExitCode::from(status_of(answer))", "ExitCode::from(status_of(answer).min(1))",
        "A makefile cannot distinguish a typing error from a refused image.",
        "test_statuses.Usages.test_a_bad_command_line",
    ),
    Mutant(
        "a message goes to standard output", CBFSTOOL,
        'eprintln!(rt; "cbfstool: {refusal}")', 'println!(rt; "cbfstool: {refusal}")',
        "The message is a row of the listing.",
        "test_statuses.Results.test_a_message_is_on_standard_error",
    ),
    Mutant(
        "the usage has status 2", CBFSTOOL,
        "        return rt.print(USAGE).map_err(|_| Refusal::Output);\n",
        "        let _printed = rt.print(USAGE);\n        return Err(Refusal::Usage);\n",
        "A script that prints the usage ends with an error.",
        "test_statuses.Usages.test_the_usage_of_cbfstool",
    ),
    Mutant(
        "the usage lacks a command", CBFSTOOL,
        'remove read write create\n"', 'remove read write\n"', "A user does not find create.",
        "test_statuses.Usages.test_the_usage_of_cbfstool",
    ),
    Mutant(
        "the source is opened before the image", SESSION,
        "        match FileFlash::open_with(",
        "        if lock == Lock::Exclusive && !self.file.is_empty() {\n            "
        "self.open_input(Step::OpenInput)?;\n        }\n"
        "        match FileFlash::open_with(",
        "With a missing image and a missing source the message names the source.",
        "test_order.Commands.test_files",
    ),
    Mutant(
        "an argument that is not UTF-8 is a lack of memory", ARGUMENTS,
        "env::args(rt)?",
        "env::args(rt).map_err(|_| io::Error::from(io::ErrorKind::OutOfMemory))?",
        "The user looks for memory, and a name is wrong.",
        "test_statuses.Usages.test_an_argument_that_is_not_utf_8", ("cbfstool", "cbfsseal"),
    ),
    Mutant(
        "a source that is too large is a source fault", SESSION,
        "self.open_input(step),", "self.open_input(step).map_err(|_| Refusal::Source),",
        "The message does not name the size as the cause.",
        "test_statuses.Results.test_a_source_that_is_too_large",
    ),
    Mutant(
        "each command shares the lock of its image", SESSION,
        "Step::OpenImage(lock) => self.open_image(step, lock),",
        "Step::OpenImage(_) => self.open_image(step, Lock::Shared),",
        "Two additions at once lose a component.",
        "test_locks.Waits.test_beside_a_lock",
    ),
    Mutant(
        "each command locks its image exclusively", SESSION,
        "Step::OpenImage(lock) => self.open_image(step, lock),",
        "Step::OpenImage(_) => self.open_image(step, Lock::Exclusive),",
        "Readers wait for each other.",
        "test_locks.Waits.test_beside_a_lock",
    ),
    Mutant(
        "the collected output is not written", SESSION,
        "Step::WriteOutput => self.write_output(),", "Step::WriteOutput => Ok(()),",
        "An extracted file lacks its last bytes, with status 0.",
        "test_files.Outputs.test_a_longer_output_is_emptied",
    ),
    Mutant(
        "an extracted component goes to standard output", SESSION,
        "Step::MakeOutput => self.make_output(step),", "Step::MakeOutput => Ok(()),",
        "The file is not made, and its bytes are on the terminal.",
        "test_files.Outputs.test_a_longer_output_is_emptied",
    ),
    Mutant(
        "the output may be the image", SESSION,
        "        let Some(image) = &*self.image else {\n            return Err(Refusal::Device);\n"
        "        };\n        let file = create_output(self.rt, self.file, "
        "image.flash().identity());\n",
        "        let other = flash_store::FileIdentity {\n            device: 0,\n"
        "            inode: 0,\n        };\n"
        "        let file = create_output(self.rt, self.file, other);\n",
        "read -f IMAGE empties the image.",
        "test_files.Outputs.test_an_output_that_is_the_image",
    ),
    Mutant(
        "an addition reads nothing of its source", SESSION,
        "(Some(input), Receiver::Standard(out)) => {\n"
        "                run_with_map(image, command, input, out, used)",
        "(Some(_), Receiver::Standard(out)) => {\n"
        "                run_with_map(image, command, nothing, out, used)",
        "The component is empty, with status 0.",
        "test_note.Outdated.test_after_an_addition",
    ),
    Mutant(
        "the note is on standard output", CBFSTOOL,
        "        let _told = eprintln!(rt;\n", "        let _told = println!(rt;\n",
        "A script that reads the output of a command takes the note for a row.",
        "test_note.Outdated.test_after_an_addition",
    ),
    Mutant(
        "the note does not name the image", CBFSTOOL,
        "print_notes(rt, line.image(), notes);", 'print_notes(rt, "IMAGE", notes);',
        "In the log of a build with several images, the user seals the wrong one.",
        "test_note.Outdated.test_the_path_is_the_argument",
    ),
    Mutant(
        "the note follows a refusal too", CBFSTOOL,
        "session.notes(answer);", "session.notes(Ok(()));",
        "A refused command seems to have changed the image.",
        "test_note.NotOutdated.test_after_a_refused_command",
    ),
    Mutant(
        "a hidden flash map gets no note", CBFSTOOL,
        "        print_map_note(rt, note);\n", "        let _untold = note;\n",
        "The next command changes a region of another map, and nobody is told.",
        "test_note.OtherMaps.test_an_addition_of_a_map",
    ),
    Mutant(
        "a region with the flash map has the note on other areas", CBFSTOOL,
        '"cbfstool: note: the region holds the flash map"',
        '"cbfstool: note: the region contains other areas of the flash map"',
        "The user looks for an overwritten area, and has lost the map.",
        "test_note.WrittenRegions.test_a_region_at_the_map",
    ),
    Mutant(
        "the note is printed under the lock", CBFSTOOL,
        "    drop(image);\n", "",
        "While nobody reads the messages of a job, all commands on the image wait.",
        "test_note.Outdated.test_the_lock_is_released_before_the_note",
    ),
    # ---- fmaptool
    Mutant(
        "fmaptool ignores a third argument", FMAPTOOL,
        "read_words(texts.as_slice())", "read_words(&texts[..texts.len().min(2)])",
        "A misplaced option is ignored, and a table is written.",
        "test_statuses.Usages.test_a_bad_command_line",
    ),
    Mutant(
        "a missing descriptor leaves an empty table", FMAP_SESSION,
        "Invocation::Compile { input, .. } = self.invocation else {\n            return "
        "Err(Failure::Usage);\n        };\n",
        "Invocation::Compile { input, output } = self.invocation else {\n            return "
        "Err(Failure::Usage);\n        };\n        let _early = OpenOptions::new()"
        ".write(true).create(true).open(self.rt, output);\n",
        "make takes the empty table for a result.",
        "test_statuses.Results.test_a_file_that_is_missing",
    ),
    Mutant(
        "a failed write of the table is success", FMAP_SESSION,
        "Some(output) => Ok(output.flush()?),",
        "Some(output) => {\n                let _lost = output.flush();\n                Ok(())\n"
        "            }",
        "A full disk leaves an incomplete table with status 0.",
        "test_statuses.FullOutputs.test_an_output_fault",
    ),
    Mutant(
        "a descriptor that cannot be opened is an output fault", FMAP_SESSION,
        "file.map_err(|fault| step.failure(&fault))?;\n        self.input",
        "file.map_err(|fault| Step::MakeOutput.failure(&fault))?;\n        self.input",
        "The message names the wrong file.",
        "test_statuses.Results.test_a_file_that_is_missing",
    ),
    Mutant(
        "fmaptool writes its table over its descriptor", FMAP_SESSION,
        "Some(FileIdentity::of(&metadata))",
        "Some(FileIdentity {\n            device: 0,\n            inode: metadata.len() & 0,\n"
        "        })",
        "fmaptool board.fmd board.fmd destroys the descriptor.",
        "test_files.Outputs.test_an_output_that_is_the_descriptor",
    ),
    Mutant(
        "a bad command line of fmaptool has status 1", FMAPTOOL,
        "status_of(answer.map_err(|failed| failed.failure))",
        "status_of(answer.map_err(|failed| failed.failure)).min(1)",
        "A makefile cannot distinguish a typing error from a refused descriptor.",
        "test_statuses.Usages.test_a_bad_command_line",
    ),
    # ---- cbfscheck
    Mutant(
        "a bad finding has status 0", CBFSCHECK,
        "    Ok(is_bad)\n", "    Ok(!is_bad)\n",
        "A CI job flashes a bad image.",
        "test_check_help.CheckHelp.test_the_exit_status",
    ),
    Mutant(
        "a report that cannot be written has status 0", CBFSCHECK,
        "    out.flush().map_err(|_| Refusal::Output)?;\n    Ok(is_bad)",
        "    let _lost = out.flush();\n    Ok(is_bad)",
        "A report on a full disk is cut off, and the job goes on.",
        "test_statuses.FullOutputs.test_an_output_fault",
    ),
    Mutant(
        "cbfscheck opens NEW before OLD", CBFSCHECK,
        "            let old_image = open(rt, old)?;\n"
        "            let new_image = open(rt, new)?;\n",
        "            let new_image = open(rt, new)?;\n"
        "            let old_image = open(rt, old)?;\n",
        "If both are missing, the message names the second one.",
        "test_statuses.Results.test_a_file_that_is_missing",
    ),
    Mutant(
        "the usage of cbfscheck goes to standard output", CBFSCHECK,
        'eprint!(rt; "{USAGE}")', "rt.print(USAGE)", "A script takes the usage for a report.",
        "test_statuses.Usages.test_the_usage_of_cbfscheck",
    ),
    Mutant(
        "the usage of cbfscheck has status 0", CBFSCHECK,
        'eprint!(rt; "{USAGE}");\n        return ExitCode::from(2);',
        'eprint!(rt; "{USAGE}");\n        return ExitCode::from(0);',
        "A CI job with an empty variable passes without a check.",
        "test_statuses.Usages.test_the_usage_of_cbfscheck",
    ),
    Mutant(
        "an error of cbfscheck has status 1", CBFSCHECK,
        "ExitCode::from(status_of(outcome))", "ExitCode::from(status_of(outcome).min(1))",
        "A missing image looks like a bad one.",
        "test_check_help.CheckHelp.test_the_exit_status",
    ),
    Mutant(
        "cbfscheck takes NEW for OLD", CBFSCHECK,
        "                old_image,\n                new_image,\n",
        "                old_image: new_image,\n                new_image: old_image,\n",
        "An added component is reported as removed.",
        "test_order.Changes.test_rows_of_components",
    ),
    Mutant(
        "cbfscheck prints the version of another release", CHECK_TEXTS,
        f"cbfscheck {VERSION}\\n", "cbfscheck 1.0\\n", "A report names the wrong version.",
        "test_statuses.Usages.test_the_versions",
    ),
    Mutant(
        "the help of cbfscheck counts from the image", CHECK_TEXTS,
        "from the start of the area", "from the start of the image",
        "Needed components are reported as misplaced.",
        "test_check_help.CheckHelp.test_the_origin_of_an_offset", is_new=False,
    ),
    Mutant(
        "the help of cbfscheck states 20 rows", CHECK_TEXTS,
        "16 rows of a kind", "20 rows of a kind", "The user expects four more rows.",
        "test_check_help.CheckHelp.test_the_rows_of_a_kind", is_new=False,
    ),
    # ---- cbfsseal
    Mutant(
        "a refusal of cbfsseal has status 0", CBFSSEAL,
        "ExitCode::from(status_of(Err(refusal)))", "ExitCode::from(status_of(Ok(())))",
        "An image that does not boot is flashed.",
        "test_statuses.Results.test_the_statuses",
    ),
    Mutant(
        "a bad command line of cbfsseal has status 1", CBFSSEAL,
        "ExitCode::from(status_of(Err(refusal)))",
        "ExitCode::from(status_of(Err(refusal)).min(1))",
        "A makefile cannot distinguish a typing error from a refused image.",
        "test_statuses.Usages.test_a_bad_command_line",
    ),
    Mutant(
        "cbfsseal always accepts components without a digest", CBFSSEAL,
        "seal(&mut paged, line.demand)", "seal(&mut paged, cbfs_anchor::Demand::Found)",
        "The firmware refuses a component of the sealed image.",
        "test_statuses.Seals.test_a_component_without_a_digest",
    ),
    Mutant(
        "cbfsseal does not wait until a block device has stored the digests", CBFSSEAL,
        "if paged.flash().write_back().is_err() {", "if false {",
        "The user removes a card before it has the digests.",
        "test_seal_faults.BlockDevice.test_the_digests_are_stored",
    ),
    Mutant(
        "a message of cbfsseal has no name of the component", CBFSSEAL,
        "if name.is_empty() {", "if true {",
        "The user has to look for the component at its position.",
        "test_statuses.Seals.test_a_component_without_a_digest",
    ),
    Mutant(
        "cbfsseal prints its report without -v", CBFSSEAL,
        "if line.is_verbose {", "if !line.is_verbose {",
        "A script that expects no output fails.",
        "test_statuses.Seals.test_the_digests",
    ),
    Mutant(
        "the help of cbfsseal has another status", SEAL_TEXTS,
        "1 if the image is refused", "3 if the image is refused",
        "A script waits for a status that never comes.",
        "test_statuses.Seals.test_the_help",
    ),
    # ---- flash_store
    Mutant(
        "the name of the program is an argument", ARGUMENTS,
        ".skip(1)", ".skip(0)", "cbfstool without arguments does not print its usage.",
        "test_statuses.Usages.test_the_usage_of_cbfstool", ("cbfstool",),
    ),
    Mutant(
        "files are compared by their inodes alone", IDENTITY,
        "device: metadata.dev(),", "device: 0,",
        "An edit lands in a file that was moved away from another file system.",
        "test_files.FileSystems.test_an_output_of_the_same_inode", ("fmaptool",), is_new=False,
    ),
    Mutant(
        "an image is opened at most ten times", OS_FILE,
        "const OPENINGS: u32 = 1000;", "const OPENINGS: u32 = 10;",
        "A command beside a job that renames images is refused.",
        "test_locks.ReplacedImages.test_many_files", ("cbfstool",), is_new=False,
    ),
    Mutant(
        "the length of a source is that of its path", OS_FILE,
        "let metadata = file.metadata()?;", "let metadata = rt.metadata(path)?;",
        "A file that is moved onto the source meanwhile gives a wrong length.",
        "test_files.Calls.test_a_source_that_is_replaced_while_it_is_opened",
        ("cbfstool",),
        is_new=False,
    ),
    Mutant(
        "a source may have more bytes than the system states", OS_FILE,
        "if !ends_at(&file, u64::from(len))? {", "if false {",
        "add -f /proc/self/status adds an empty component.",
        "test_files.Sources.test_a_source_with_more_bytes_than_stated", ("cbfstool",),
        is_new=False,
    ),
    Mutant(
        "a system file is read at the offset 0", OS_FILE,
        "self.file.read_at(out, at);", "self.file.read_at(out, 0);",
        "Each command sees the first bytes of the image in place of those that it asked for.",
        "test_print.Samples.test_listings", ("cbfstool",),
    ),
    Mutant(
        "a system file is written at the offset 0", OS_FILE,
        "self.file.write_at(bytes, at);", "self.file.write_at(bytes, 0);",
        "An addition overwrites the first bytes of the image.",
        "test_add.Samples.test_a_small_region", ("cbfstool",),
    ),
    Mutant(
        "a file system without locks is refused", OS_FILE,
        "fault.kind() == ErrorKind::Unsupported || fault.raw_os_error() == Some(ENOLCK)", "false",
        "No command works on some network file systems.",
        "test_unusual_files.Locks.test_errors_of_the_lock", ("cbfstool",),
    ),
    Mutant(
        "each error of a lock is ignored", OS_FILE,
        "Err(fault) if tells_no_locks(&fault) => Ok(()),", "Err(_) => Ok(()),",
        "A command runs without its lock after an error.",
        "test_unusual_files.Locks.test_errors_of_the_lock", ("cbfstool",),
    ),
    Mutant(
        "an image that was moved away during the wait is changed", OS_FILE,
        "if opened.is_at(rt, path)? {", "if true {", "An addition is lost with the old file.",
        "test_locks.ReplacedImages.test_many_files", ("cbfstool",),
    ),
    Mutant(
        "create does not truncate the image", OS_FILE,
        "            opened.file.set_len(0)?;\n", "", "A larger old image keeps its last bytes.",
        "test_files.Outputs.test_create_shortens_a_longer_image", ("cbfstool",),
    ),
    Mutant(
        "create accepts a device that is too small", OS_FILE,
        "} else if opened.len()? < size {", "} else if opened.len()? == 0 {",
        "The device is overwritten before the refusal.",
        "test_unusual_files.LoopDevice.test_create_on_a_smaller_device", ("cbfstool",),
    ),
    Mutant(
        "a pipe is opened as an image", OS_FILE,
        "        check_path(rt, access, path)?;\n", "",
        "cbfscheck waits for ever for a writer of the pipe.",
        "test_files.Sources.test_a_pipe_is_no_image", ("cbfscheck",),
    ),
    Mutant(
        "an output file keeps its last bytes", OUTPUT_FILE,
        "if kind == FileKind::Regular {", "if kind == FileKind::BlockDevice {",
        "An older, longer output keeps its end.",
        "test_files.Outputs.test_a_longer_table_is_emptied", ("fmaptool",),
    ),
    Mutant(
        "an output file is emptied before it is compared", OUTPUT_FILE,
        "OpenOptions::new().write(true).create(true)",
        "OpenOptions::new().write(true).create(true).truncate(true)",
        "extract -f IMAGE empties the image.",
        "test_files.Outputs.test_an_output_that_is_the_descriptor", ("fmaptool",), is_new=False,
    ),
    Mutant(
        "two closed descriptors are filled", DESCRIPTORS,
        "for _ in 0..STANDARD {", "for _ in 1..STANDARD {",
        "With three closed descriptors the image is standard error: a message under its lock would "
        "be written into it.",
        "test_standard_descriptors.WaitingCommands", ("cbfstool",), is_new=False,
    ),
    Mutant(
        "no null device replaces the root directory", DESCRIPTORS,
        'OpenOptions::new().read(true).open(rt, "/dev/null"),',
        'OpenOptions::new().read(true).open(rt, "/"),',
        "In a sandbox without access to the root directory no command works.",
        "test_files.Calls.test_a_root_directory_that_cannot_be_opened", ("fmaptool",),
        is_new=False,
    ),
    Mutant(
        "standard error is no standard descriptor", DESCRIPTORS,
        "const STANDARD: i32 = 3;", "const STANDARD: i32 = 2;",
        "With a closed standard error the image takes its place: a message under its lock would be "
        "written into it.",
        "test_standard_descriptors.WaitingCommands", ("cbfstool",),
    ),
]
