#!/usr/bin/env python3
"""Breaks the boards of tests/boards.py in each way of tests/board_breakages.py, and asks judges.

    python3 -m tests.board_table [--one-image] [--minutes=N] [--cbfscheck] [TABLE]

The table is tests/boards.tsv by default. The other judges come first. Then cbfscheck, which is that
of tests/programs.py, checks the images for at most N minutes; with --one-image it compares no two
images, which takes long with a build that is not optimised. With --cbfscheck, only it is asked, and
the cells of the other judges stay as they are in the table.

Run by hand; the same tools are needed as for tests/boards.py. A judge *notices* a change if it says
more against the changed image than against the board. The judges are `futility verify`, `ifdtool
-t`, coreboot's `cbfstool print -v` of each region, ifittool (it enters the microcode again), the
rules of tests/board_rules.py for one image and for two, and cbfscheck, with the options that its
page recommends, for one image and for two. A cell has a dash if the judge does not apply or was not
asked, nothing if it notices nothing, and else what it says. At the end, the summary lists the harm
that neither the rules nor cbfscheck notice. The status is 1 if such harm has no reason, if one of
the other judges notices it without RSA, or if a rule calls a good change bad.
"""

import concurrent.futures
import json
import pathlib
import re
import resource
import subprocess
import sys
import tempfile
import time

from tests import board_rules, boards
from tests.board_breakages import all_changes
from tests.programs import has_program, program

COLUMNS = ("board", "structure", "change", "harm", "futility verify", "ifdtool -t",
           "cbfstool print -v", "ifittool -a", "rules, one image", "rules, two images",
           "cbfscheck, one image", "cbfscheck, two images", "passes because")
REGIONS = {"intel": ("COREBOOT", "FW_MAIN_A", "FW_MAIN_B", "RW_LEGACY"),
           "arm": ("COREBOOT", "FW_MAIN_A", "FW_MAIN_B"), "plain": ("COREBOOT",)}
NOT_ASKED = "-"
OUTPUT_LIMIT = 1 << 20


def limited():
    """Limits the memory and the output of a tool, since damaged images can make one loop."""
    resource.setrlimit(resource.RLIMIT_CPU, (60, 60))
    resource.setrlimit(resource.RLIMIT_FSIZE, (32 << 20, 32 << 20))


def run(folder, *words):
    """Returns the status and the first output of a command."""
    with open(folder / "output", "wb") as output:
        done = subprocess.run([str(word) for word in words], stdout=output, cwd=folder,
                              stderr=subprocess.STDOUT, preexec_fn=limited)
    with open(folder / "output", "rb") as seen:
        return done.returncode, seen.read(OUTPUT_LIMIT).decode(errors="replace")


# Why neither the rules nor cbfscheck notice a harmful change, by a part of its phrase.
RSA = "only RSA can tell"
NO_REASON = "no reason is known"
PASSES = (
    ("(RSA)", RSA),
    ("lost its flag PRESERVE", "cbfscheck notices it with two images and --keep-preserved"),
    ("a byte of the engine's body", "no digest covers the engine that these tools know"),
    ("the data of the network", "their own sum is known to no tool of these packages"),
    ("bit 12 of ME's base", "an unused region is sound, if OLD is not compared"),
    ("one microcode less", "a table may name fewer updates than the image has"),
    ("a skipped entry", "a table may have skipped entries"),
    ("the jump of the reset vector", "no digest covers the bootblock, and code is not read"),
    ("bootblock's code", "no digest covers the bootblock, and code is not read"),
    ("second half of the bootblock", "no digest covers the bootblock, and code is not read"),
    ("first byte of the bootblock", "no digest covers the bootblock, and code is not read"),
    ("the name of config", "a renamed component is a change; --need names what must exist"),
    ("becomes a deleted entry", "a removed component is a change; --need names what must exist"),
    ("revision has no digest", "a remark: builds leave some components without a digest"),
    ("a digest of another algorithm", "a remark: the firmware's refusal is not measured"),
    ("memory is smaller than its content", "no rule: `add-stage --ibb` makes such stages"),
    ("which has no digest", "the component has no digest, and --all-hashed is not given"),
)


def reason(change, row):
    """Returns why nothing notices a harmful change, or nothing if a rule or cbfscheck does."""
    if not change.harm or any(row[4:8]):
        return ""
    return next((text for part, text in PASSES if part in change.phrase), NO_REASON)


# ---- Judges; each returns a set of complaints, or None if it does not apply


def ask_futility(folder, rom, board):
    """Returns the complaints of `futility verify`."""
    if board == "plain":
        return None
    status, output = run(folder, boards.tool("futility"), "verify", rom)
    words = ("invalid", "missing", "fail", "error", "unable", "cannot")
    rows = {re.sub(r"[0-9a-f]{40,}|/\S+/", "", line).strip() for line in output.splitlines()
            if any(word in line.lower() for word in words)}
    return rows | ({f"status {status}"} if status else set())


def ask_ifdtool(folder, rom, board):
    """Returns the complaints of `ifdtool -t`."""
    if board != "intel":
        return None
    status, output = run(folder, boards.tool("ifdtool"), "-t", rom)
    rows = {line.strip() for line in output.splitlines()
            if "mismatch" in line or "No Flash" in line or "Unknown" in line}
    return rows | ({f"status {status}"} if status else set())


def ask_cbfstool(folder, rom, board):
    """Returns the complaints of coreboot's `print -v` on each region."""
    rows = set()
    for region in REGIONS[board]:
        status, output = run(folder, boards.tool("cbfstool"), rom, "print", "-v", "-r", region)
        name = ""
        for line in output.splitlines():
            if line.startswith(("E:", "W:", "File @", "invalid")) or "ERROR:" in line:
                rows.add(f"{region}: {line.strip()[:60]}")
            elif line[:1].strip() and "[METADATA" not in line:
                name = line.split("  ")[0]
            elif "invalid" in line:
                rows.add(f"{region}: {name}: digest invalid")
            if "[METADATA" in line and not line.endswith(":valid"):
                rows.add(f"{region}: metadata hash invalid")
        if board != "plain" and region == "COREBOOT" and "[METADATA" not in output:
            rows.add(f"{region}: no metadata hash")
        if status:
            rows.add(f"{region}: status {status}")
    return rows


def ask_ifittool(folder, rom, board):
    """Returns the complaints of ifittool when it enters the microcode into a cleared table."""
    if board != "intel":
        return None
    copy = folder / "copy.rom"
    copy.write_bytes(rom.read_bytes())
    words = (boards.tool("ifittool"), "-f", copy, "-r", "COREBOOT", "-s", "8")
    first, _ = run(folder, *words, "-c")
    added, _ = run(folder, *words, "-a", "-n", "cpu_microcode_blob.bin", "-t", "1")
    _, output = run(folder, *words, "-D")
    count = len(re.findall("Microcode", output))
    rows = {f"status {status}" for status in (first, added) if status}
    return rows | ({f"{count} microcode updates"} if count != 2 else set())


def rule_rows(findings):
    """Returns bad findings as texts."""
    return {f"{one.rule}: {one.text}" for one in findings if one.verdict == board_rules.BAD}


def cbfscheck_rows(folder, *words):
    """Returns the codes of cbfscheck's bad rows with area and component."""
    if not has_program("cbfscheck"):
        return None
    _, output = run(folder, program("cbfscheck"), "--json", *words)
    try:
        rows = json.loads(output)["rows"]
    except ValueError:
        return {f"no report: {output[:60]}"}
    return {":".join(str(row[key]) for key in ("code", "area", "component") if key in row)
            for row in rows if row["verdict"] == "bad"}


PAGE_OPTIONS = {
    "intel": ("--need", "COREBOOT:bootblock@end"), "plain": ("--need", "COREBOOT:bootblock@end"),
    "arm": (),
}


def other_judges(board, old, data, folder):
    """Returns the complaints of each judge but cbfscheck."""
    rom = folder / "image.rom"
    rom.write_bytes(data)
    asked = [ask(folder, rom, board) for ask in (ask_futility, ask_ifdtool, ask_cbfstool,
                                                 ask_ifittool)]
    findings = board_rules.check(data), board_rules.compare(old, data, flash=True)
    return asked + [rule_rows(one) for one in findings]


def cbfscheck(board, old, data, folder, two=True):
    """Returns the complaints of cbfscheck about one image, and about two."""
    rom, before = folder / "image.rom", folder / "old.rom"
    rom.write_bytes(data)
    before.write_bytes(old)
    page = ("--flash", "-r", "COREBOOT", *PAGE_OPTIONS[board], before, rom)
    return [cbfscheck_rows(folder, "-r", "COREBOOT", rom),
            cbfscheck_rows(folder, *page) if two else None]


def new_complaints(ask, number, old, known, *more):
    """Returns what judges say against a change, by its number, and not against the board."""
    change = all_changes()[number]
    with tempfile.TemporaryDirectory() as folder:
        said = ask(change.board, old, change.apply(old), pathlib.Path(folder), *more)
    return [None if one is None else one - base for one, base in zip(said, known)]


def cell(complaints):
    """Returns the text of a cell; at most three complaints are written."""
    if complaints is None:
        return NOT_ASKED
    rows = sorted(re.sub(r"/\S*/|[\t\n]", "", one) for one in complaints)
    return "; ".join(rows[:3]) + (f"; {len(rows) - 3} more" if len(rows) > 3 else "")


def report(changes, rows):
    """Prints what was noticed, and returns whether each gap and each alarm has a reason."""
    pairs = list(zip(changes, rows))
    harmful = [(one, row) for one, row in pairs if one.harm]
    good = [(one, row) for one, row in pairs if not one.harm]
    print(f"{len(changes)} changes, {len(harmful)} do harm")
    for n, name in enumerate(COLUMNS[4:12]):
        asked = sum(row[n] is not None for _, row in harmful)
        noticed = sum(bool(row[n]) for _, row in harmful)
        alarms = sum(bool(row[n]) for _, row in good)
        print(f"  {name}: notices {noticed} of {asked} harmful changes, refuses {alarms} good ones")
    wrong = []
    for one, row in harmful:
        if not any(row[4:8]):
            others = [name for name, seen in zip(COLUMNS[4:8], row) if seen]
            why = reason(one, row)
            print(f"passes: {one.board}: {one.phrase}: {why} [{', '.join(others)}]")
            if why == NO_REASON or others and why != RSA:
                wrong.append(f"passes: {one.board}: {one.phrase}")
    for one, row in good:
        if row[4] or row[5]:
            wrong.append(f"good, but bad: {one.board}: {one.phrase}: {cell(row[5])}")
    print(*wrong, f"{len(wrong)} gaps or alarms without a reason", sep="\n")
    return not wrong


def known_complaints(ask, images, *more):
    """Returns what judges say against the boards themselves, and prints it."""
    known = {}
    for name, data in images.items():
        with tempfile.TemporaryDirectory() as folder:
            known[name] = ask(name, data, data, pathlib.Path(folder), *more)
        print(f"{name}: {ask.__name__}: {[cell(one) for one in known[name]]}", flush=True)
    return known


def write(path, changes, rows):
    """Writes the table."""
    lines = ["\t".join(COLUMNS)]
    for one, row in zip(changes, rows):
        fields = [one.board, one.structure, one.phrase, one.harm or "none", *map(cell, row),
                  reason(one, row)]
        lines.append("\t".join(fields))
    path.write_text("\n".join(lines) + "\n")


def main(*words):
    options = [word for word in words if word.startswith("--")]
    names = [word for word in words if word not in options]
    limits = [float(one.partition("=")[2]) for one in options if one.startswith("--minutes=")]
    two = "--one-image" not in options
    path = pathlib.Path(names[0] if names else pathlib.Path(__file__).with_name("boards.tsv"))
    images = {name: boards.build(name) for name in boards.BUILDERS}
    changes = all_changes()
    if "--cbfscheck" in options:
        rows = kept_rows(path, changes)
    else:
        rows = ask_others(images, changes)
        write(path, changes, rows)
    if has_program("cbfscheck"):
        end = time.monotonic() + 60 * min(limits, default=24 * 60)
        ask_cbfscheck(path, images, changes, rows, two, end)
    sys.exit(0 if report(changes, rows) else 1)


def ask_others(images, changes):
    """Returns a row of complaints for each change, without those of cbfscheck."""
    known = known_complaints(other_judges, images)
    with concurrent.futures.ProcessPoolExecutor(2) as pool:
        tasks = [pool.submit(new_complaints, other_judges, n, images[one.board], known[one.board])
                 for n, one in enumerate(changes)]
        return [[*task.result(), None, None] for task in tasks]


def kept_rows(path, changes):
    """Returns the rows of the table, in which a cell is one complaint, without cbfscheck."""
    kept = {}
    for text in path.read_text().splitlines()[1:]:
        fields = text.split("\t")
        cells = [None if one == NOT_ASKED else {one} - {""} for one in fields[4:10]]
        kept[fields[0], fields[2]] = [*cells, None, None]
    return [kept[one.board, one.phrase] for one in changes]


def ask_cbfscheck(path, images, changes, rows, two, end):
    """Fills the columns of cbfscheck up to a time, first for what nothing else notices."""
    known = known_complaints(cbfscheck, images, two)
    late = ("slot", "GBB", "descriptor")
    order = sorted(range(len(changes)), key=lambda n: (
        any(rows[n][4:6]) or not changes[n].harm, changes[n].structure in late))
    for start in range(0, len(order), 8):
        if time.monotonic() > end:
            print(f"cbfscheck: {len(order) - start} changes were not asked")
            return
        part = order[start : start + 8]
        with concurrent.futures.ProcessPoolExecutor(2) as pool:
            tasks = [pool.submit(new_complaints, cbfscheck, n, images[changes[n].board],
                                 known[changes[n].board], two) for n in part]
            for n, task in zip(part, tasks):
                rows[n][6:8] = task.result()
        write(path, changes, rows)


if __name__ == "__main__":
    main(*sys.argv[1:])
