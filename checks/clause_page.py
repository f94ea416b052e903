"""The text of docs/CLAUSES.md, from the rows of checks/index.py; for checks/promises."""

import re

from index import CRATES, PROMISES, is_exported, read

COUNTED = [("files", "files of definitions"), ("definitions", "definitions"),
           ("clauses", "functions"), ("laws", "laws"), ("edits", "must-fail edits")]
HEAD = """# Definitions, clauses and tests of each rule

This page is generated: `checks/promises --write` makes it from `checks/clauses.tsv` and the \
sources. It cites {counts}.

[PROMISES.md](PROMISES.md) explains the promises, [FORMAT.md](FORMAT.md) the rules, section by \
section under the same titles, and [VERIFICATION.md](VERIFICATION.md) the tests.

- A *definition* is in `specs/` of a crate, in the terms of the format.
- A *clause* is an `ensures` of a public function. Its label is in parentheses, unless it is the \
only clause. The prover checks that the body satisfies it for all inputs that its `requires` \
allow.
- A *law* is the clause of a function with an empty body: a call gives its caller the law.
- A *must-fail edit* is an incorrect body. The prover has to refuse it. The gate tries the edits \
in `must-fail/`; those in `must-fail-by-hand/` are tried by hand (`tests/edits.py`).
- A *test* is in `src/` of the crate `library_tests`; a file of `tests/` runs the built programs.

A table names its crate. Other crates precede their names. A dash means none: without a must-fail \
edit, only the clause says that an incorrect body is refused. The link *proof* leads to the proof \
of a function or law. The mark ° means that there is no such folder: the prover derives the \
clauses from those of the called functions, or a trait declares the function, and each \
implementation is proved. For a called function that is private, the row names the folder with \
its proof.

`checks/promises` compares each name with the sources. A clause or law of a row has to use the \
definitions of this row, directly or through other definitions."""
ALLOCATING = """## Functions that can allocate memory

Beside the main functions, only these public functions take an allocator or a runtime, or return \
an allocation failure:
"""
PROMISE_TABLE = ["", "| Promise | Clauses and laws | Proofs of what is not public | Tests |",
                 "|---|---|---|---|"]
RULE_TABLE = ["", "| Rule of `{}` | Definitions | Clauses | Laws | Must-fail edits | Tests |",
              "|---|---|---|---|---|---|"]


def page(index):
    """Returns the text of the page."""
    counts = ", ".join(f"{len(index.cited[kind])} {text}" for kind, text in COUNTED)
    lines = [HEAD.format(counts=counts)]
    part = section = crate = None
    for row in index.rows:
        if row.part != part:
            lines += ["", f"## {row.part}"]
            part, section = row.part, row.part
            lines += PROMISE_TABLE if part == PROMISES else []
        if row.section != section:
            lines += ["", f"### {row.section}"]
            section, crate = row.section, None
        if row.crate != crate and part != PROMISES:
            lines += [line.format(row.crate) for line in RULE_TABLE]
            crate = row.crate
        lines.append(line_of(row))
    lines += ["", "## Definitions that only clauses inside a crate use", "",
              "| Files | Content |", "|---|---|"]
    for text, files in index.inside:
        lines.append(f"| {', '.join(f'`{name}.antt`' for name in files)} | {text} |")
    lines += ["", ALLOCATING]
    for crate, names in allocating(index).items():
        lines.append(f"- `{crate}`: {', '.join(f'`{name}`' for name in names)}")
    return "\n".join(lines) + "\n"


def line_of(row):
    """Returns the line of a row."""
    clauses = by_file(row, row.clauses, "src", ".rt")
    if row.methods:
        clauses += f"; of it {by_file(row, row.methods, 'src', '.rt')}"
    laws = ", ".join(shown(row, law) for law in filter(None, row.laws))
    if row.part == PROMISES:
        proved = "; ".join(filter(None, [clauses, laws, *row.items.get("none", ())]))
        cells = [row.title, proved, names_of(row, "proved"), names_of(row, "test")]
    else:
        if "proved" in row.items:
            clauses += f"; proved in {names_of(row, 'proved')}"
        defined = by_file(row, row.definitions, "specs", ".antt")
        cells = [row.title, defined or "\u2014", clauses or "\u2014", laws or "\u2014",
                 names_of(row, "edit"), names_of(row, "test")]
    return f"| {' | '.join(cells)} |"


def names_of(row, kind):
    """Returns the names of a kind of items, or a dash."""
    return ", ".join(f"`{name}`" for name in row.items.get(kind, ())) or "\u2014"


def by_file(row, found, folder, ending):
    """Returns definitions or functions, by their files."""
    files = {}
    for one in filter(None, found):
        files.setdefault((one.crate, one.file), []).append(one)
    parts = []
    for (crate, file), them in files.items():
        title = f"{'' if crate == row.crate else crate + '/'}{file}{ending}"
        names = ", ".join(shown(row, one, "") if folder == "src" else f"`{one.name}`"
                          for one in them)
        parts.append(f"[{title}](../crates/{crate}/{folder}/{file}{ending}): {names}")
    return "; ".join(parts)


def shown(row, cited, prefix=None):
    """Returns a function or a law with its labels and its proof."""
    if prefix is None:
        prefix = "" if cited.crate == row.crate else cited.crate + "/"
    labels = ", ".join(f"`{label}`" for label in cited.labels)
    text = f"`{prefix}{cited.name}`" + (f" ({labels})" if labels else "")
    return text + (f" [proof](../crates/{cited.proof})" if cited.proof else "\u00b0")


def allocating(index):
    """Returns, by crate, the public functions that can allocate.

    They take an allocator or a runtime, or can return an allocation failure.
    """
    found = {}
    for (crate, name), files in sorted(index.code.items()):
        is_left_out = crate == "library_tests" or name.endswith("::from")
        for file, fact in files.items():
            is_seen = fact.is_public and is_exported(crate, name.split("::")[0])
            if not is_left_out and is_seen and can_allocate(crate, file, name):
                found.setdefault(crate, []).append(name)
    return found


def can_allocate(crate, file, name):
    """Returns whether the signature of a function has an allocator, its failure or a runtime."""
    body = read(CRATES / crate / "src" / f"{file}.rt")
    owner, _, last = name.rpartition("::")
    if owner:
        block = rf"^(?:pub )?(?:impl|trait)\b[^\n]*\b{owner}\b.*?^}}"
        body = "".join(re.findall(block, body, re.M | re.S))
    end = r"(?:\n *requires|\n *ensures|\{\n|;|\n *//)"
    head = re.search(rf"\bfn {last}\b(.*?){end}", body, re.S)
    return bool(head and re.search(r"\bGlobal\b|\bAllocError\b|\brt: &", head[1]))
