"""Reads the contracts of sources and the definitions of specs; for checks/promises and contracts.

    for function in functions(text):      those of a file of code, in order
        function.title                    as `Head::read`, with the whole type: `Paged<F>::read`
        function.clauses                  each with its kind, its label and its text
    for title, text in definitions(text): those of a file of definitions, in order

A file is read line by line, as rt formats it: a type or a trait begins and ends at the first
column.
"""

import re
from typing import NamedTuple, Tuple

FUNCTION = re.compile(r"^(\s*)(pub )?(?:const |unsafe )*fn (\w+)")
BLOCK = re.compile(r"^(?:pub )?(impl|trait)\b(?:<[^{]*?>)?\s*(.*?)\s*(?:\{|$)")
CLAUSE = re.compile(r"^\s*(requires|ensures)\*?\s*(\w*)\s*\{")
GHOST = re.compile(r"^\s*ghost (?!use\b)(\w+)")
DEFINITION = re.compile(
    r"^(?:(?:abbrev|unfoldable|erased) )*pub (?:abbrev |data |record )?([^\s:({]+)")
HEAD = re.compile(r"\s*(?:abbrev )?(mutual|module)\b")


class Clause(NamedTuple):
    """A clause: `requires` or `ensures`, its label or "", and its text with the braces."""

    kind: str
    label: str
    text: str


class Block(NamedTuple):
    """An `impl` or a trait: its title without bounds, and the words after it; or no block."""

    kind: str = ""
    title: str = ""

    @property
    def is_trait(self):
        return self.kind == "trait"

    @property
    def is_of_trait(self):
        """Returns whether its functions are those of a trait."""
        return self.is_trait or " for " in self.title

    @property
    def type(self):
        """Returns the name of the type or the trait."""
        return re.match(r"\w*", self.title.split(" for ")[-1])[0]


class Function(NamedTuple):
    """A function: its block, its name, its signature, its clauses, and whether it has a body.

    `is_pub` is the word `pub`, `is_inside` whether the function is indented.
    """

    block: Block
    name: str
    is_pub: bool
    is_inside: bool
    signature: str
    clauses: Tuple[Clause, ...]
    is_empty: bool

    @property
    def title(self):
        return f"{self.block.title}::{self.name}" if self.block.title else self.name

    @property
    def is_public(self):
        """Returns whether others can call it, if they see its type."""
        return self.is_pub or self.block.is_trait


class Ghost(NamedTuple):
    """An item for the prover in a type or a trait, such as how callers see it."""

    block: Block
    word: str
    text: str

    @property
    def title(self):
        return f"{self.block.title}::{self.word}"


def without_comment(line):
    """Returns a line of Rattle without a comment at its end."""
    return re.sub(r"(^|\s)//.*", "", line)


def braced(lines, at):
    """Returns the text from the first brace of a line to its closing brace, and the next line."""
    depth, text = 0, []
    for number in range(at, len(lines)):
        line = without_comment(lines[number])
        text.append(line)
        depth += line.count("{") - line.count("}")
        if depth <= 0 and "{" in "".join(text):
            break
    whole = " ".join(text)
    return whole[whole.index("{") : whole.rindex("}") + 1], number + 1


def signature(lines, at):
    """Returns the parameters and the result of a function, and the line after them."""
    text = []
    for number in range(at, len(lines)):
        line = without_comment(lines[number])
        if number > at and (CLAUSE.match(line) or line.strip() == "{"):
            return " ".join(text), number
        text.append(line.rstrip("{;"))
        if line.rstrip().endswith((";", "{")):
            return " ".join(text), number + 1
        if line.rstrip().endswith("{}"):
            return " ".join(text), number + 1
    return " ".join(text), len(lines)


def clauses(lines, at):
    """Returns the clauses from a line on, and the line after them."""
    found = []
    while at < len(lines):
        head = CLAUSE.match(lines[at])
        if head:
            body, at = braced(lines, at)
            found.append(Clause(head[1], head[2], body))
        elif without_comment(lines[at]).strip():
            break
        else:
            at += 1
    return tuple(found), at


def items(text):
    """Returns the functions and the ghosts of a file of code, in order."""
    lines, found, block, at = text.splitlines(), [], Block(), 0
    while at < len(lines):
        line = lines[at]
        if head := BLOCK.match(line):
            block = Block(head[1], " ".join(head[2].split(" where ")[0].split()))
        elif line.startswith("}"):
            block = Block()
        if head := GHOST.match(line):
            body, end = braced(lines, at) if "{" in line else (line, at + 1)
            found.append(Ghost(block, head[1], body))
            at = end
        elif head := FUNCTION.match(line):
            function, at = function_at(lines, at, block, head)
            found.append(function)
        else:
            at += 1
    return found


def function_at(lines, at, block, head):
    """Returns the function whose head is at a line, and the line after its clauses."""
    declared, end = signature(lines, at)
    stated, after = clauses(lines, end)
    last = lines[after - 1 if after == end else after] if after < len(lines) else ""
    is_empty = last.rstrip().endswith("{}") or last.strip() == "{}"
    return Function(block, head[3], bool(head[2]), bool(head[1]), declared, stated, is_empty), after


def functions(text):
    """Returns the functions of a file of code, in order."""
    return [item for item in items(text) if isinstance(item, Function)]


def ghosts(text):
    """Returns the ghosts of a file of code, in order."""
    return [item for item in items(text) if isinstance(item, Ghost)]


def aliases(text):
    """Returns the other names of types, by the types."""
    return {found[2]: found[1] for found in re.finditer(r"^pub type (\w+) = (\w+)", text, re.M)}


def definitions(text):
    """Returns the title and the text of each public definition, and the heads of modules.

    A definition ends at an empty line, or where another one begins. In a `mutual` block and in a
    `module _`, definitions are indented.
    """
    found = []
    for part in re.split(r"\n\s*\n", text):
        lines = [line for line in part.splitlines() if not line.lstrip().startswith("--")]
        while lines and (found_head := HEAD.match(lines[0])):
            found += [("module", lines[0])] * (found_head[1] == "module")
            lines = lines[1:]
        while lines and lines[0].startswith("  "):
            lines = [line.removeprefix("  ") for line in lines]
        starts = [number for number, line in enumerate(lines) if DEFINITION.match(line)]
        for start, end in zip(starts, [*starts[1:], len(lines)]):
            title = DEFINITION.match(lines[start])[1]
            if title not in ("use", "mod"):
                found.append((title, "\n".join(lines[start:end])))
    return found
