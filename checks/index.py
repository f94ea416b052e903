"""The rows of checks/clauses.tsv, with what they name found in the sources; for checks/promises.

A row is a line, its fields parted by tabs. The first field is its kind:

  part TITLE, section TITLE       headings; the sections of "The rules of the formats" are those of
                                  FORMAT.md
  rule CRATE TEXT                 a rule; the rows after it belong to it, and their names to this
                                  crate, if none is given
  promise NUMBER..                promises, with the rows after them
  defined NAME..                  its definitions
  clause FUNCTION(LABEL,..)..     clauses of public functions; without labels the only clause of the
                                  function
  method FUNCTION(LABEL,..)..     clauses of a trait's function, as the type of the row `clause` has
                                  it
  proved FOLDER..                 folders of proofs of what isn't public
  law NAME(LABEL,..)..            laws, with some of their clauses or all
  edit NAME.., test NAME..        must-fail edits; tests of `library_tests`, and files of tests
  none TEXT                       why there is no clause
  inside TEXT FILE..              files of definitions that only clauses of private functions name

A name is NAME or CRATE/NAME, and NAME@FILE if several files of the crate have it.
"""

import functools
import pathlib
import re
import sys
from typing import NamedTuple, Optional, Tuple

import sources

TOP = pathlib.Path(__file__).resolve().parent.parent
sys.path.insert(0, str(TOP))
from tests import edits  # noqa: E402 (found in the folder above)

CRATES = TOP / "crates"
RULES, PROMISES, INSIDE = "The rules of the formats", "The promises", "inside"
ITEMS = {"defined", "clause", "method", "proved", "law", "edit", "test", "none"}
FIELDS = {"part": 2, "section": 2, "rule": 3, "none": 2}
USE = re.compile(r"use Rattle\.(\w+)\.specs\.((?:\w+\.)*?\w+)"
                 r"(\.\{[^}]*\}| as \w+|\.[^\s.;{]+(?=;|\n|$))")
WORD = re.compile(r"(?<![\w.'])([A-Za-z_][\w']*)(?:\.([A-Za-z_][\w']*))?")


@functools.lru_cache(maxsize=None)
def read(path):
    """Returns the text of a file, or None."""
    return path.read_text(encoding="utf-8") if path.is_file() else None


def stem(path, folder, ending):
    """Returns the path of a file in a folder of a crate, without its ending."""
    return str(path.relative_to(folder))[: -len(ending)]


# ---- Definitions


@functools.lru_cache(maxsize=None)
def definitions(text):
    """Returns the public names of a file of definitions, with their texts without comments."""
    return {name: "\n".join(line.partition("--")[0] for line in body.splitlines())
            for name, body in sources.definitions(text) if name != "module"}


class Definition(NamedTuple):
    """A definition: its crate, its file in specs/ without the ending, and its name."""

    crate: str
    file: str
    name: str


class Speech:
    """Which definitions a text speaks of, by itself or through those that it names."""

    def __init__(self):
        self.files, self.named = {}, {}
        for path in CRATES.glob("*/specs/**/*.antt"):
            crate = path.relative_to(CRATES).parts[0]
            if path.name != "Lib.antt":
                self.files[crate, stem(path, CRATES / crate / "specs", ".antt")] = read(path)
        self.bodies = {file: definitions(text) for file, text in self.files.items()}

    def exists(self, definition):
        """Returns whether there is such a definition."""
        return definition.name in self.bodies.get(definition[:2], ())

    @functools.lru_cache(maxsize=None)
    def names(self, text, own=None):
        """Returns the definitions by their names in a file, and the files by theirs.

        The definitions are those that the file uses, and its own.
        """
        found, files = {}, {}
        for crate, path, rest in USE.findall(text):
            file = path.replace(".", "/")
            if rest.startswith(" as "):
                files[rest[4:]] = crate, file
            for name in re.findall(r"[\w']+", rest) if rest.startswith(".") else ():
                found[name] = Definition(crate, file, name)
        for name in self.bodies.get(own, ()):
            found[name] = Definition(*own, name)
        return found, files

    def of(self, text, names):
        """Yields the definitions that a text names."""
        found, files = names
        for word, after in WORD.findall(text):
            if word in files and after:
                yield Definition(*files[word], after)
            if word in found:
                yield found[word]

    def reached(self, text, names):
        """Returns the definitions that a text names, directly or through others."""
        todo, seen = list(self.of(text, names)), set()
        while todo:
            one = todo.pop()
            if one in seen or not self.exists(one):
                continue
            seen.add(one)
            if one not in self.named:
                file = one[:2]
                body = self.bodies[file][one.name]
                self.named[one] = list(self.of(body, self.names(self.files[file], file)))
            todo += self.named[one]
        return seen


SPEECH = Speech()


# ---- Functions


class Fact(NamedTuple):
    """A function as the index sees it: its clauses by labels, and what kind of one it is."""

    clauses: dict
    is_public: bool
    is_empty: bool


@functools.lru_cache(maxsize=None)
def functions(text):
    """Returns the functions of a file of code, by `f` or `T::f`."""
    found, aliases = {}, sources.aliases(text)
    for function in sources.functions(text):
        owner = function.block.type if function.is_inside else ""
        clauses = {}
        for clause in function.clauses:
            if clause.kind == "ensures":
                clauses[clause.label] = clauses.get(clause.label, "") + clause.text
        is_public = function.is_pub or bool(owner) and function.block.is_of_trait
        fact = Fact(clauses, is_public, function.is_empty)
        for name in filter(None, [owner, aliases.get(owner)]) if owner else [""]:
            found.setdefault(f"{name}::{function.name}" if name else function.name, fact)
    return found


@functools.lru_cache(maxsize=None)
def is_exported(crate, name):
    """Returns whether the library of a crate exports a name."""
    library = read(CRATES / crate / "src" / "lib.rt") or ""
    uses = re.findall(r"^pub use [^;]*;|^pub mod [^;]*;", library, re.M)
    return any(re.search(rf"\b{name}\b", use.partition("::")[2] or use) for use in uses)


def proof_of(crate, file, function):
    """Returns the folder of the proof of a function in crates/, or None."""
    parts = function.split("::")
    for last in parts[-1], "+" + parts[-1]:
        types = [part + "*" for part in parts[:-1]]
        for place in sorted(CRATES.glob("/".join([crate, "proofs", file, *types, last]))):
            return str(place.relative_to(CRATES))
    return None


class Cited(NamedTuple):
    """A function or a law of a row: its crate, its file in src/, its labels and its proof."""

    crate: str
    file: str
    name: str
    labels: Tuple[str, ...]
    proof: Optional[str]


# ---- Rows


class Row:
    """A rule or a promise: its place in the page, and its items by kind."""

    def __init__(self, part, section, crate, title):
        self.part, self.section, self.crate, self.title = part, section, crate, title
        self.items = {}
        self.definitions, self.clauses, self.methods, self.laws = [], [], [], []


class Index:
    """The rows, with what they name found in the sources, and what is wrong with them."""

    def __init__(self, text):
        self.wrong, self.section, self.crate, self.spoken = [], "clauses.tsv", "", set()
        self.cited = {kind: set() for kind in ("files", "definitions", "laws", "edits", "clauses")}
        self.rows, self.inside, self.sections = [], [], {}
        self.places, self.code = {}, {}
        for crate, file in SPEECH.files:
            for name in SPEECH.bodies[crate, file]:
                self.places.setdefault((crate, name), []).append(file)
        for path in sorted(CRATES.glob("*/src/**/*.rt")):
            crate = path.relative_to(CRATES).parts[0]
            for name, fact in functions(read(path)).items():
                file = stem(path, CRATES / crate / "src", ".rt")
                self.code.setdefault((crate, name), {})[file] = fact
        self.part, self.row = None, None
        self.heading = None
        for line in text.splitlines():
            if not line.startswith("#"):
                self.read_row(line)

    def tell(self, message):
        """Notes what is wrong."""
        self.wrong.append(f"promises: {self.section}: {message}")

    def read_row(self, line):
        """Reads a line."""
        kind, *fields = line.split("\t")
        wanted = FIELDS.get(kind, max(2, len(fields) + 1))
        if len(fields) + 1 != wanted or not all(fields):
            self.tell(f"a row has another number of fields: {line[:60]}")
        elif kind in ("part", "section"):
            self.part = fields[0] if kind == "part" else self.part
            self.heading, self.row = fields[0], None
            if kind == "section" and self.part == RULES:
                self.sections[self.heading] = 0
        elif kind in ("rule", "promise"):
            self.begin_row(kind, fields)
        elif kind == "inside":
            self.inside.append((fields[0], fields[1:]))
        elif kind not in ITEMS or self.row is None or kind in self.row.items:
            self.tell(f"a row of another kind, or in another place: {line[:60]}")
        else:
            self.row.items[kind] = fields

    def begin_row(self, kind, fields):
        """Begins a rule or a promise."""
        crate, title = fields if kind == "rule" else ("", ", ".join(fields))
        self.row = Row(self.part, self.heading, crate, title)
        self.rows.append(self.row)
        if kind == "rule" and self.part == RULES:
            self.sections[self.heading] = self.sections.get(self.heading, 0) + 1

    # ---- What a row names

    def placed(self, name):
        """Returns the crate and the name of CRATE/NAME, or of a name of the row's crate."""
        crate, slash, rest = name.partition("/")
        return (crate, rest) if slash and (CRATES / crate).is_dir() else (self.crate, name)

    def split(self, item):
        """Returns crate, name, labels and file or None of CRATE/NAME(LABEL,..)@FILE."""
        item, _, file = item.partition("@")
        name, _, labels = item.partition("(")
        found = tuple(label for label in labels.rstrip(")").split(",") if label)
        return *self.placed(name), found, file or None

    def one_of(self, found, file, what):
        """Returns the file among those found, which may be several only if it is named."""
        if file is not None and file not in found or not found:
            self.tell(f"{what} isn't there" + (f" in {file}" if file else ""))
        elif file is None and len(found) > 1:
            self.tell(f"{what} is in several files: {', '.join(sorted(found))}")
        else:
            return file or next(iter(found))
        return None

    def definition(self, item):
        """Returns the definition of an item, or None."""
        crate, name, _, file = self.split(item)
        found = self.places.get((crate, name), [])
        file = self.one_of(found, file, f"the definition {name} of {crate}")
        if file is None:
            return None
        self.cited["files"].add(f"{crate}/{file}.antt")
        self.cited["definitions"].add(Definition(crate, file, name))
        return Definition(crate, file, name)

    def function(self, item, kind):
        """Returns the function or the law of an item, or None."""
        crate, name, labels, file = self.split(item)
        found = self.code.get((crate, name), {})
        file = self.one_of(found, file, f"the {kind} {name} of {crate}")
        if file is None:
            return None
        fact = found[file]
        if kind == "law":
            self.check_law(crate, file, name)
        else:
            self.cited["clauses"].add(f"{crate}/{name}")
            if not fact.is_public or not is_exported(crate, name.split("::")[0]):
                self.tell(f"{name} of {crate} isn't public")
        for label in labels or ([] if kind == "law" else [""]):
            if label not in fact.clauses:
                self.tell(f"{name} of {crate} has no clause {label}" if label
                          else f"which clause of {name} of {crate}?")
        wanted = labels or list(fact.clauses)
        self.speaks(crate, file, [fact.clauses.get(label, "") for label in wanted], name)
        return Cited(crate, file, name, labels, proof_of(crate, file, name))

    def check_law(self, crate, file, name):
        """Checks that a function is in a file of laws."""
        self.cited["laws"].add(f"{crate}/{name}")
        if file.rpartition("/")[2] not in ("laws", "numbers") and crate != "check_laws":
            self.tell(f"{name} of {crate} is no law")

    def speaks(self, crate, file, clauses, item):
        """Notes what clauses speak of, and how a type or a trait is seen (its ghosts)."""
        text = read(CRATES / crate / "src" / f"{file}.rt")
        ghosts = re.findall(r"^ +ghost (?!use)[^;]*[;{]", text, re.M) if "::" in item else []
        whole = "\n".join([*clauses, *ghosts])
        self.spoken |= SPEECH.reached(whole, SPEECH.names(text))

    def check_row(self, row):
        """Finds what a row names."""
        self.section, self.crate, self.spoken = row.section, row.crate, set()
        items = row.items
        row.definitions = [self.definition(item) for item in items.get("defined", ())]
        row.clauses = [self.function(item, "function") for item in items.get("clause", ())]
        row.methods = [self.function(item, "function") for item in items.get("method", ())]
        row.laws = [self.function(item, "law") for item in items.get("law", ())]
        for path in items.get("proved", ()):
            if not (CRATES / path).is_dir():
                self.tell(f"crates/{path} isn't there")
        for name in items.get("edit", ()):
            self.check_edit(*self.placed(name))
        for name in items.get("test", ()):
            self.check_test(name)
        if not items:
            self.tell(f"{row.title} names nothing")
        if row.part == PROMISES and not any(items.get(kind) for kind in ("clause", "none")):
            self.tell(f"promise {row.title} names no clause, and no reason")
        for one in filter(None, row.definitions):
            if one not in self.spoken:
                self.tell(f"no clause and no law of the row speaks of {one.name} of "
                          f"{one.crate}/{one.file}.antt")

    def check_edit(self, crate, name):
        """Checks that a must-fail edit exists, and can be applied."""
        self.cited["edits"].add(f"{crate}/{name}")
        file = edits.find_edit(crate, name)
        if file is None:
            self.tell(f"crates/{crate} has no must-fail edit {name}.edit")
            return
        try:
            edits.edited(read(file), CRATES / crate)
        except edits.Wrong as wrong:
            self.tell(f"{file.relative_to(TOP)}: {wrong}")

    def check_test(self, name):
        """Checks that a test or a file of tests exists."""
        if name.startswith(("checks/", "tests/")):
            if not (TOP / name).is_file():
                self.tell(f"{name} isn't there")
            return
        test = re.compile(rf"#\[test\]\s*(?:#\[[^\n]*\]\s*)*fn {re.escape(name)}\(")
        files = (CRATES / "library_tests" / "src").rglob("*.rt")
        if not any(test.search(read(file)) for file in files):
            self.tell(f"crates/library_tests/src has no test {name}")
