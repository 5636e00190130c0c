"""Reads the sources of the crates: the functions of crates/*/src with their contracts, and the definitions of crates/*/specs.

A promise is what the comment says that stands directly above an `ensures`, in lines that begin with two slashes, or, where there is none, above
a definition that the clause cites, as tools/promises says. It is about this clause and those that follow it, up to the next promise or the end of
the contract.
"""
import re
from dataclasses import dataclass, field
from functools import cache
from pathlib import Path

ROOT = Path(__file__).resolve().parent.parent
CRATES = ROOT / "crates"
# Crates that promise nothing to others.
OTHERS = re.compile(r"\w*test\w*|shared_map|score_board|one_winner|shared_counter")
FUNCTION = re.compile(r"( *)(pub )?(?:pub\((?:crate|super)\) )?(?:const )?(?:extern \"C\" )?fn (\w+)")
IMPL = re.compile(r"impl(?:<.*?>)? (?:.* for )?(\w+)")
CLAUSE = re.compile(r"\s*(ensures|requires)\s*(\w*)\s*(\{.*)")
COMMENT = re.compile(r"\s*// (.*)")
PROMISED = re.compile(r"^(?: *// .*\n)+(?= *ensures\b)", re.MULTILINE)
USE = re.compile(r"^(?:ghost |pub )*use (Rattle\.[\w.]+)(?:\.\{(.*?)\})?(?: as (\w+))?;?$", re.MULTILINE)
BEGINS = "(?:abbrev |unfoldable |pub |record |data )"
DEFINITION = re.compile(rf"((?:^--.*\n)*)^{BEGINS}+([^\s:({{]+)(.*\n(?:(?!--|{BEGINS}).+\n)*)", re.MULTILINE)
CONSTANT = re.compile(r"^pub const (\w+): \w+ = ([\d_]+);", re.MULTILINE)


@dataclass
class Clause:
    """A clause of a contract: `ensures` or `requires`, its name, if any, what stands behind that, and the comment above it."""

    kind: str
    name: str
    text: str
    comment: str


@dataclass
class Function:
    """A function, of the impl of a type or of none, with its contract."""

    of: str
    name: str
    is_public: bool
    clauses: list[Clause] = field(default_factory=list)

    def whole_name(self):
        return f"{self.of}::{self.name}" if self.of else self.name

    def ensured(self):
        return [it for it in self.clauses if it.kind == "ensures"]


@dataclass
class Code:
    """A source file: its functions, where each name is from that it takes from elsewhere, and what its first lines say."""

    path: Path
    functions: list[Function]
    taken: dict
    about: str


@dataclass
class Definitions:
    """A file of definitions: by its name each one's comment and what stands behind its name, and where each other name is from."""

    found: dict
    taken: dict


def crates():
    """The names of the crates, those first on which others stand."""
    lines = (ROOT / "crates.txt").read_text(encoding="utf-8").splitlines()
    return [re.split(r"[ :]", it)[0] for it in lines if it and not it.startswith("#")]


def product():
    return [it for it in crates() if not OTHERS.fullmatch(it)]


def files(folder, ending, crate="*"):
    return sorted(CRATES.glob(f"{crate}/{folder}/**/*{ending}"))


@cache
def text_of(path):
    return path.read_text(encoding="utf-8")


def whole_text(folder, ending, crate="*"):
    """All that stands in such files of a crate, or of all crates."""
    return "\n".join(map(text_of, files(folder, ending, crate)))


def names_taken(text):
    """Where each name stands that a file takes from elsewhere: the module, and its name there."""
    names = {}
    for module, listed, other in USE.findall(text):
        for name in filter(None, (it.strip() for it in listed.split(","))):
            there, _, here = name.partition(" as ")
            names[here or there] = (module, there)
        if not listed:
            names[other or module.rpartition(".")[2]] = (module, None)
    return names


def clauses_of(lines):
    """The clauses in the lines between a function's name and its body."""
    clauses, above = [], []
    for line in lines:
        if comment := COMMENT.match(line):
            above.append(comment[1])
            continue
        if begun := CLAUSE.match(line):
            clauses.append(Clause(*begun.groups(), " ".join(above)))
        elif clauses and line.strip():
            clauses[-1].text += f"\n{line}"
        above = []
    return clauses


def contract_of(lines):
    """The lines of a function between that of its name and its body, which begins there or with a brace below it."""
    indent = lines[0][: -len(lines[0].lstrip())]
    contract, has_clause = [], False
    for line in lines:
        has_clause = has_clause or CLAUSE.match(line)
        is_signature = not has_clause and not COMMENT.match(line)
        if line in (f"{indent}{{", f"{indent}{{}}") or (is_signature and line.endswith(("{", ";"))):
            break
        contract.append(line)
        if has_clause and line.endswith("};"):
            break
    return contract


def functions_of(text):
    lines, of, functions = text.split("\n"), "", []
    for number, line in enumerate(lines):
        if begun := IMPL.match(line):
            of = begun[1]
        elif begun := FUNCTION.match(line):
            functions.append(Function(of if begun[1] else "", begun[3], bool(begun[2]), clauses_of(contract_of(lines[number:]))))
    return functions


@cache
def read_code(path):
    text = text_of(path)
    about = " ".join(it.removeprefix("//!").strip() for it in text.split("\n\n")[0].splitlines() if it.startswith("//!"))
    return Code(path, functions_of(text), names_taken(text), about)


@cache
def read_definitions(path):
    text = text_of(path) if path.exists() else ""
    return Definitions({name: (comment, rest) for comment, name, rest in DEFINITION.findall(text)}, names_taken(text))


def module(name):
    """The definitions of a module of the repository; there are none in one of the kit."""
    return read_definitions(CRATES / Path(*name.split(".")[1:]).with_suffix(".antt"))


def said_by(name, definition):
    """The comment of a definition of such a module, in one line, if it is of a statement and not of a number, a list or the like."""
    comment, text = module(name).found.get(definition, ("", ""))
    return " ".join(it.removeprefix("--").strip() for it in comment.splitlines()) if "Type 0" in text else ""


def function(path, name):
    """A function by the name of its file in crates/, or None."""
    return next((it for it in read_code(CRATES / path).functions if it.whole_name() == name), None)


def constants():
    """The numbers that public constants have."""
    return {name: int(number) for name, number in CONSTANT.findall(whole_text("src", ".rt"))}


def without_promises(text):
    """A source without its promises: a page may quote a contract with them or without."""
    return PROMISED.sub("", text)
