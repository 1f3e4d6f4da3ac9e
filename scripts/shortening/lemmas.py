"""The lemmas of a proof file, by its layout: an item begins in the first column, and what is indented or closes a bracket goes on with it.
The items of a `module _ .. where` begin in the column of its first one."""
import re
from dataclasses import dataclass
from enum import Enum, auto
from pathlib import Path
from typing import NamedTuple

HEADS = frozenset("record data mutual section variable infix infixl infixr syntax ruleset open end".split())
VISIBILITY = re.compile(r"(?:(?:pub|abbrev|unfoldable)\s+)+")
SIGNATURE = re.compile(r"\S+ :(?:\s|$)")
# What is a file of lemmas no more: a list of modules, or the proof of a function.
NO_LEMMAS = frozenset(("Lib.antt", "Answers.antt", "Invariants.antt", "Proof.antt"))


class Kind(Enum):
    """What an item of a file is."""

    BLANK = auto()
    COMMENT = auto()
    IMPORT = auto()
    MODULE = auto()
    HEAD = auto()
    UNFOLDING = auto()
    SIGNATURE = auto()
    CLAUSE = auto()


class Lines(NamedTuple):
    """The lines from the first on, up to the end, which is not one of them."""

    first: int
    end: int

    def count(self) -> int:
        return self.end - self.first

    def of(self, lines: list[str]) -> list[str]:
        return lines[self.first:self.end]

    def text(self, lines: list[str]) -> str:
        return "\n".join(self.of(lines))


class Item(NamedTuple):
    """An item: its lines, its first word after `pub` and the like, these, and the column where it begins."""

    kind: Kind
    lines: Lines
    name: str
    visibility: str
    indent: int


@dataclass
class Lemma:
    """A statement with the clauses that prove it, all from a column on."""

    name: str
    visibility: str
    indent: int
    signature: Lines
    unfolding: Lines | None
    clauses: list[Lines]
    end: int

    def body_lines(self) -> int:
        return sum(it.count() for it in self.clauses)

    def is_public(self) -> bool:
        return bool(self.visibility)


def kind_of(text: str, word: str) -> Kind:
    if word == "use":
        return Kind.IMPORT
    if word == "mod":
        return Kind.MODULE
    if word in HEADS:
        return Kind.HEAD
    if word == "unfolding":
        return Kind.UNFOLDING
    return Kind.SIGNATURE if SIGNATURE.match(text) else Kind.CLAUSE


def indent_of(line: str) -> int:
    return len(line) - len(line.lstrip(" "))


def item_end(lines: list[str], at: int, indent: int) -> int:
    """The end of the item that begins here, behind its last line: what follows is indented more, or closes a bracket."""
    end = at + 1
    for next_at in range(at + 1, len(lines)):
        line = lines[next_at]
        if not line.strip():
            continue
        if indent_of(line) <= indent and line[indent:indent + 1] not in (")", "}", "]"):
            break
        end = next_at + 1
    return end


def inside_of(lines: list[str], head: Lines, indent: int) -> Lines:
    """The lines of a module below its head, which ends in `where`."""
    first = next((it + 1 for it in range(head.first, head.end) if lines[it].endswith(" where")), head.end)
    end = last = first
    while end < len(lines) and (not lines[end].strip() or indent_of(lines[end]) > indent):
        end += 1
        last = end if lines[end - 1].strip() else last
    return Lines(first, last)


def items(lines: list[str], inside: Lines | None = None, indent: int = 0) -> list[Item]:
    """The items of a file, those inside of its modules too."""
    found: list[Item] = []
    at, last = inside or Lines(0, len(lines))
    while at < last:
        line = lines[at][indent:]
        if not line.strip() or line.startswith("--"):
            kind = Kind.COMMENT if line.strip() else Kind.BLANK
            found.append(Item(kind, Lines(at, at + 1), "", "", indent))
            at += 1
            continue
        all_of = Lines(at, item_end(lines, at, indent))
        shown = VISIBILITY.match(line)
        visibility = shown[0] if shown else ""
        text = line[len(visibility):]
        word = (text.split() or [""])[0]
        if word == "module":
            inner = inside_of(lines, all_of, indent)
            found.append(Item(Kind.HEAD, Lines(at, inner.first), word, visibility, indent))
            column = next((indent_of(it) for it in inner.of(lines) if it.strip()), indent)
            found += items(lines, inner, column)
            at = max(inner.end, all_of.first + 1)
            continue
        found.append(Item(kind_of(text, word), all_of, word, visibility, indent))
        at = all_of.end
    return found


def followed_by_clause(found: list[Item], at: int) -> int | None:
    """Where the next clause stands behind blank lines and comments, if it is next."""
    while at < len(found) and found[at].kind in (Kind.BLANK, Kind.COMMENT):
        at += 1
    return at if at < len(found) and found[at].kind is Kind.CLAUSE else None


def lemmas(lines: list[str]) -> list[Lemma]:
    """The lemmas of a file in its order: what has a statement, and clauses that begin with its name. Definitions are none."""
    found, got, at = items(lines), [], 0
    while at < len(found):
        head = found[at]
        at += 1
        if head.kind is not Kind.SIGNATURE:
            continue
        lemma = Lemma(head.name, head.visibility, head.indent, head.lines, None, [], head.lines.end)
        while at < len(found):
            it = found[at]
            if it.indent != lemma.indent:
                break
            if it.kind is Kind.UNFOLDING:
                lemma.unfolding = it.lines
            elif it.kind is Kind.CLAUSE and it.name == lemma.name:
                lemma.clauses.append(it.lines)
            else:
                behind = followed_by_clause(found, at) if it.kind in (Kind.BLANK, Kind.COMMENT) else None
                if behind is None or found[behind].name != lemma.name:
                    break
                at = behind
                continue
            lemma.end = it.lines.end
            at += 1
        if lemma.clauses and lemma.visibility.strip() in ("", "pub"):
            got.append(lemma)
    return got


def read_lines(path: Path) -> list[str]:
    return path.read_text(encoding="utf-8").split("\n")


def write_lines(path: Path, lines: list[str]) -> None:
    path.write_text("\n".join(lines), encoding="utf-8")


def has_mutual(lines: list[str]) -> bool:
    """Whether lemmas of the file name each other by turns."""
    return any(it.startswith("mutual") for it in lines)


def lemma_files(crate: Path) -> list[Path]:
    """The files of lemmas of a crate."""
    every = sorted((crate / "proofs").rglob("*.antt"))
    return [it for it in every if it.name not in NO_LEMMAS and lemmas(read_lines(it))]


def answer_files(crate: Path) -> list[Path]:
    """The files of answers to the open goals of functions."""
    return sorted((crate / "proofs").rglob("Answers.antt"))
