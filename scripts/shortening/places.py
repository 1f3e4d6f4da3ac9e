"""The places of a lemma where a tactic may stand, and the tactics that are tried there."""
from collections.abc import Iterator
from enum import Enum, auto
from typing import NamedTuple

from .lemmas import Lemma, Lines, lemmas
from .terms import cited, clause_variables, inner_parts, known_lemmas, premise_names, recursive_calls, right_side

# A tactic is given at most so many lemmas.
MOST_NAMES = 14


class Round(Enum):
    """What is tried: whole lemmas first, then the clauses of what is left and their parts."""

    WHOLE = auto()
    PARTS = auto()


class Place(NamedTuple):
    """A part of a lemma that a tactic may stand for: all of it, the right side of a clause, or from a letter of a clause to another."""

    lemma: Lemma
    clause: int | None
    part: tuple[int, int] | None
    tactics: list[str]
    saved: int


def tactics(names: list[str], is_fast: bool) -> list[str]:
    given = "".join(f", {it}" for it in names)
    found = [] if is_fast else ["omega arith"]
    found.append("search rules")
    if names:
        found.append(f"search (rules{given})")
    return found if is_fast else found + [f"grind (arith, common_steps{given})"]


def with_tactic(lines: list[str], place: Place, tactic: str) -> list[str]:
    """The clauses of the lemma with the tactic at the place, each a text."""
    lemma = place.lemma
    if place.clause is None:
        return [" " * lemma.indent + " ".join([lemma.name, *clause_variables(lines, lemma), "=", tactic])]
    found = [it.text(lines) for it in lemma.clauses]
    text = found[place.clause]
    if place.part is None:
        found[place.clause] = text[:right_side(text)] + " " + tactic
    else:
        first, end = place.part
        found[place.clause] = text[:first] + tactic + text[end:]
    return found


def region(lines: list[str], place: Place) -> tuple[float, float]:
    """Where the place is in its file, by lines and parts of a line."""
    lemma = place.lemma
    if place.clause is None:
        return lemma.clauses[0].first, lemma.clauses[-1].end
    clause = lemma.clauses[place.clause]
    if place.part is None:
        return clause.first, clause.end
    text = clause.text(lines)
    first, end = (clause.first + text[:it].count("\n") + 0.1 + it / 1e6 for it in place.part)
    return first, end


class Finder:
    """Finds the places of a file's lemmas."""

    def __init__(self, lines: list[str], is_fast: bool) -> None:
        self.lines, self.is_fast, self.known = lines, is_fast, known_lemmas(lines)

    def tactics_for(self, text: str, lemma: Lemma, has_calls: bool) -> list[str] | None:
        names = cited(text, self.known, lemma.name)
        if has_calls:
            names += recursive_calls(text, lemma.name, len(premise_names(lemma.signature.text(self.lines))))
        return tactics(names, self.is_fast) if len(names) <= MOST_NAMES else None

    def right_sides(self, lemma: Lemma) -> Iterator[tuple[int, Lines, str, int]]:
        """The clauses of two lines and more: which, its lines, its text, and where the right side begins."""
        for at, clause in enumerate(lemma.clauses):
            text = clause.text(self.lines)
            start = right_side(text)
            if clause.count() > 1 and start is not None and not any(it.strip() == "where" for it in clause.of(self.lines)):
                yield at, clause, text, start

    def wholes(self, lemma: Lemma, is_answer: bool) -> Iterator[Place]:
        body = "\n".join(text[right_side(text) or 0:] for text in (it.text(self.lines) for it in lemma.clauses))
        found = self.tactics_for(body, lemma, False)
        if found and (lemma.body_lines() > 1 or is_answer):
            gone = lemma.end - lemma.signature.first + 1 if is_answer and lemma.is_public() else lemma.body_lines() - 1
            yield Place(lemma, None, None, found, gone)

    def clauses(self, lemma: Lemma) -> Iterator[Place]:
        for at, clause, text, start in self.right_sides(lemma):
            if len(lemma.clauses) > 1 or any(it in text[:start] for it in "(,∷") or lemma.name in text[start:].split():
                by_calls = self.tactics_for(text[start:], lemma, True)
                if by_calls:
                    yield Place(lemma, at, None, by_calls, clause.count() - 1)

    def parts(self, lemma: Lemma) -> Iterator[Place]:
        yield from self.clauses(lemma)
        for at, clause in enumerate(lemma.clauses):
            text = clause.text(self.lines)
            start = right_side(text)
            if clause.count() < 2 or start is None:
                continue
            for first, end in inner_parts(text, start):
                found = self.tactics_for(text[first:end], lemma, True) if text[start:first].strip() else None
                if found:
                    yield Place(lemma, at, (first, end), found, text[first:end].count("\n"))

    def places(self, turn: Round, wanted: set[str] | None, is_answer: bool) -> list[Place]:
        found: list[Place] = []
        for lemma in lemmas(self.lines):
            if wanted is not None and lemma.name not in wanted:
                continue
            if lemma.body_lines() > 1 or is_answer:
                found += self.wholes(lemma, is_answer) if turn is Round.WHOLE else self.parts(lemma)
        return found
