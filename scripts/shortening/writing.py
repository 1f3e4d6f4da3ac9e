"""Writes the tactics that close a place into the files, and puts back what the check then refuses."""
import re
from pathlib import Path

from .lemmas import Lines, lemmas, read_lines, write_lines
from .places import Place, region, with_tactic
from .probing import Found, Reach, check, first_item, missing_imports

# An answer that one of these closes is not needed: the check finds it by itself.
FOUND_ALONE = ("search rules", "grind (arith, common_steps)", "omega arith")
REFUSED = re.compile(r"^\./(proofs/\S+?\.antt):\d+:\d+:(?: .*`(\S+)`)?", re.MULTILINE)


def is_needless(it: Found) -> bool:
    """Whether an answer goes altogether."""
    return it.path.name == "Answers.antt" and it.place.clause is None and it.place.lemma.is_public() and it.tactic in FOUND_ALONE


def saved(it: Found) -> int:
    if it.path.name == "Answers.antt" and it.place.clause is None and not is_needless(it):
        return it.place.lemma.body_lines() - 1
    return it.place.saved


def chosen(lines: list[str], found: list[Found]) -> list[Found]:
    """What saves lines, the most first, and does not overlap with what saves more."""
    taken: list[tuple[tuple[float, float], Found]] = []
    for it in sorted(found, key=saved, reverse=True):
        first, end = region(lines, it.place)
        if saved(it) > 0 and not any(first < other[1] and other[0] < end for other, _ in taken):
            taken.append(((first, end), it))
    return [it for _, it in sorted(taken, key=lambda it: it[0], reverse=True)]


def put(lines: list[str], it: Found) -> None:
    """Writes one tactic. What stands behind the place in the file is written before."""
    place, lemma = it.place, it.place.lemma
    if is_needless(it):
        lines[lemma.signature.first:lemma.end] = []
        return
    texts = with_tactic(lines, place, it.tactic)
    if place.clause is None:
        lines[lemma.clauses[0].first:lemma.clauses[-1].end] = texts
        return
    clause = lemma.clauses[place.clause]
    new = texts[place.clause].split("\n")
    lines[clause.first:clause.end] = new
    lemma.clauses[place.clause] = Lines(clause.first, clause.first + len(new))


def write(found: list[Found]) -> list[Found]:
    """Writes into the files what saves lines, and answers it."""
    written: list[Found] = []
    for path in {it.path for it in found}:
        lines = read_lines(path)
        # (the places of one lemma share it, so that each sees where the others left its clauses)
        taken = chosen(lines, [it for it in found if it.path == path])
        for it in taken:
            put(lines, it)
        if taken:
            at = first_item(lines)
            lines[at:at] = missing_imports(lines)
            write_lines(path, lines)
        written += taken
    return written


def put_back(path: Path, names: set[str], before: str) -> None:
    """Gives lemmas of a file their old clauses again, or, where none is named, the whole file its old text."""
    if not names:
        path.write_text(before, encoding="utf-8")
        return
    lines, old = read_lines(path), before.split("\n")
    of_old = {it.name: it for it in lemmas(old)}
    for lemma in reversed(lemmas(lines)):
        if lemma.name in names:
            was = of_old[lemma.name]
            lines[lemma.clauses[0].first:lemma.clauses[-1].end] = old[was.clauses[0].first:was.clauses[-1].end]
    write_lines(path, lines)


def settle(reach: Reach, before: dict[Path, str], written: list[Found]) -> int:
    """Checks the crate, and puts back what is refused until it passes; answers how many times."""
    for turn in range(6):
        with reach.flags(before) as flags:
            status, said = check(reach.crate, *flags)
        if status == 0:
            return turn
        refused: dict[Path, set[str]] = {}
        for name, lemma in REFUSED.findall(said):
            refused.setdefault(reach.crate / name, set()).add(lemma)
        hit = {path: names for path, names in refused.items() if path in before}
        for path, names in hit.items():
            put_back(path, names & {it.place.lemma.name for it in written if it.path == path}, before[path])
        if not hit:
            break
    for path, text in before.items():
        path.write_text(text, encoding="utf-8")
    raise RuntimeError(f"{reach.crate.name} is refused for another reason; its files are as they were")
