"""Says what differs between two debug files, document by document and method by method. A method that only has other lines than before,
all by the same number, has moved; lines are compared from its first line on. What differs in a changed method is one or more of: offsets
(its code), points (lines and columns), documents, scopes, locals, constants, imports, state machine, records.

A and B are debug files, or assemblies with one. Methods are compared by name and parameters if both assemblies are at hand: A and B
themselves, those beside the debug files with their PDB IDs, or those of --assemblies. Without them they are compared by row, which fits
only builds of the same methods in the same order.

It prints lines with tabs between their columns: document or method; added, lost, moved or changed; the name; and what differs. With
--json each is an object. The exit status is 0 if nothing differs, and 1 if something does; --ignore-moved counts moved methods as equal."""
import argparse
import json
from collections import Counter, defaultdict
from collections.abc import Iterator
from pathlib import Path
from typing import NamedTuple

from ppdb_tools.assembly import Assembly
from ppdb_tools.comparing import Summary, locals_of
from ppdb_tools.debug_files import Pair, pair_of
from ppdb_tools.errors import Damaged, Status, Stop
from ppdb_tools.inputs import read, read_below
from ppdb_tools.names import escaped, printable, shown, text_of
from ppdb_tools.output import GREEN, RED, YELLOW, Lines as Out, coloured, is_terminal, warn

DOES = "say what differs between two debug files, by document and method"
EXAMPLE = "ppdb-tools diff old/App.dll new/App.dll"
COLOURS = {"added": GREEN, "lost": RED, "moved": YELLOW, "changed": YELLOW}
# Of how many changed methods the locals are named.
MOST_LOCALS = 1000


class Difference(NamedTuple):
    """A document or a method that differs: how, its name, and in what."""
    what: str
    how: str
    name: str
    details: list[str]


class Side:
    """A debug file, what it says, and the keys of its methods: names if the assembly is at hand, else rows."""

    def __init__(self, name: str, assembly: str | None) -> None:
        self.name, self.pair = name, pair_of(name)
        self.summary = Summary(self.pair.file)
        self.assembly = assembly_of(self.pair, assembly, bytes.fromhex(self.summary.pdb_id))
        self.keys: dict[str, int] = {}

    def set_keys(self, is_by_name: bool) -> None:
        """Gives each method a key; of several with one name the later ones have a number."""
        names = method_keys(self.assembly) if is_by_name and self.assembly else {}
        seen: Counter[str] = Counter()
        for row in sorted(self.summary.methods):
            name = names.get(row, str(row))
            seen[name] += 1
            self.keys[name if seen[name] == 1 else f"{name} #{seen[name]}"] = row


def assembly_of(pair: Pair, named: str | None, pdb_id: bytes) -> Assembly | None:
    """The assembly of a debug file: the one that words name, the one that has it, or one beside it whose CodeView entry names it."""
    if named:
        try:
            assembly = Assembly(read(named))
        except Damaged as damaged:
            raise Stop(f"{shown(named)}: {damaged}") from damaged
        if pdb_id not in assembly.debug_ids:
            raise Stop(f"{shown(named)}: it belongs to another debug file")
        return assembly
    here = Path(pair.place)
    for data in [pair.image.data] if pair.image else (read_below(here.with_suffix(end), here.parent) for end in (".dll", ".exe")):
        try:
            found = Assembly(data) if data is not None else None
            if found and pdb_id in found.debug_ids:
                return found
        except Damaged:
            continue
    return None


def method_keys(assembly: Assembly) -> dict[int, str]:
    """The names of methods with the types of their parameters."""
    found = {}
    names = assembly.names()
    for kind, start, end in assembly.methods:
        for method in range(start, end):
            try:
                types = ", ".join(assembly.parameters(kind, method))
            except Damaged:
                types = "?"
            found[method] = assembly.counted(f"{names[method]}({types})")
    return found


def words(parser: argparse.ArgumentParser) -> None:
    parser.add_argument("before", metavar="A")
    parser.add_argument("after", metavar="B")
    parser.add_argument("--assemblies", nargs=2, metavar=("A", "B"), help="the assemblies of the two, which have the names of methods")
    parser.add_argument("--ignore-moved", action="store_true", help="count methods that only moved as equal")
    parser.add_argument("--json", action="store_true", help="print objects")


def documents(before: Summary, after: Summary) -> Iterator[Difference]:
    """The documents that differ."""
    old, new = ({it.name: it for it in side.documents} for side in (before, after))
    for name in [*old, *(name for name in new if name not in old)]:
        if name not in new:
            yield Difference("document", "lost", name, [])
        elif name not in old:
            yield Difference("document", "added", name, [])
        else:
            details = [key for key in ("algorithm", "hash", "language") if getattr(old[name], key) != getattr(new[name], key)]
            if (old[name].row in before.embedded) != (new[name].row in after.embedded):
                details.append("embedded source")
            if details:
                yield Difference("document", "changed", name, details)


def methods(before: Side, after: Side) -> Iterator[Difference]:
    """The methods that differ."""
    for name in [*before.keys, *(name for name in after.keys if name not in before.keys)]:
        if name not in after.keys:
            yield Difference("method", "lost", escaped_key(name), [])
        elif name not in before.keys:
            yield Difference("method", "added", escaped_key(name), [])
        else:
            old, new = before.summary.methods[before.keys[name]], after.summary.methods[after.keys[name]]
            details = old.differs(new)
            if details:
                count = f"points {old.points} to {new.points}" if old.points != new.points else "points"
                yield Difference("method", "changed", escaped_key(name), [count if it == "points" else it for it in details])
            elif (old.line, old.document) != (new.line, new.document):
                where = [f"{new.line - old.line:+d} lines"] + ([f"to {new.document}"] if old.document != new.document else [])
                yield Difference("method", "moved", escaped_key(name), where)


def escaped_key(name: str) -> str:
    """A name of a method as `ppdb` prints names."""
    return escaped(name.encode("utf-8", "surrogateescape"))


def with_locals(found: list[Difference], before: Side, after: Side) -> list[Difference]:
    """The differences, with the names of locals that were added or lost."""
    changed = [it for it in found if it.what == "method" and "locals" in it.details][:MOST_LOCALS]
    keys = {escaped_key(name): name for name in before.keys} if changed else {}
    tables = []
    for side in (before, after):
        rows = {side.keys[keys[it.name]]: it.name for it in changed}
        table: defaultdict[str, Counter[str]] = defaultdict(Counter)
        for method, name in locals_of(side.pair.file, set(rows)) if rows else ():
            table[rows[method]][name] += 1
        tables.append(table)
    more = {it.name: [*(f"-{name}" for name in tables[0][it.name] - tables[1][it.name]), *(f"+{name}" for name in tables[1][it.name] - tables[0][it.name])]
            for it in changed}
    return [it._replace(details=[*it.details, *more.get(it.name, [])]) if it.what == "method" and it.how == "changed" else it for it in found]


def line_of(it: Difference) -> str:
    """A difference for people, or for programs if they read."""
    name = printable(text_of(it.name)) if is_terminal() else it.name
    return "\t".join((it.what, coloured(it.how, COLOURS[it.how]), name, ", ".join(it.details)))


def run(said: argparse.Namespace) -> int:
    before, after = (Side(name, assembly) for name, assembly in zip((said.before, said.after), said.assemblies or (None, None)))
    is_by_name = before.assembly is not None and after.assembly is not None
    for side in (before, after):
        try:
            side.set_keys(is_by_name)
        except Damaged as damaged:
            raise Stop(f"{shown(side.name)}: {damaged}") from damaged
    found = [*documents(before.summary, after.summary), *methods(before, after)]
    found = with_locals([it for it in found if not (said.ignore_moved and it.how == "moved")], before, after)
    out = Out()
    for it in found:
        out.add(json.dumps(it._asdict(), sort_keys=True) if said.json else line_of(it))
    out.write()
    if found and not is_by_name:
        warn("diff", "methods were compared by row, since not both assemblies are at hand")
    return Status.FOUND if found else Status.DONE
