"""Writes maps for `ppdb merge` of debug files whose modules became one module, the rows of each file after those of the file before it.
FOLDER gets 1.map, 2.map, .. for the files in order; it is created if there is none. The rows move in each table of the type system, but
the one row of Module and that of Assembly become those of the new module; nothing else moves. With --rename a document that has the name
of one of an earlier file, and another hash, algorithm or language, gets a name of its own: that of the second file named /src/A.cs is
named /input2/src/A.cs. Tools that merge modules write maps of their own; this shows what such a map says.

With --names types and assemblies to which a file refers are found in the other ones. Each line of the text NAMES is INPUT TABLE ROW NAME:
the number of a file, a table as in maps (01 TypeRef, 02 TypeDef, 20 Assembly, 23 AssemblyRef), a row of it, and its name, which goes to
the end of the line. A row of TypeRef that has the name of a row of TypeDef becomes that row, and one of AssemblyRef that has the name of an
assembly becomes the one row of Assembly. For example by these four lines TypeRef 3 of the first file is TypeDef 7 of the second:
    1 01 3 [Shapes]Shapes.Color
    1 23 2 Shapes
    2 02 7 [Shapes]Shapes.Color
    2 20 1 Shapes
`mono Merge.exe --names MODULE..` prints such lines (examples/weaver/Merge.cs)."""
import argparse
from collections.abc import Iterable, Iterator
from pathlib import Path
from typing import NamedTuple

from ppdb_tools import program
from ppdb_tools.errors import Status, Stop
from ppdb_tools.inputs import Input, read
from ppdb_tools.names import printable, shown
from ppdb_tools.outputs import replace, unwritten

DOES = "write maps for ppdb merge of modules that were put one after another"
EXAMPLE = "ppdb-tools stack-maps maps App.pdb Library.pdb"
# Module and Assembly have one row in every module.
SINGLE = {"00", "20"}
# The table in which a row that is referred to is defined.
DEFINED = {"01": "02", "23": "20"}
# The most rows that one module's map lists. A debug file of some hundred bytes can count many more; no module has them.
MOST_ROWS = 4000000


class Row(NamedTuple):
    """A row of a table of an input, which is counted from 1."""
    number: int
    table: str
    row: int


class Facts(NamedTuple):
    """The rows of each table of the type system that a file counts, and its documents: by their names what else they say."""
    counts: dict[str, int]
    documents: dict[str, tuple[str, ...]]


def words(parser: argparse.ArgumentParser) -> None:
    parser.add_argument("folder", metavar="FOLDER")
    parser.add_argument("files", metavar="FILE", nargs="+")
    parser.add_argument("--rename", action="store_true", help="give documents that differ from those of one name names of their own")
    parser.add_argument("--names", metavar="NAMES", help="the names of types and assemblies")


def facts(name: str) -> Facts:
    """What `ppdb show` says of a file."""
    found = Facts({}, {})
    with Input.open(name) as file:
        for line in program.lines(file, "show"):
            said = line.decode("ascii").split(" ")
            if said[0] == "rows":
                found.counts[said[1]] = int(said[2])
            elif said[0] == "document":
                found.documents[said[-1]] = tuple(said[2:-2])
    if sum(found.counts.values()) > MOST_ROWS:
        raise Stop(f"{shown(name)}: its module has more than {MOST_ROWS} rows")
    return found


def definitions(names: str | None) -> dict[Row, Row]:
    """For each row that refers to one of another file that row."""
    rows: dict[Row, str] = {}
    for line in read(names).decode("utf-8", "surrogateescape").split("\n") if names else []:
        if not line.strip():
            continue
        try:
            number, table, row, name = line.rstrip("\r").split(" ", 3)
            rows[Row(int(number), table, int(row))] = name
        except ValueError:
            raise Stop(f"{shown(names or '')}: this line is not INPUT TABLE ROW NAME: {printable(line)}") from None
    defined = {(place.table, name): place for place, name in rows.items() if place.table in DEFINED.values()}
    found = {place: defined.get((DEFINED.get(place.table, ""), name)) for place, name in rows.items()}
    return {place: there for place, there in found.items() if there and there.number != place.number}


def renamed(own: dict[str, tuple[str, ...]], known: dict[str, tuple[str, ...]], number: int) -> dict[str, str]:
    """New names for the documents that say something else than the known ones of their names. The empty name is \\-."""
    names: dict[str, str] = {}
    taken: set[str] = set()
    for name, says in own.items():
        new = name
        while new in known and known[new] != says or new != name and (new in own or new in taken):
            new = f"/input{number}/" + new.removeprefix("\\-").removeprefix("/")
        if new != name:
            names[name] = new
            taken.add(new)
    return names


class Stack:
    """Where the rows of the inputs go."""

    def __init__(self, found: list[Facts], defined: dict[Row, Row]) -> None:
        self.defined = {place: there for place, there in defined.items() if self.is_there(place, found) and self.is_there(there, found)}
        self.skipped: dict[tuple[int, str], set[int]] = {}
        for place in self.defined:
            self.skipped.setdefault((place.number, place.table), set()).add(place.row)
        # How many rows of the new table come before those of an input, and how many it has in total.
        self.before: dict[tuple[int, str], int] = {}
        self.total = {table: 0 for own in found for table in own.counts}
        for number, own in enumerate(found, 1):
            for table, count in own.counts.items():
                self.before[number, table] = 0 if table in SINGLE else self.total[table]
                left = count - len(self.skipped.get((number, table), ()))
                self.total[table] = (1 if left else self.total[table]) if table in SINGLE else self.total[table] + left

    @staticmethod
    def is_there(place: Row, found: list[Facts]) -> bool:
        return 0 < place.number <= len(found) and 0 < place.row <= found[place.number - 1].counts.get(place.table, 0)

    def image(self, place: Row) -> int:
        """The new row of a row that is defined in its own input: no row of TypeDef or Assembly refers to another."""
        return 1 if place.table in SINGLE else self.before[place.number, place.table] + place.row

    def lines(self, number: int, own: Facts) -> Iterator[str]:
        """The lines of an input's rows."""
        for table in sorted(self.total):
            yield f"rows {table} {self.total[table]}"
            new, skipped = self.before.get((number, table), 0), self.skipped.get((number, table), set())
            for row in range(1, own.counts.get(table, 0) + 1):
                if row in skipped:
                    there = self.defined[Row(number, table, row)]
                    yield f"row {table} {row} {there.table} {self.image(there)}"
                else:
                    new = 1 if table in SINGLE else new + 1
                    yield f"row {table} {row} {new}"


def write(place: Path, lines: Iterable[str]) -> None:
    """Writes a map."""
    try:
        replace(place, "".join(f"{line}\n" for line in lines).encode("ascii"))
    except OSError as wrong:
        raise unwritten(place, wrong) from wrong


def run(said: argparse.Namespace) -> int:
    folder = Path(said.folder)
    if folder.is_file():
        raise Stop(f"{shown(folder)}: it is a file, and FOLDER is required", Status.WORDS)
    found = [facts(file) for file in said.files]
    stack = Stack(found, definitions(said.names))
    try:
        folder.mkdir(exist_ok=True)
    except OSError as wrong:
        raise unwritten(folder, wrong) from wrong
    known: dict[str, tuple[str, ...]] = {}
    for number, own in enumerate(found, 1):
        new = renamed(own.documents, known, number) if said.rename else {}
        known.update({new.get(name, name): says for name, says in own.documents.items()})
        names = (f"document {old} {name}" for old, name in new.items())
        write(folder / f"{number}.map", ("ppdbmap 4", *names, *stack.lines(number, own)))
    return Status.DONE
