"""Repairs debug files that other tools write wrongly: writes IN to OUT with these bytes changed, and no others.

  F39 in table 31  The compiler of F# writes the token of a local signature (11rrrrrr) in place of its row: the token's first byte,
                   which is stored as d1, becomes c0.
  F29 in table 32  The same compiler writes 0 for a list of variables or constants if the file has none at all: it becomes 1.
  F39 in table 34  Mono.Cecil writes four zeros after a null constant of the type object, 1c: its length 5 becomes 1.

A line for each changed byte says where it is in the file, what it was, what it is now, and why. OUT is written if `ppdb verify` accepts
it and no other cell of the file holds one of these bytes. OUT may be IN. A file that needs no repair is written as it is.

repair --row TABLE ROW FILE prints what a row holds, also of a file that is refused: TABLE and ROW are those of a fault, for example 34
and 5 of `F39 table 34 row 5 column 1 byte 1`. The exit status is 1 if that is not done."""
import argparse
import os
from bisect import bisect_left
from collections.abc import Iterator
from pathlib import Path
from typing import NamedTuple

from ppdb_tools import program
from ppdb_tools.cells import COLUMNS, NAMES, PARENTS, Cell, DebugFile, Form, guid_text, imported, name_parts
from ppdb_tools.errors import Damaged, Status, Stop
from ppdb_tools.inputs import Input
from ppdb_tools.names import escaped
from ppdb_tools.output import put_line
from ppdb_tools.outputs import replace

DOES = "repair debug files that the compiler of F# or Mono.Cecil wrote wrongly"
EXAMPLE = "ppdb-tools repair app.pdb app.pdb"
SIGNATURE_TOKEN = 0x11000000
# The null constant of Mono.Cecil, as a blob without its length.
NULL_WITH_ZEROS = bytes.fromhex("1c00000000")


class Failed(Exception):
    """Why no file is written."""


class Change(NamedTuple):
    """A byte that is changed for a cell: its place, what it becomes, the index of the blob that it is in, 0 for none, and why."""
    cell: Cell
    place: int
    byte: int
    blob: int
    why: str


def signature_changes(file: DebugFile) -> Iterator[Change]:
    """LocalSignature of points as a token: a number of four bytes, of which the first is c0 or above."""
    for row, (_, index) in enumerate(file.cells(0x31), 1):
        blob = file.blob(index) if index else None
        if blob and blob.end - blob.content >= 4:
            token = int.from_bytes(file.data[blob.content:blob.content + 4], "big") - 0xC0000000
            if SIGNATURE_TOKEN < token <= SIGNATURE_TOKEN + 0xFFFFFF:
                why = f"local signature {token:08x} to row {token - SIGNATURE_TOKEN}"
                yield Change(Cell(0x31, row, 1), blob.content, 0xC0, index, why)


def list_changes(file: DebugFile) -> Iterator[Change]:
    """Lists 0 of scopes, if the table that they name has no rows: 1 is then the only list that a scope may have (F29)."""
    for row, cells in enumerate(file.cells(0x32), 1):
        for column, table in ((2, 0x33), (3, 0x34)):
            if cells[column] == 0 and file.counts[table] == 0:
                cell = Cell(0x32, row, column)
                yield Change(cell, file.place(cell), 1, 0, "list 0 to 1")


def constant_changes(file: DebugFile) -> Iterator[Change]:
    """Null constants with four zeros: the last byte of the length says where they end."""
    for row, (_, index) in enumerate(file.cells(0x34), 1):
        blob = file.blob(index) if index else None
        if blob and blob.end - blob.content == len(NULL_WITH_ZEROS) and file.data[blob.content:blob.end] == NULL_WITH_ZEROS:
            yield Change(Cell(0x34, row, 1), blob.content - 1, 1, index, "signature 1c00000000 to 1c")


def changes_of(file: DebugFile) -> list[Change]:
    return [*signature_changes(file), *list_changes(file), *constant_changes(file)]


def blob_references(file: DebugFile) -> Iterator[tuple[Cell, int]]:
    """Each blob that a cell names, and each that a document's name or imports name; those inside a blob once, however many cells name
    it."""
    for table, columns in COLUMNS.items():
        places = [column for column, (_, form) in enumerate(columns) if form == "blob"]
        read: set[int] = set()
        for row, cells in enumerate(file.cells(table), 1):
            for column in places:
                cell, index = Cell(table, row, column), cells[column]
                yield cell, index
                inside = {(0x30, 0): name_parts, (0x35, 1): imported}.get((table, column))
                if inside and index not in read:
                    read.add(index)
                    yield from ((cell, part) for part in inside(file.content(index) or b""))


def check_alone(file: DebugFile, changes: list[Change]) -> None:
    """Sees that each changed byte is in one stream, and in no blob but the one that it is changed for."""
    places = sorted({change.place for change in changes})
    for place in places:
        streams = [name for name, (start, size) in file.streams.items() if start <= place < start + size]
        if len(streams) != 1 or place < file.headers_end:
            raise Failed(f"byte {place} is in two parts of the file")
    own = {(change.cell, change.blob): change.place for change in changes}
    for cell, index in blob_references(file):
        blob = file.blob(index) if index else None
        if blob:
            for place in places[bisect_left(places, blob.length):bisect_left(places, blob.end)]:
                if place != own.get((cell, index)):
                    raise Failed(f"byte {place} belongs to {cell} too")


def check_accepted(data: bytearray, count: int) -> None:
    """Sees that `ppdb verify` accepts what will be written."""
    with Input.of("", bytes(data)) as file:
        answer = program.answer("verify", file)
    if answer.status != 0:
        fault = program.fault(answer) if answer.status == program.REFUSED else f"status {answer.status}"
        raise Failed(f"refused with {fault}, after {count} changes")


def write(data: bytearray, out: Path, changes: list[Change]) -> None:
    """Writes OUT if it is accepted and nothing else has a changed byte."""
    name = escaped(os.fsencode(out))
    if out.exists() and not out.is_file():
        raise Failed(f"{name} is no file")
    check_accepted(data, len({change.place for change in changes}))
    if changes:
        check_alone(DebugFile(data), changes)
    try:
        replace(out, data)
    except OSError as wrong:
        raise Failed(f"{name} is not written: {wrong.strerror}") from wrong


def repair(name: str, out: str) -> None:
    with Input.open(name) as file:
        data = bytearray(file.read())
    try:
        changes = changes_of(DebugFile(data))
    except Damaged as wrong:
        raise Failed(f"not read as far as its rows: {wrong}") from wrong
    # A blob that several cells name is changed once.
    lines: dict[int, str] = {}
    for cell, place, byte, _, why in changes:
        lines.setdefault(place, f"byte {place} from {data[place]:02x} to {byte:02x}: {cell} {why}")
    for change in changes:
        data[change.place] = change.byte
    write(data, Path(out).resolve(), changes)
    for line in lines.values():
        put_line(line)


def shown(file: DebugFile, form: Form, value: int) -> str:
    """A cell as `--row` prints it: what it names, and where that is."""
    if isinstance(form, tuple):
        return f"table {form[1]:02x} row {value}"
    if form == "parent":
        tag = value % 32
        return f"table {PARENTS[tag]:02x} row {value // 32}" if tag < len(PARENTS) else f"tag {tag} row {value // 32}"
    item = file.item(form, value)
    if isinstance(item, int):
        return str(item)
    if item is None:
        return f"{form} {value} " + ("is not there" if value else "-")
    text = guid_text(item) if form == "guid" else escaped(item) if form == "text" else item.hex() or "-"
    return f"{form} {value} {text}"


def owner(file: DebugFile, table: int, row: int) -> str:
    """The scope that a variable or constant belongs to, the last one whose list begins at its row or before it."""
    scopes = [(number, cells[0]) for number, cells in enumerate(file.cells(0x32), 1) if cells[table - 0x31] <= row]
    return f"scope {scopes[-1][0]} method {scopes[-1][1]}" if scopes else "scope none"


def show_row(table: int, row: int, name: str) -> None:
    """Prints the cells of a row, and the name of a document or the scope of a variable or constant."""
    try:
        with Input.open(name) as opened:
            file = DebugFile(opened.read())
    except Damaged as wrong:
        raise Failed(f"not read as far as its rows: {wrong}") from wrong
    if not 1 <= row <= file.counts[table]:
        raise Failed(f"table {table:02x} has {file.counts[table]} rows")
    cells = file.row(table, row)
    put_line(f"table {table:02x} {NAMES[table]} row {row}")
    for column, ((word, form), value) in enumerate(zip(COLUMNS[table], cells)):
        put_line(f"column {column} {word} {shown(file, form, value)}")
    if table == 0x30:
        joined = file.name(file.content(cells[0]) or b"")
        put_line("name is not whole" if joined is None else f"name {escaped(joined)}")
    if table in (0x33, 0x34):
        put_line(owner(file, table, row))


def table_of(word: str) -> int:
    """The table of a fault, two hexadecimal digits."""
    if len(word) != 2 or int(word, 16) not in COLUMNS:
        raise ValueError
    return int(word, 16)


def words(parser: argparse.ArgumentParser) -> None:
    parser.usage = "ppdb-tools repair IN OUT\n       ppdb-tools repair --row TABLE ROW FILE"
    parser.add_argument("--row", nargs=2, metavar=("TABLE", "ROW"), help="print what a row holds")
    parser.add_argument("files", nargs="+", metavar="FILE")


def checked(said: argparse.Namespace) -> None:
    """Sees that there are as many files as are wanted, and that TABLE and ROW are numbers."""
    if len(said.files) != (1 if said.row else 2):
        raise Stop("IN and OUT are required, or with --row one FILE", Status.WORDS)
    try:
        said.row = said.row and (table_of(said.row[0]), int(said.row[1]))
    except ValueError:
        raise Stop("TABLE is one of 30 to 37, and ROW a number", Status.WORDS) from None


def run(said: argparse.Namespace) -> int:
    checked(said)
    try:
        if said.row:
            show_row(*said.row, *said.files)
        else:
            repair(*said.files)
    except Failed as wrong:
        raise Stop(f"{escaped(said.files[0])}: {wrong}", Status.FOUND) from wrong
    return Status.DONE
