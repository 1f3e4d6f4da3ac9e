"""Prints the source line of each frame of a list: FILE is a debug file, or an assembly with one; each line of LIST, or of the standard
input, is METHOD OFFSET. METHOD is a row or a token, 0x06 and six digits; OFFSET is decimal, or hexadecimal after 0x. Empty lines and
lines that begin with # are left out.

Each frame has a line of four columns with tabs between them: METHOD, OFFSET, LINE:COLUMN and the document's name as ppdb prints it. A
frame without a line has - in the third column, and the reason in the fourth. With --json each is an object. The line is that of the
last point at or before the offset that is not hidden; of a method that starts a state machine it is looked for in its MoveNext.

The exit status is 1 if a frame has no line."""
import argparse
import json
import re

from ppdb_tools.debug_files import pair_of
from ppdb_tools.errors import Status, Stop
from ppdb_tools.inputs import Input
from ppdb_tools.names import escaped, shown
from ppdb_tools.output import Lines as Out
from ppdb_tools.places import LAST_METHOD, LAST_OFFSET, Lines, Place

DOES = "print the source lines of METHOD OFFSET frames"
EXAMPLE = "echo '0x06000027 0x9' | ppdb-tools frames app.pdb"
QUESTION = re.compile(r"(?:0x06([0-9a-fA-F]{6})|([0-9]{1,8})) (?:0x([0-9a-fA-F]{1,8})|([0-9]{1,10}))")


def words(parser: argparse.ArgumentParser) -> None:
    parser.add_argument("file", metavar="FILE")
    parser.add_argument("list", metavar="LIST", nargs="?", default="-")
    parser.add_argument("--json", action="store_true", help="print objects")


def questions(text: str, name: str) -> list[Place]:
    """The places of a list."""
    found = []
    for number, line in enumerate(text.splitlines(), 1):
        if not line or line.startswith("#"):
            continue
        read = QUESTION.fullmatch(line)
        place = Place(int(read[1], 16) if read[1] else int(read[2]), int(read[3], 16) if read[3] else int(read[4])) if read else None
        if not place or place.method > LAST_METHOD or place.offset > LAST_OFFSET:
            raise Stop(f"{shown(name)}: line {number} is not METHOD OFFSET")
        found.append(place)
    return found


def printed(place: Place, lines: Lines, is_json: bool) -> str:
    """The line of a frame."""
    line, why = lines.found.get(place), lines.why.get(place, "")
    if is_json:
        answer = {"document": escaped(line.document), "line": line.line, "column": line.column, "at": list(line.place)} if line else {"why": why}
        return json.dumps({"method": place.method, "offset": place.offset, **answer}, sort_keys=True)
    where = [f"{line.line}:{line.column}", escaped(line.document)] if line else ["-", why]
    return "\t".join(map(str, [*place, *where]))


def run(said: argparse.Namespace) -> int:
    with Input.open(said.list) as listed:
        places = questions(listed.read().decode("utf-8", "replace"), said.list)
    pair = pair_of(said.file)
    with pair.file as file:
        lines, out = Lines(file), Out()
        lines.ask(places)
        for place in places:
            out.add(printed(place, lines, said.json))
        out.write()
    return Status.FOUND if lines.why else Status.DONE
