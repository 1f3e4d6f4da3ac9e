"""The source lines of places of methods, by `ppdb lookup`: the last point at or before an offset that is not hidden; of a method that
starts a state machine the point of its MoveNext at that offset, as Mono and .NET count it."""
from bisect import bisect_right
from collections.abc import Iterable, Iterator
from typing import NamedTuple

from ppdb_tools import program
from ppdb_tools.inputs import Input
from ppdb_tools.names import text_of

LAST_METHOD, LAST_OFFSET = 0xFFFFFF, 0x7FFFFFFF
# How many runs look for the point before hidden ones. Compilers write few of them one after another.
MOST_RUNS = 16
# How much `lookup` may print, so many bytes and so many for each byte of the file. What is in scope can be much more than the file, so
# then `show` is asked, which prints each row once.
FLOOD, FLOOD_EACH = 1 << 23, 8
# A longer name is none of a file (PATH_MAX of Linux).
LONGEST_NAME = 4096


class Place(NamedTuple):
    """A method by its row, and an offset of its IL."""
    method: int
    offset: int


class Line(NamedTuple):
    """A line of a document, and the point that says so: its offset in the method that has the code."""
    document: str
    line: int
    column: int
    place: Place


class Answer(NamedTuple):
    """What `lookup` says of a place: the line of its point, the place that has it instead, or why there is none."""
    line: Line | None
    instead: Place | None
    why: str


class Lines:
    """Asks a debug file for lines. `found` has the line of each place that has one, `why` the reason of each other."""

    def __init__(self, file: Input) -> None:
        self.file = file
        self.names: dict[str, str] = {}
        self.found: dict[Place, Line] = {}
        self.why: dict[Place, str] = {}

    def ask(self, places: Iterable[Place]) -> None:
        """Asks for places."""
        places = set(places)
        try:
            self.look_up(places)
        except program.Flooded:
            self.found, self.why = {}, {}
            self.scan(places)

    def document(self, word: str) -> str:
        """The name of a document by what `ppdb` prints, each once in memory."""
        if word not in self.names:
            name = text_of(word)
            self.names[word] = name if len(name) <= LONGEST_NAME else name[:LONGEST_NAME] + ".."
        return self.names[word]

    def look_up(self, places: set[Place]) -> None:
        """Asks by `lookup`, again for places whose point is hidden or that are a kickoff's."""
        asked = {place: place for place in places}
        for _ in range(MOST_RUNS):
            if not asked:
                return
            answers = dict(self.answers(set(asked.values())))
            later = {}
            for place, at in asked.items():
                line, instead, why = answers.get(at, Answer(None, None, "it is not answered"))
                if line:
                    self.found[place] = line
                elif instead:
                    later[place] = instead
                else:
                    self.why[place] = why
            asked = later
        if asked:
            self.scan(set(asked))

    def answers(self, places: set[Place]) -> Iterator[tuple[Place, Answer]]:
        """What `lookup` says of each place."""
        asked = "".join(f"{method} {offset}\n" for method, offset in sorted(places))
        here, answer = None, Answer(None, None, "")
        for line in program.looked_up(self.file, asked, FLOOD + FLOOD_EACH * self.file.size):
            if line.startswith(b"at "):
                if here:
                    yield here, answer
                here, answer = Place(*map(int, line.split()[1:3])), Answer(None, None, "it is not answered")
            elif here and line.startswith((b"point ", b"move ", b"no method ")):
                answer = self.better(here, answer, line.decode("ascii").split(" "))
        if here:
            yield here, answer

    def better(self, place: Place, answer: Answer, words: list[str]) -> Answer:
        """An answer with what one more line of it says."""
        if words[0] == "no":
            return Answer(None, None, "there is no such method")
        if words[0] == "move":
            return Answer(None, Place(int(words[1]), place.offset), "")
        if words[1] == "none":
            return Answer(None, None, "no point is at or before the offset")
        offset = int(words[1])
        if words[3] != "hidden":
            line, column = map(int, words[3].split(":"))
            return Answer(Line(self.document(words[-1]), line, column, Place(place.method, offset)), None, "")
        if offset:
            return Answer(None, Place(place.method, offset - 1), "")
        return Answer(None, None, "the code belongs to no line")

    def scan(self, places: set[Place]) -> None:
        """Finds the lines by `show`."""
        moves = {int(words[-1]): int(words[3]) for words in self.shown(b"machine ")}
        asked: dict[int, list[tuple[int, Place]]] = {}
        for place in sorted(places):
            method = moves.get(place.method, place.method)
            asked.setdefault(method, []).append((place.offset, place))
        names, here = {}, None
        for words in self.shown(b"document ", b"method ", b"point "):
            if words[0] == "document":
                names[int(words[1])] = words[-1]
            elif words[0] == "method":
                self.settle(here)
                method = int(words[1])
                here = Points(method, asked.pop(method)) if method in asked else None
            elif here:
                here.add(words, names)
        self.settle(here)
        for left in asked.values():
            self.why.update((place, "no point is at or before the offset") for _, place in left)

    def shown(self, *starts: bytes) -> Iterator[list[str]]:
        """The words of the lines of `show` that begin so."""
        return (line.decode("ascii").split(" ") for line in program.lines(self.file, "show") if line.startswith(starts))

    def settle(self, points: "Points | None") -> None:
        """Takes the answers of a method."""
        if points is None:
            return
        for offset, place in points.asked:
            at = bisect_right(points.offsets, offset) - 1
            if at < 0:
                self.why[place] = "no point is at or before the offset"
            elif (found := points.lines[at]) is None:
                self.why[place] = "the code belongs to no line"
            else:
                start, name, line, column = found
                self.found[place] = Line(self.document(name), line, column, Place(points.method, start))


class Points:
    """The points of a method, as far as places ask for them: for each the last one at or before it that is not hidden."""

    def __init__(self, method: int, asked: list[tuple[int, Place]]) -> None:
        self.method, self.asked = method, asked
        self.offsets: list[int] = []
        self.lines: list[tuple[int, str, int, int] | None] = []

    def add(self, words: list[str], names: dict[int, str]) -> None:
        """Adds a point `point O D hidden` or `point O D SL:SC EL:EC`."""
        offset = int(words[1])
        if words[3] == "hidden":
            self.lines.append(self.lines[-1] if self.lines else None)
        else:
            line, column = map(int, words[3].split(":"))
            self.lines.append((offset, names[int(words[2])], line, column))
        self.offsets.append(offset)
