"""Gives a stack trace without lines its lines: reads a trace from standard input and prints it. FOLDER has the assemblies' debug files,
NAME.pdb or as a symbol server lays them out, NAME.pdb/KEY/NAME.pdb; and for traces of Mono, which name methods and no tokens, the
assemblies too (NAME.exe or NAME.dll, or NAME.dll/KEY/NAME.dll).

A frame of Mono is `at TYPE.METHOD (PARAMETERS) [0xOFFSET] in <MVID>:0`. One of .NET, with its switch
Switch.System.Diagnostics.StackTrace.ShowILOffsets, ends with `in NAME.dll:token 0xTOKEN+0xOFFSET`; if a GUID follows, it is the identity
of the module or of its debug file. The line is that of the last point at or before the offset that is not hidden. Of a method that
starts a state machine the offset is one of its MoveNext, as Mono and .NET print it. A frame whose line is not found stays as it is.
In a document's name every character that could end the line or control the terminal is printed as \\x and two digits.

Why frames have no line is said on standard error, the reasons with their number; with --why each such frame with its reason. The exit
status is 1 if no frame has a line, or a debug file could not be asked."""
import argparse
import sys
import tempfile
from collections import Counter
from collections.abc import Iterator
from pathlib import Path
from typing import IO

from ppdb_tools.assembly import Assembly, without_brackets
from ppdb_tools.errors import Damaged, Status, Stop
from ppdb_tools.inputs import Input, opened_below
from ppdb_tools.names import printable, shown
from ppdb_tools.output import Lines as Out, warn
from ppdb_tools.places import LAST_OFFSET, Line, Lines, Place
from ppdb_tools.program import Refused, reason
from ppdb_tools.signatures import are_types
from ppdb_tools.symbols import Missing, Symbols
from ppdb_tools.traces import METHOD_TABLE, Frame, frame_of, no_offset

DOES = "give a stack trace of .NET or Mono its source lines"
EXAMPLE = "ppdb-tools stacktrace symbols < trace"
BLOCK = 1 << 20
MOST_REASONS = 5


def words(parser: argparse.ArgumentParser) -> None:
    parser.add_argument("folder", metavar="FOLDER")
    parser.add_argument("--why", action="store_true", help="say of each frame why it has no line")


def methods_of(assembly: Assembly, frame: Frame) -> list[int]:
    """The methods of a name as Mono prints it; of several those whose parameters have the types."""
    found = assembly.printed.get(without_brackets(frame.method), [])
    if len(found) > 1:
        types = [word.split(" ")[0] for word in frame.parameters.split(", ") if word]
        found = [(kind, method) for kind, method in found if are_types(assembly.parameters(kind, method), types)]
    return [method for _, method in found]


def mono_place(frame: Frame, symbols: Symbols) -> tuple[Path, Place]:
    """The debug file of a frame of Mono, and its place there."""
    file, assembly = symbols.module(frame.identity)
    rows = methods_of(assembly, frame)
    if len(rows) != 1:
        raise Missing(f"{shown(file.name)} has {'no such method' if not rows else 'several such methods'}")
    return symbols.debug_file(file.stem, [assembly]), Place(rows[0], frame.offset)


def dotnet_place(frame: Frame, symbols: Symbols) -> tuple[Path, Place]:
    """The debug file of a frame of .NET, and its place there."""
    if frame.token >> 24 != METHOD_TABLE:
        raise Missing("a token is of no method")
    name = frame.module
    file = symbols.identified(name, frame.identity) if frame.identity else symbols.debug_file(name, symbols.named(name))
    return file, Place(frame.token & 0xFFFFFF, frame.offset)


def place_of(frame: Frame, symbols: Symbols) -> tuple[Path, Place]:
    """The debug file that a frame is of, and its place there."""
    if frame.offset > LAST_OFFSET:
        raise Missing(f"an offset is above {LAST_OFFSET}")
    try:
        return (mono_place if frame.is_mono else dotnet_place)(frame, symbols)
    except Damaged as damaged:
        raise Missing(f"an assembly is damaged: {damaged}") from damaged


class Trace:
    """The frames of a trace, each once, and their lines or why they have none."""

    def __init__(self, texts: Iterator[str], symbols: Symbols) -> None:
        self.places: dict[str, tuple[Path, Place]] = {}
        self.why: dict[str, str] = {}
        self.lines: dict[Path, dict[Place, Line]] = {}
        self.is_asked = True
        for text in texts:
            self.add(text, symbols)
        self.ask(symbols)

    def add(self, text: str, symbols: Symbols) -> None:
        """Takes a line of the trace."""
        if text in self.places or text in self.why:
            return
        frame = frame_of(text)
        if frame is None:
            if why := no_offset(text):
                self.why[text] = why
            return
        try:
            self.places[text] = place_of(frame, symbols)
        except Missing as missing:
            self.why[text] = str(missing)

    def ask(self, symbols: Symbols) -> None:
        """Asks each debug file once for all its places."""
        wanted: dict[Path, list[Place]] = {}
        for file, place in self.places.values():
            wanted.setdefault(file, []).append(place)
        said: dict[Path, dict[Place, str]] = {}
        for file, places in wanted.items():
            self.lines[file], said[file] = self.asked(file, places, symbols)
        for text, (file, place) in self.places.items():
            if place not in self.lines[file]:
                self.why[text] = said[file].get(place, f"{shown(file.name)}: it is not answered")

    def asked(self, file: Path, places: list[Place], symbols: Symbols) -> tuple[dict[Place, Line], dict[Place, str]]:
        """The lines of places of a debug file, and why the others have none."""
        opened = opened_below(file, symbols.folder)
        if opened is None:
            self.is_asked = False
            return {}, dict.fromkeys(places, f"{shown(file.name)} is no readable file of the folder")
        with Input(str(file), opened) as asked:
            lines = Lines(asked)
            try:
                lines.ask(places)
            except Refused as refused:
                self.is_asked = False
                return {}, dict.fromkeys(places, f"{shown(file.name)}: {reason(refused.answer)}")
        return lines.found, {place: f"{shown(file.name)}: {why}" for place, why in lines.why.items()}

    def with_line(self, text: str) -> str:
        """A line of the trace; a frame has its line, if that was found."""
        found = self.places.get(text)
        line = self.lines[found[0]].get(found[1]) if found else None
        frame = frame_of(text) if line else None
        return frame.with_line(printable(line.document), line.line) if frame and line else text

    def complaint(self) -> str | None:
        """Why frames have no line."""
        if not self.places and not self.why:
            return "the trace has no frame with an offset"
        if not self.why:
            return None
        is_none = not any(self.lines.values())
        reasons = "; ".join(f"{why} ({count})" for why, count in Counter(self.why.values()).most_common(MOST_REASONS))
        return f"{'no frame has a line' if is_none else f'{len(self.why)} frames have no line'}: {reasons}"


def texts_of(file: IO[bytes]) -> Iterator[str]:
    """The lines of a trace without their ends, from its beginning."""
    file.seek(0)
    for line in file:
        yield line.decode("utf-8", "surrogateescape").removesuffix("\n")


def read_trace() -> IO[bytes]:
    """The trace of standard input as a file, since it is read twice and may be long."""
    found = tempfile.TemporaryFile()
    while data := sys.stdin.buffer.read(BLOCK):
        found.write(data)
    return found


def run(said: argparse.Namespace) -> int:
    if not Path(said.folder).is_dir():
        raise Stop(f"there is no folder {shown(said.folder)}", Status.WORDS)
    symbols = Symbols(Path(said.folder))
    with read_trace() as file:
        trace, out = Trace(texts_of(file), symbols), Out()
        for text in texts_of(file):
            out.add(trace.with_line(text))
        out.write()
    for fault in symbols.faults:
        warn("stacktrace", fault)
    if said.why:
        for text, why in trace.why.items():
            warn("stacktrace", f"{printable(text.strip())}: {why}")
    complaint = trace.complaint()
    if complaint:
        warn("stacktrace", complaint)
    return Status.DONE if any(trace.lines.values()) and trace.is_asked else Status.FOUND
