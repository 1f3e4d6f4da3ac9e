"""What subcommands print: whole lines in one write, columns and colours where a person reads, and progress on standard error."""
import os
import re
import sys
import time
from collections.abc import Iterable, Sequence

from ppdb_tools.errors import Status, Stop
from ppdb_tools.names import escaped

RED, GREEN, YELLOW, DIM, BOLD = 31, 32, 33, 2, 1
COLOUR = re.compile("\x1b\\[[0-9]*m")
# How long work lasts before it says how far it is, and how often it then says so, in seconds.
PATIENCE, PACE = 0.5, 0.1


def put(data: str | bytes) -> None:
    """Writes text at once. One write is one system call, so lines of programs that share a file or a pipe are not torn."""
    left = memoryview(data.encode("utf-8", "surrogateescape") if isinstance(data, str) else data)
    try:
        sys.stdout.flush()
        stream = sys.stdout.buffer
        stream = getattr(stream, "raw", stream)
        while left:
            left = left[stream.write(left) or 0:]
    except BrokenPipeError:
        raise
    except OSError as wrong:
        raise Stop(f"standard output: {wrong.strerror}", Status.OUTPUT) from wrong


def put_line(*words: str | int) -> None:
    """Writes a line of words with tabs between them. A word has neither tab nor newline: names are escaped."""
    put("\t".join(map(str, words)) + "\n")


class Lines:
    """Collects lines, and writes them some at a time; only whole lines are ever written."""

    def __init__(self) -> None:
        self.parts: list[str] = []
        self.size = 0

    def add(self, line: str) -> None:
        self.parts.append(line)
        self.size += len(line)
        if self.size > 0x10000:
            self.write()

    def write(self) -> None:
        if self.parts:
            put("\n".join(self.parts) + "\n")
            self.parts, self.size = [], 0


def warn(subcommand: str, why: str) -> None:
    """Writes a line of a subcommand on standard error."""
    data = f"{' '.join(filter(None, ('ppdb-tools', subcommand)))}: {why}\n".encode("utf-8", "backslashreplace")
    try:
        sys.stderr.flush()
        sys.stderr.buffer.write(data)
        sys.stderr.buffer.flush()
    except OSError:
        pass


def is_terminal() -> bool:
    """Whether a person reads standard output."""
    return sys.stdout.isatty() and os.environ.get("TERM") != "dumb"


def coloured(text: str, colour: int) -> str:
    """A text in a colour, if a person reads it and has not set NO_COLOR."""
    return f"\x1b[{colour}m{text}\x1b[0m" if is_terminal() and not os.environ.get("NO_COLOR") else text


def put_table(head: Sequence[str], rows: Iterable[Sequence[str | int]]) -> None:
    """Writes rows: in columns with a head on a terminal, numbers to the right; elsewhere with tabs and without a head."""
    lines = Lines()
    if not is_terminal():
        for row in rows:
            lines.add("\t".join(map(str, row)))
        lines.write()
        return
    rows = [list(row) for row in rows]
    widths = [max([len(name), *(width_of(row[at]) for row in rows)]) for at, name in enumerate(head)]
    lines.add(coloured("  ".join(name.ljust(width) for name, width in zip(head, widths)).rstrip(), BOLD))
    for row in rows:
        lines.add("  ".join(padded(cell, width) for cell, width in zip(row, widths)).rstrip())
    lines.write()


def width_of(cell: str | int) -> int:
    """How many characters of a cell are seen."""
    return len(COLOUR.sub("", str(cell)))


def padded(cell: str | int, width: int) -> str:
    """A cell as wide as its column, numbers to the right."""
    spaces = " " * (width - width_of(cell))
    return spaces + str(cell) if isinstance(cell, int) else str(cell) + spaces


class Progress:
    """How far long work is, on standard error, if that is a terminal and the work lasts."""

    def __init__(self, what: str, total: int) -> None:
        self.what, self.total, self.done = what, total, 0
        self.next = time.monotonic() + PATIENCE
        self.is_on = sys.stderr.isatty()
        self.is_shown = False

    def step(self, name: str = "") -> None:
        self.done += 1
        now = time.monotonic()
        if self.is_on and now >= self.next:
            self.next, self.is_shown = now + PACE, True
            sys.stderr.write(f"\r\x1b[K{self.done} of {self.total} {self.what} {escaped(name)[-50:] if name else ''}")
            sys.stderr.flush()

    def end(self) -> None:
        if self.is_shown:
            sys.stderr.write("\r\x1b[K")
            sys.stderr.flush()
