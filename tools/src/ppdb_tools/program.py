"""The command `ppdb`, which says all that it can say of a debug file: which program it is, and how it is asked. It is the one that the
variable PPDB names; in a clone the one that ./ppdb runs; else the one beside this package's installation, or that of the PATH."""
import functools
import os
import shutil
import stat
import subprocess
import tempfile
from collections.abc import Iterator, Sequence
from pathlib import Path
from typing import IO, NamedTuple

from ppdb_tools.errors import Status, Stop
from ppdb_tools.faults import sentence
from ppdb_tools.inputs import OPENED, Input, Unreadable
from ppdb_tools.names import escaped, printable

HERE = Path(__file__).resolve().parent
# In a clone the package is in tools/src, in an installation in share/ppdb.
FINDER = HERE.parents[2] / "scripts/making/program"
INSTALLED = HERE.parents[2] / "bin/ppdb"
# The file that is asked about is the standard input, so its name may be any and is read once.
STANDARD_INPUT = "/dev/stdin"
# The statuses of `ppdb` (its manual page, EXIT STATUS).
REFUSED, READ_FAULT, ABSENT, NO_LINKS = 1, 3, 6, 11
FIRST_LINE = 1 << 16


class Answer(NamedTuple):
    """The exit status of a run and the first line of its standard output. After a signal the status is 128 and its number."""
    status: int
    line: str


class Refused(Stop):
    """`ppdb` does not answer about a file: its status, and the line that it printed."""

    def __init__(self, name: str, answer: Answer) -> None:
        self.answer = answer
        super().__init__(f"{printable(name)}: {reason(answer)}", Status.FOUND if answer.status == REFUSED else Status.INPUT)


def reason(answer: Answer) -> str:
    """What an answer says, without the name of the file: a fault and its place, or how the run ended."""
    if answer.status == REFUSED and answer.line.startswith("refused "):
        return ": ".join(filter(None, (f"refused with {fault(answer)}", sentence(fault(answer)))))
    return f"ppdb ended with status {answer.status}" + (f": {printable(answer.line)}" if answer.line else "")


def fault(answer: Answer) -> str:
    """The fault of a line `refused FILE FAULT`: its code and its place."""
    return answer.line.split(" ", 2)[-1]


@functools.cache
def program() -> str:
    """The program that is run."""
    named = os.environ.get("PPDB")
    if named:
        return named
    if FINDER.exists():
        found = subprocess.run([FINDER, "--quiet"], stdout=subprocess.PIPE, text=True, check=False)
        if found.returncode:
            raise Stop("there is no program of this clone: ./ppdb says why", Status.WORDS)
        return found.stdout.strip()
    return str(INSTALLED) if INSTALLED.is_file() else shutil.which("ppdb") or "ppdb"


def start(words: Sequence[str], stdin: IO[bytes] | int) -> subprocess.Popen[bytes]:
    """Starts the program."""
    try:
        return subprocess.Popen([program(), *words], stdin=stdin, stdout=subprocess.PIPE, stderr=subprocess.DEVNULL)
    except OSError as wrong:
        raise Stop(f"the command ppdb is not there: {printable(program())}: {wrong.strerror}", Status.WORDS) from wrong


def answer(command: str, file: Input) -> Answer:
    """How a command over a file ends, with the first line of what it prints."""
    file.file.seek(0)
    with start([command, STANDARD_INPUT], file.file) as run:
        return first_line(run)


def by_name(command: str, name: str) -> Answer:
    """How a command over the file of a name ends, in its own words. It opens that file itself, unless the name is not UTF-8, which `ppdb`
    does not take; a pipe or a device is not waited for."""
    try:
        mode = os.stat(name).st_mode
    except (OSError, ValueError):
        mode = None
    is_waiting = mode is not None and not (stat.S_ISREG(mode) or stat.S_ISDIR(mode) or name.startswith(OPENED))
    if is_waiting:
        return Answer(READ_FAULT, f"read fault {escaped(name)}")
    if not is_utf_8(name):
        try:
            with Input.open(name) as file:
                status, line = answer(command, file)
        except Unreadable:
            return Answer(ABSENT if mode is None else READ_FAULT, f"{'absent' if mode is None else 'read fault'} {escaped(name)}")
        return Answer(status, line.replace(STANDARD_INPUT, escaped(name), 1))
    with start([command, f"./{name}" if name.startswith("--") else name], subprocess.DEVNULL) as run:
        return first_line(run)


def is_utf_8(name: str) -> bool:
    """Whether the bytes of a name are UTF-8."""
    return not any(0xDC80 <= ord(letter) <= 0xDCFF for letter in name)


def printed(run: subprocess.Popen[bytes]) -> IO[bytes]:
    """What a run prints."""
    assert run.stdout is not None
    return run.stdout


def first_line(run: subprocess.Popen[bytes]) -> Answer:
    """How a run ends, with the first line of what it prints."""
    line = printed(run).readline(FIRST_LINE).rstrip(b"\n")
    while printed(run).read(FIRST_LINE):
        pass
    run.wait()
    return ended(run.returncode, line)


def lines(file: Input, command: str, *words: str, may_be: Sequence[int] = (), most: int | None = None) -> Iterator[bytes]:
    """The lines that a command prints about a file, without their ends, one at a time. Refused says that it does not answer; a status
    of `may_be` gives no lines. After `most` bytes the run is ended, and Flooded says so."""
    file.file.seek(0)
    size, held = 0, None
    with start([command, STANDARD_INPUT, *words], file.file) as run:
        try:
            for line in printed(run):
                size += len(line)
                if most is not None and size > most:
                    raise Flooded
                # The last line is kept back: it says why there is no answer, if there is none.
                if held is not None:
                    yield held
                held = line.rstrip(b"\n")
        except BaseException:
            run.kill()
            raise
    if run.returncode == 0 and held is not None:
        yield held
    elif run.returncode not in (0, *may_be):
        raise Refused(file.name, ended(run.returncode, held or b""))


def ended(status: int, line: bytes) -> Answer:
    """How a run ended, with the line that says why."""
    if status < 0:
        return Answer(128 - status, f"signal {-status}")
    return Answer(status, line.decode("ascii", "backslashreplace"))


class Flooded(Exception):
    """An answer is longer than the caller can use."""


def looked_up(file: Input, places: str, most: int | None = None) -> Iterator[bytes]:
    """The lines of `lookup` for a list of questions."""
    with tempfile.NamedTemporaryFile() as listed:
        listed.write(places.encode())
        listed.flush()
        yield from lines(file, "lookup", listed.name, most=most)


def version() -> str:
    """What `ppdb --version` prints."""
    with start(["--version"], subprocess.DEVNULL) as run:
        return printed(run).read(FIRST_LINE).decode("ascii", "backslashreplace").strip()
