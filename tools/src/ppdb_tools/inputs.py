"""The files that words name. Each is opened once, so that all that is said of it is said of the same bytes; it is a regular file or the
standard input, so that no pipe or device is waited for; and no more is read of it than `ppdb` reads of a file."""
import os
import stat
import tempfile
from pathlib import Path
from typing import IO

from ppdb_tools.errors import Stop
from ppdb_tools.names import shown
from ppdb_tools.pe import LONGEST

# Names that a shell gives what it opened itself, as in `<(command)`.
OPENED = ("/dev/stdin", "/dev/fd/", "/proc/self/fd/")
BLOCK = 1 << 20


class Unreadable(Stop):
    """A file that cannot be read; `reason` says why, without its name."""

    def __init__(self, name: str, reason: str) -> None:
        super().__init__(f"{shown(name)}: {reason}")
        self.reason = reason


class TooLong(Unreadable):
    """A file that is longer than any that is read."""


class Input:
    """A file, open to be read, and its name as the words have it."""

    def __init__(self, name: str, file: IO[bytes]) -> None:
        self.name, self.file = name, file

    @classmethod
    def open(cls, name: str, longest: int = LONGEST) -> "Input":
        """Opens the file of a name."""
        try:
            file = opened(name)
        except (OSError, ValueError) as wrong:
            raise Unreadable(name, getattr(wrong, "strerror", None) or str(wrong)) from wrong
        size = os.fstat(file.fileno()).st_size
        if size > longest:
            file.close()
            raise TooLong(name, f"it has {size} bytes, above {longest}")
        return cls(name, file)

    @classmethod
    def of(cls, name: str, data: bytes) -> "Input":
        """Bytes that stand for a file of a name, for example an embedded debug file for its assembly."""
        file = tempfile.TemporaryFile()
        file.write(data)
        file.flush()
        return cls(name, file)

    @property
    def size(self) -> int:
        return os.fstat(self.file.fileno()).st_size

    def read(self, most: int = LONGEST) -> bytes:
        """All bytes of the file, no more than `most`."""
        self.file.seek(0)
        try:
            data = self.file.read(most + 1) or b""
        except OSError as wrong:
            raise Unreadable(self.name, wrong.strerror or str(wrong)) from wrong
        if len(data) > most:
            raise Unreadable(self.name, f"it has more than {most} bytes")
        return data

    def start(self, size: int) -> bytes:
        """The first bytes of the file."""
        self.file.seek(0)
        return self.file.read(size)

    def close(self) -> None:
        self.file.close()

    def __enter__(self) -> "Input":
        return self

    def __exit__(self, *_: object) -> None:
        self.close()


def opened(name: str) -> IO[bytes]:
    """Opens a regular file. What a shell opened may be a pipe: its bytes go to a file that has no name."""
    if name == "-":
        name = "/dev/stdin"
    is_opened = name.startswith(OPENED)
    number = os.open(name, os.O_RDONLY | os.O_CLOEXEC | (0 if is_opened else os.O_NONBLOCK))
    file = os.fdopen(number, "rb")
    mode = os.fstat(number).st_mode
    if stat.S_ISREG(mode):
        return file
    if is_opened and (stat.S_ISFIFO(mode) or stat.S_ISSOCK(mode)):
        return spooled(file)
    file.close()
    raise ValueError("it is a folder" if stat.S_ISDIR(mode) else "it is no regular file")


def spooled(pipe: IO[bytes]) -> IO[bytes]:
    """The bytes of a pipe as a file, as far as `ppdb` would read them."""
    found, left = tempfile.TemporaryFile(), LONGEST + 1
    with pipe:
        while left and (data := pipe.read(min(left, BLOCK))):
            found.write(data)
            left -= len(data)
    found.flush()
    return found


def read(name: str, longest: int = LONGEST) -> bytes:
    """The bytes of a file that words name."""
    with Input.open(name, longest) as file:
        return file.read(longest)


def is_below(file: Path, folder: Path) -> bool:
    """Whether a file is in a folder after all links are resolved."""
    try:
        return file.resolve(strict=True).is_relative_to(folder.resolve(strict=True))
    except (OSError, RuntimeError, ValueError):
        return False


def opened_below(file: Path, folder: Path) -> IO[bytes] | None:
    """Opens a file of a folder that words name: a regular one, also if it is a link, but none whose link leads out of the folder.
    The link is resolved first and the result opened without following another one."""
    try:
        real = file.resolve(strict=True)
        if not real.is_relative_to(folder.resolve(strict=True)):
            return None
        number = os.open(real, os.O_RDONLY | os.O_CLOEXEC | os.O_NONBLOCK | os.O_NOFOLLOW)
    except (OSError, RuntimeError, ValueError):
        return None
    if not stat.S_ISREG(os.fstat(number).st_mode):
        os.close(number)
        return None
    return os.fdopen(number, "rb")


def read_below(file: Path, folder: Path, longest: int = LONGEST) -> bytes | None:
    """The bytes of a file of a folder, None if it cannot be read, is no regular file, leads out of the folder or is too long."""
    found = opened_below(file, folder)
    if found is None:
        return None
    with found:
        if os.fstat(found.fileno()).st_size > longest:
            return None
        try:
            # A file of the system that has nothing to say at once gives None.
            data = found.read(longest + 1) or b""
        except OSError:
            return None
    return data if len(data) <= longest else None
