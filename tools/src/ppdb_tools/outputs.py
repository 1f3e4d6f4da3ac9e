"""Files that are written: whole or not at all, and never through a link that lies in a folder of somebody else."""
import errno
import os
import shutil
import stat
from pathlib import Path

from ppdb_tools.errors import Status, Stop
from ppdb_tools.names import shown

# What a file system answers that has no links, or none from there to here.
LINKLESS = {errno.EXDEV, errno.EPERM, errno.EMLINK, errno.EOPNOTSUPP, errno.ENOSYS}
FOLDER = os.O_RDONLY | os.O_DIRECTORY | os.O_NOFOLLOW | os.O_CLOEXEC


def unwritten(name: str | Path, wrong: OSError) -> Stop:
    """What is said of a file that cannot be written."""
    return Stop(f"{shown(name)}: {wrong.strerror}", Status.OUTPUT)


def write_over(name: str | Path, data: bytes) -> None:
    """Writes the file that words name, beside it first, so that it is never half written. A device or a pipe is written in place; of a
    link the file is written that it leads to, and the file keeps its permissions."""
    out = Path(name)
    try:
        if out.exists() and not out.is_file():
            with open(out, "wb") as file:
                file.write(data)
            return
        replace(out.resolve(), data)
    except OSError as wrong:
        raise unwritten(name, wrong) from wrong


def replace(out: Path, data: bytes) -> None:
    """Gives a file new bytes at once."""
    part = out.with_name(f".{out.name[:200]}.{os.getpid()}")
    try:
        with open(part, "xb") as file:
            file.write(data)
        if out.exists():
            shutil.copymode(out, part)
        part.replace(out)
    finally:
        part.unlink(missing_ok=True)


def write_new(out: Path, data: bytes) -> None:
    """Writes a file that must not be there yet."""
    try:
        with open(out, "xb") as file:
            file.write(data)
    except FileExistsError as wrong:
        raise Stop(f"{shown(out)}: it is there already; name it as OUT to write over it", Status.OUTPUT) from wrong
    except OSError as wrong:
        raise unwritten(out, wrong) from wrong


class Tree:
    """A folder that words name, below which files are laid at places of several names. No link below it is followed, so nothing is
    written outside."""

    def __init__(self, folder: str | Path) -> None:
        self.folder = Path(folder)
        try:
            self.folder.mkdir(parents=True, exist_ok=True)
            self.root = os.open(self.folder, os.O_RDONLY | os.O_DIRECTORY | os.O_CLOEXEC)
        except OSError as wrong:
            raise Stop(f"{shown(folder)}: {wrong.strerror}", Status.WORDS) from wrong

    def __enter__(self) -> "Tree":
        return self

    def __exit__(self, *_: object) -> None:
        os.close(self.root)

    def inside(self, names: list[str]) -> int:
        """The folder of these names, open; those that are not there are made."""
        here = os.dup(self.root)
        for name in names:
            try:
                os.mkdir(name, dir_fd=here)
            except FileExistsError:
                pass
            except OSError:
                os.close(here)
                raise
            try:
                there = os.open(name, FOLDER, dir_fd=here)
            finally:
                os.close(here)
            here = there
        return here

    def add(self, names: list[str], data: bytes) -> str:
        """Lays a file at a place: `written`; or `there`, if the same bytes are there already, or `differs`, if other ones are."""
        here = self.inside(names[:-1])
        try:
            return self._add(here, names[-1], data)
        finally:
            os.close(here)

    def link(self, names: list[str], file: str) -> str:
        """Lays a hard link to a file at a place where nothing is: `linked`; `taken`, if something is there; `unable`, if the file system
        has no such link."""
        here = self.inside(names[:-1])
        try:
            os.link(file, names[-1], dst_dir_fd=here)
            return "linked"
        except FileExistsError:
            return "taken"
        except OSError as wrong:
            if wrong.errno not in LINKLESS:
                raise
            return "unable"
        finally:
            os.close(here)

    def _add(self, here: int, name: str, data: bytes) -> str:
        part = f".part-{os.getpid()}"
        try:
            self._write(here, part, data)
            # A link to what is written fails if the name is taken, so two runs that lay the same file do no harm.
            os.link(part, name, src_dir_fd=here, dst_dir_fd=here, follow_symlinks=False)
            return "written"
        except FileExistsError:
            return "there" if self._is(here, name, data) else "differs"
        except OSError as wrong:
            if wrong.errno not in LINKLESS:
                raise
            if self._is_taken(here, name):
                return "there" if self._is(here, name, data) else "differs"
            os.rename(part, name, src_dir_fd=here, dst_dir_fd=here)
            return "written"
        finally:
            try:
                os.unlink(part, dir_fd=here)
            except FileNotFoundError:
                pass

    @staticmethod
    def _write(here: int, name: str, data: bytes) -> None:
        flags = os.O_WRONLY | os.O_CREAT | os.O_TRUNC | os.O_NOFOLLOW | os.O_CLOEXEC
        with os.fdopen(os.open(name, flags, 0o666, dir_fd=here), "wb") as file:
            file.write(data)

    @staticmethod
    def _is_taken(here: int, name: str) -> bool:
        try:
            os.stat(name, dir_fd=here, follow_symlinks=False)
        except FileNotFoundError:
            return False
        return True

    @staticmethod
    def _is(here: int, name: str, data: bytes) -> bool:
        """Whether a regular file, and no link, has these bytes."""
        try:
            number = os.open(name, os.O_RDONLY | os.O_NOFOLLOW | os.O_NONBLOCK | os.O_CLOEXEC, dir_fd=here)
        except OSError:
            return False
        with os.fdopen(number, "rb") as file:
            status = os.fstat(number)
            return stat.S_ISREG(status.st_mode) and status.st_size == len(data) and file.read() == data
