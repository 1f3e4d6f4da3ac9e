"""The debug files and assemblies that words name: files as they are, and those below folders."""
import os
import stat
from collections.abc import Iterator
from pathlib import Path
from typing import NamedTuple

from ppdb_tools.inputs import is_below

SUFFIXES = (".pdb", ".dll", ".exe")


class Target(NamedTuple):
    """A file to be checked, and whether a word is its name, so that it must be what it seems."""
    name: str
    is_named: bool


class Targets:
    """The files of words. `unread` has the folders that could not be listed, `left_out` counts links out of their folder."""

    def __init__(self, words: list[str]) -> None:
        self.words = words
        self.unread: list[tuple[str, str]] = []
        self.left_out = 0

    def __iter__(self) -> Iterator[Target]:
        """Each file once; it counts as named if a word is its name."""
        seen = {os.path.normpath(word) for word in self.words if not os.path.isdir(word)}
        for word in dict.fromkeys(self.words):
            if not os.path.isdir(word):
                yield Target(word, True)
                continue
            for name in self.below(word):
                if os.path.normpath(name) not in seen:
                    seen.add(os.path.normpath(name))
                    yield Target(name, False)

    def below(self, folder: str) -> Iterator[str]:
        """The files of a folder by their endings, in an order of names; folders that are links are not entered."""
        def unread(wrong: OSError) -> None:
            self.unread.append((wrong.filename or folder, wrong.strerror or ""))
        for here, folders, names in os.walk(folder, onerror=unread):
            folders.sort()
            for name in sorted(names):
                if name.lower().endswith(SUFFIXES) and self.is_file(os.path.join(here, name), folder):
                    yield os.path.join(here, name)

    def is_file(self, name: str, folder: str) -> bool:
        """Whether a name is that of a regular file, also through a link that stays in the folder."""
        try:
            mode = os.lstat(name).st_mode
        except OSError:
            return False
        if not stat.S_ISLNK(mode):
            return stat.S_ISREG(mode)
        if not is_below(Path(name), Path(folder)):
            self.left_out += 1
            return False
        return os.path.isfile(name)
