"""The assemblies and debug files of a folder, at its top or as a symbol server lays them out, and which debug file is a module's. Only
regular files of the folder are opened, and none whose link leads out of it."""
import functools
from pathlib import Path

from ppdb_tools.assembly import Assembly, guid_digits
from ppdb_tools.debug_files import stored_identity
from ppdb_tools.errors import Damaged, Status, Stop
from ppdb_tools.inputs import opened_below, read_below
from ppdb_tools.names import printable, shown

SUFFIXES = (".dll", ".exe")
# How many assemblies are held at a time. The frames of a trace come in runs of one assembly.
HELD = 4


class Missing(Exception):
    """Why a debug file, or what it is asked for, is not there."""


class Symbols:
    """The assemblies and debug files of a folder, each at its top or at NAME/KEY/NAME. The case of a name says nothing."""

    def __init__(self, folder: Path) -> None:
        self.folder = folder
        self.entries: dict[str, list[Path]] = {}
        try:
            for entry in sorted(folder.iterdir()):
                self.entries.setdefault(entry.name.lower(), []).append(entry)
        except OSError as wrong:
            raise Stop(f"{shown(folder)}: {wrong.strerror}", Status.WORDS) from wrong
        # The assemblies that have a debug file and were not read yet.
        self.unread = [file for name in self.entries if name.endswith(SUFFIXES) and f"{name[:-4]}.pdb" in self.entries
                       for file in self.files(name)]
        self.modules: dict[str, Path] = {}
        self.faults: list[str] = []
        self.assembly = functools.lru_cache(HELD)(self._assembly)
        self.pdb_id = functools.cache(self._pdb_id)

    def files(self, name: str) -> list[Path]:
        """The files of a name, those at the top first."""
        found = self.entries.get(name.lower(), [])
        below = [key / entry.name for entry in found if entry.is_dir() and not entry.is_symlink() for key in sorted(entry.iterdir())]
        return [entry for entry in found if entry.is_file()] + [file for file in below if file.is_file()]

    def _assembly(self, file: Path) -> Assembly | None:
        data = read_below(file, self.folder)
        try:
            if data is not None:
                assembly = Assembly(data)
                # An assembly without an identity serves for nothing here.
                return assembly if assembly.identity else None
            why = "it is no readable file of this folder"
        except Damaged as damaged:
            why = str(damaged)
        self.faults.append(f"{shown(file)}: {why}")
        return None

    def _pdb_id(self, file: Path) -> bytes:
        """The 20 bytes of the identity of a debug file, or zeros."""
        found = opened_below(file, self.folder)
        if found is None:
            return bytes(20)
        with found:
            return stored_identity(found) or bytes(20)

    def module(self, identity: str) -> tuple[Path, Assembly]:
        """The assembly whose module has the identity."""
        while identity not in self.modules and self.unread:
            left = self.unread.pop()
            assembly = self.assembly(left)
            if assembly:
                self.modules[assembly.identity] = left
        file = self.modules.get(identity)
        assembly = self.assembly(file) if file else None
        if not file or not assembly:
            raise Missing(f"no assembly with a debug file has the identity {identity}")
        return file, assembly

    def assemblies(self, name: str) -> list[Assembly]:
        return [assembly for suffix in SUFFIXES for file in self.files(name + suffix) if (assembly := self.assembly(file))]

    def named(self, name: str) -> list[Assembly]:
        """The assemblies of a name, which are read only if they decide which of several debug files is asked."""
        return self.assemblies(name) if len(self.files(f"{name}.pdb")) > 1 else []

    def debug_file(self, name: str, assemblies: list[Assembly]) -> Path:
        """The debug file of a name that one of its assemblies names. If none names any, it is the one at the top, or the only one."""
        files, ids = self.files(f"{name}.pdb"), [debug_id for assembly in assemblies for debug_id in assembly.debug_ids]
        found = [file for file in files if self.pdb_id(file) in ids] if ids else files
        if len(found) > 1 and not ids:
            found = [file for file in files if file.parent == self.folder]
        if not found:
            raise Missing(f"no {printable(name)}.pdb is known to be of this build" if files else f"there is no {printable(name)}.pdb")
        return found[0]

    def identified(self, name: str, identity: str) -> Path:
        """The debug file of a name that has an identity, or whose module has it."""
        for file in self.files(f"{name}.pdb"):
            if guid_digits(self.pdb_id(file)) == identity:
                return file
        assemblies = [assembly for assembly in self.assemblies(name) if assembly.identity == identity]
        if not assemblies:
            raise Missing(f"no {printable(name)} has the identity {identity}")
        return self.debug_file(name, assemblies)
