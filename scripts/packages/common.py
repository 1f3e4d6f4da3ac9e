"""What all packages share: the version, the date, the files of other systems, and archives whose bytes depend on their files alone."""
from __future__ import annotations

import gzip
import io
import os
import re
import stat
import tarfile
import time
import zipfile
from calendar import timegm
from dataclasses import dataclass
from pathlib import Path

ROOT = Path(__file__).resolve().parents[2]
ABOUT = dict(line.split(": ", 1) for line in (ROOT / "scripts/packages/about").read_text().splitlines() if not line.startswith("#"))
SUMMARY = ABOUT["summary"][:1].upper() + ABOUT["summary"][1:]
NAME, LICENSE, OWNERS, KEYWORDS = "ppdb", ABOUT["license"], ABOUT["owners"], ABOUT["keywords"]


@dataclass(frozen=True)
class Member:
    """A file of an archive."""
    name: str
    data: bytes
    is_program: bool = False

    @property
    def mode(self) -> int:
        return 0o755 if self.is_program else 0o644


def version() -> str:
    """The version of the library's header, which the program's is too."""
    number = next(int(line.split()[2]) for line in (ROOT / "library/ppdb.h").read_text().splitlines() if line.startswith("#define PPDB_VERSION "))
    return f"{number // 1000000}.{number // 1000 % 1000}.{number % 1000}"


def date() -> int:
    """The day of the version in CHANGELOG.md, in seconds; the newest day there for a version that has none yet."""
    days = re.findall(r"^## (\S+), (\d+-\d+-\d+)$", (ROOT / "CHANGELOG.md").read_text(), re.M)
    day = dict(days).get(version(), days[0][1])
    return timegm(time.strptime(day, "%Y-%m-%d"))


def targets() -> Path:
    """Where the files of other systems are: those of a release, those that were made here, or those in the folder that PPDB_TARGETS names."""
    named = os.environ.get("PPDB_TARGETS")
    for folder in ([Path(named)] if named else [ROOT / "release/targets", ROOT / "build/targets"]):
        if folder.is_dir():
            return folder
    raise SystemExit("packages: there is no release/targets and no build/targets; scripts/making/targets makes them")


def source(name: str, to: str, is_program: bool = False) -> Member:
    """A file of the repository under another name."""
    return Member(to, (ROOT / name).read_bytes(), is_program)


def sources(folder: str, to: str) -> list[Member]:
    """The files of Python and of its data below a folder of the repository."""
    found = sorted(file for file in (ROOT / folder).rglob("*") if file.suffix in (".py", ".html"))
    return [Member(f"{to}/{file.relative_to(ROOT / folder).as_posix()}", file.read_bytes()) for file in found]


def tar(members: list[Member], compressed: bool = True) -> bytes:
    made = io.BytesIO()
    with tarfile.open(fileobj=made, mode="w", format=tarfile.USTAR_FORMAT) as archive:
        for member in members:
            info = tarfile.TarInfo(member.name)
            info.size, info.mode, info.mtime = len(member.data), member.mode, date()
            archive.addfile(info, io.BytesIO(member.data))
    return gzip.compress(made.getvalue(), 9, mtime=0) if compressed else made.getvalue()


def zipped(members: list[Member]) -> bytes:
    made = io.BytesIO()
    with zipfile.ZipFile(made, "w", zipfile.ZIP_DEFLATED) as archive:
        for member in members:
            info = zipfile.ZipInfo(member.name, time.gmtime(date())[:6])
            info.external_attr, info.compress_type, info.create_system = (stat.S_IFREG | member.mode) << 16, zipfile.ZIP_DEFLATED, 3
            archive.writestr(info, member.data)
    return made.getvalue()
