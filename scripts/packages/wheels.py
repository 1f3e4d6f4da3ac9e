"""The wheels of PyPI: the module `ppdb` (the binding), the library that it calls, and the commands `ppdb` and `ppdb-tools`."""
from __future__ import annotations

import base64
import hashlib
from dataclasses import dataclass
from pathlib import Path

from common import LICENSE, NAME, SUMMARY, Member, source, sources, targets, version, zipped

MODULE = '''"""Portable PDB debug files by the proved library, over bytes: `verify`, `lines` and `run`. ppdb.calls says what each does."""
import os

os.environ.setdefault("PPDB_LIBRARY", os.path.join(os.path.dirname(__file__), {library!r}))
from .calls import Failed, Fault, Frame, Line, lines, run, verify, version  # noqa: E402

__all__ = ["Failed", "Fault", "Frame", "Line", "lines", "run", "verify", "version"]
'''
# pip makes a command of `tools`, and puts it and the program into one folder, which need not be on the PATH.
TOOLS = '''"""The command `ppdb-tools`, over the program of this package."""
import os
import sys

from ppdb_tools.main import run


def main() -> int:
    program = os.path.join(os.path.dirname(os.path.abspath(sys.argv[0])), {program!r})
    if os.path.exists(program):
        os.environ.setdefault("PPDB", program)
    return run()
'''
ENTRY_POINTS = "[console_scripts]\nppdb-tools = ppdb.tools:main\n"


@dataclass(frozen=True)
class System:
    """A system by its tag, and where its library and its program are below release/targets."""
    tag: str
    library: str
    program: str


def systems() -> list[System]:
    object_name = f"libppdb.so.{version()}"
    return [
        System("manylinux_2_17_x86_64.musllinux_1_1_x86_64", f"linux-x64/{object_name}", "linux-x64-static/ppdb"),
        System("manylinux_2_17_aarch64.musllinux_1_1_aarch64", f"linux-arm64/{object_name}", "linux-arm64-static/ppdb"),
        System("win_amd64", "windows-x64/ppdb.dll", "windows-x64/ppdb.exe"),
    ]


def recorded(members: list[Member], record: str) -> Member:
    """The list of the files, with their sums."""
    def line(member: Member) -> str:
        digest = base64.urlsafe_b64encode(hashlib.sha256(member.data).digest()).rstrip(b"=").decode()
        return f"{member.name},sha256={digest},{len(member.data)}\n"
    return Member(record, ("".join(map(line, members)) + f"{record},,\n").encode())


def wheel(system: System) -> bytes:
    library, program = Path(system.library).name, Path(system.program).name
    about, scripts = f"{NAME}-{version()}.dist-info", f"{NAME}-{version()}.data/scripts"
    tags = "".join(f"Tag: py3-none-{tag}\n" for tag in system.tag.split("."))
    metadata = f"Metadata-Version: 2.1\nName: {NAME}\nVersion: {version()}\nSummary: {SUMMARY}\nLicense: {LICENSE}\nRequires-Python: >=3.10\n"
    members = [
        Member("ppdb/__init__.py", MODULE.format(library=library).encode()),
        source("examples/library/ppdb.py", "ppdb/calls.py"),
        Member(f"ppdb/{library}", (targets() / system.library).read_bytes()),
        Member(f"{scripts}/{program}", (targets() / system.program).read_bytes(), is_program=True),
        Member("ppdb/tools.py", TOOLS.format(program=program).encode()),
        *sources("tools/src/ppdb_tools", "ppdb_tools"),
        source("LICENSE", f"{about}/LICENSE"), source("NOTICE", f"{about}/NOTICE"),
        Member(f"{about}/METADATA", metadata.encode()), Member(f"{about}/entry_points.txt", ENTRY_POINTS.encode()),
        Member(f"{about}/WHEEL", f"Wheel-Version: 1.0\nGenerator: ppdb\nRoot-Is-Purelib: false\n{tags}".encode()),
    ]
    return zipped([*members, recorded(members, f"{about}/RECORD")])


def package() -> dict[str, bytes]:
    return {f"{NAME}-{version()}-py3-none-{system.tag}.whl": wheel(system) for system in systems()}
