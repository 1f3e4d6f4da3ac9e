"""The zip file for Windows: the program, the library, and what one has to know."""
from __future__ import annotations

from common import NAME, Member, source, targets, version, zipped

FILES = ("ppdb.exe", "ppdb.dll", "ppdb.lib", "ppdb.def", "ppdb.h")
READ_FIRST = """ppdb {version} for Windows 10 or later, x64

To install, unpack this folder where you like, and add it to the PATH; ppdb.exe needs no other file. ppdb.dll is for programs that call
the library (docs\\LIBRARY.md); ppdb.h, ppdb.lib and ppdb.def are for their build. To remove all, delete the folder.

    ppdb verify app.pdb
    ppdb help

Names may be written with / or \\. A printed name has \\x5c for each \\. The files are not signed: if Windows asks whether to start a program
that a browser fetched, choose "More info" and "Run anyway", or unblock the zip file in its properties before you unpack it.
"""


def package() -> dict[str, bytes]:
    top = f"{NAME}-{version()}-windows-x64"
    files = [Member(f"{top}/{name}", (targets() / "windows-x64" / name).read_bytes(), name.endswith(".exe")) for name in FILES]
    texts = [source(name, f"{top}/{name}") for name in ("README.md", "CHANGELOG.md", "LICENSE", "NOTICE", "docs/LIBRARY.md", "docs/FORMAT.md", "docs/RECIPES.md")]
    first = Member(f"{top}/READ-FIRST.txt", READ_FIRST.format(version=version()).replace("\n", "\r\n").encode())
    return {f"{top}.zip": zipped([first, *files, *texts])}
