"""Puts files into the page ppdb.html, so that it shows them as soon as it is opened: page/README.md says how the page has them."""
import base64
import json
import zlib
from collections.abc import Iterable

# Where the page expects its files, once.
PLACE = "<!-- files -->"
# How files begin that are no sources: debug files, assemblies, maps.
KINDS = (b"BSJB", b"Microsoft C/C++ MSF ", b"MZ", b"ppdbmap ")


def has_kind(data: bytes) -> bool:
    """Whether the page takes a file for something else than a source."""
    return data.startswith(KINDS)


def with_files(page: str, files: Iterable[tuple[str, bytes]], title: str = "", shows: Iterable[str] = ()) -> str:
    """The page with files inside, each a name and its bytes. `shows` has the names of the debug files that are before and after; without
    them their order counts. The name of a source is best the whole name of its document. Nothing of a name or a file becomes markup, and
    the same files make the same page. Raises ValueError if the text is not the page as page/build made it."""
    if page.count(PLACE) != 1:
        raise ValueError("this is not ppdb.html, or there are files in it already")
    entries = [{"name": printable(name), "packed": True, "data": base64.b64encode(zlib.compress(data, 9)).decode()} for name, data in files]
    inside = {"title": printable(title), "shows": [printable(name) for name in shows], "files": entries}
    # In JSON `<` stands only in texts, where its escape means the same; so nothing ends the element.
    text = json.dumps(inside).replace("<", "\\u003c")
    return page.replace(PLACE, f'<script type="application/json" id="files">{text}</script>')


def printable(name: str) -> str:
    """A name without the halves of pairs by which Python keeps bytes that are not UTF-8."""
    return name.encode("utf-8", "replace").decode("utf-8")
