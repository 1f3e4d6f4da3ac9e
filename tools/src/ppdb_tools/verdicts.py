"""Where the source of each document of a debug file is, and whether it can be found by others: by a URL, in the debug file, or below
folders that words name."""
from collections.abc import Iterator
from typing import NamedTuple

from ppdb_tools.described import Described, Document, Links
from ppdb_tools.sources import AGREES, UNCHECKED, Embedded, Folders

NOWHERE = "none"


class Verdict(NamedTuple):
    """What is known of a document's source: where it is (embedded, disk, url or none), whether its bytes have the hash of the document,
    which file it is on the disk, by the end of the document's name, and its URL as `ppdb` prints it."""
    document: Document
    where: str
    state: str
    place: str
    url: str | None

    @property
    def is_found(self) -> bool:
        """Whether others find the source: it has a URL; it is embedded, and its hash is not another; or it is on the disk with its hash."""
        if self.where == "embedded":
            return self.state in (AGREES, UNCHECKED)
        return self.url is not None or self.where == "disk" and self.state == AGREES


def verdicts(said: Described, size: int, folders: Folders, links: Links) -> Iterator[Verdict]:
    """A verdict for each document of a file of `size` bytes."""
    embedded = Embedded(said, size)
    for document in said.documents:
        url = links.addresses.get(document.row)
        inside = embedded.source(document)
        best = None if inside else folders.best(document)
        if inside:
            yield Verdict(document, "embedded", inside.state, "", url)
        elif best and (best[1] == AGREES or url is None):
            yield Verdict(document, "disk", best[1], best[0].end, url)
        else:
            yield Verdict(document, "url" if url is not None else NOWHERE, "-", "", url)
