"""What a map text says, and the images that it gives (FORMAT, 5 and 10). The text is taken to be a map."""
import re

GONE = "gone"
# The image of a row: a table and a row, GONE, or None if the map does not say it.
Row = tuple[int, int]
NO_END = 4294967295


def unescaped(word: str) -> bytes:
    if word == r"\-":
        return b""
    return re.sub(rb"\\x(..)", lambda found: bytes.fromhex(found[1].decode()), word.encode())


class Map:
    def __init__(self, text: str) -> None:
        self.counts: dict[int, int] = {}
        self.rows: dict[Row, Row | str] = {}
        self.sizes: dict[int, tuple[int, int]] = {}
        self.runs: dict[int, list[tuple[int, int, int]]] = {}
        self.drops: set[int] = set()
        self.slotted: set[int] = set()
        self.slots: dict[Row, int] = {}
        self.signatures: dict[int, int] = {}
        self.names: dict[bytes, bytes] = {}
        self.link: bytes | None = None
        method = 0
        for line in text.splitlines()[1:]:
            word, *said = line.split(" ")
            if word == "method":
                method = int(said[0])
            if word and not word.startswith("#"):
                self.take(word, said, method)

    def take(self, word: str, said: list[str], method: int) -> None:
        if word in ("document", "link"):
            values = [unescaped(value) for value in said]
            if word == "link":
                self.link = values[0]
            else:
                self.names[values[0]] = values[1]
            return
        if word in ("rows", "row", "gone"):
            self.take_row(word, said)
            return
        values = [int(value) for value in said]
        if word == "method":
            self.sizes[method], self.runs[method] = (values[1], values[2]), []
        elif word == "run":
            self.runs[method].append((values[0], values[1], values[2]))
        elif word == "drop":
            self.drops.add(values[0])
        elif word == "slots":
            self.slotted.add(values[0])
        elif word == "slot":
            self.slots[values[0], values[1]] = values[2]
        elif word == "signature":
            self.signatures[values[0]] = values[1]

    def take_row(self, word: str, said: list[str]) -> None:
        table, number = int(said[0], 16), int(said[1])
        if word == "rows":
            self.counts[table] = number
        elif word == "gone":
            self.rows[table, number] = GONE
        else:
            self.rows[table, number] = int(said[2], 16) if len(said) == 4 else table, int(said[-1])

    def row(self, table: int, row: int) -> Row | str | None:
        """The image of a row. 0 names no row and stays 0; that of a dropped method is missing."""
        if row == 0 or table not in self.counts:
            return None if table == 6 and row in self.drops else (table, row)
        return self.rows.get((table, row))

    def method(self, row: int) -> int | None:
        """The image of a method, None if it is dropped."""
        image = self.row(6, row)
        return image[1] if isinstance(image, tuple) else None

    def is_kept(self, method: int, offset: int) -> bool:
        if method in self.drops:
            return False
        return method not in self.sizes or any(old <= offset < old + length for old, _, length in self.runs[method])

    def offset(self, method: int, offset: int) -> int:
        """The image of the first kept offset from this one on, or the new size."""
        if method not in self.sizes:
            return offset
        for old, new, length in self.runs[method]:
            if offset < old + length:
                return new + max(offset - old, 0)
        return self.sizes[method][1]

    def range(self, method: int, start: int, end: int) -> tuple[int, int]:
        """The image of a range, 0 to 0 if it is empty."""
        first, last = self.offset(method, start), self.offset(method, end)
        return (first, last) if first < last else (0, 0)

    def slot(self, method: int, slot: int) -> int | None:
        return self.slots.get((method, slot)) if method in self.slotted else slot

    def signature(self, method: int, row: int) -> int | None:
        if method in self.signatures:
            return self.signatures[method]
        image = self.row(0x11, row)
        return 0 if image == GONE else image[1] if isinstance(image, tuple) else None


UNMOVED = Map("ppdbmap 1")
