"""Map texts (docs/FORMAT.md, section 5): what a map says, its text, and a reader of texts.

The program reads version 4. Lines of version 5 (`slot M OLD gone`, `shares slots`, `hide NEW LENGTH`) are written if NEWEST says so."""
from typing import Iterator, NamedTuple

from ppdb_tools.errors import Damaged

NEWEST = 4
# The version since which a line is there.
GONE_SLOTS = SHARED_SLOTS = HIDDEN = 5
METHODS, SIGNATURES, ASSEMBLY, ASSEMBLY_REF = 0x06, 0x11, 0x20, 0x23
# The tables in which two rows may become one.
SHARING = (0x01, 0x02, 0x1B, 0x23)
Image = tuple[int, int] | None


class Run(NamedTuple):
    """Offsets that are kept: from `old` on `length` of them are `new` and the following ones."""
    old: int
    new: int
    length: int


class CodeMap:
    """What became of the code of a method: its sizes, its runs, and the new offsets to which no source belongs, each start and length."""

    def __init__(self, old_size: int, new_size: int) -> None:
        self.old_size, self.new_size = old_size, new_size
        self.runs: list[Run] = []
        self.hidden: list[tuple[int, int]] = []

    def keep(self, old: int, new: int, length: int) -> None:
        """Adds offsets after those before, to the same run if they follow it."""
        if self.runs:
            last = self.runs[-1]
            if last.old + last.length == old and last.new + last.length == new:
                self.runs[-1] = Run(last.old, last.new, last.length + length)
                return
        self.runs.append(Run(old, new, length))

    def hide(self, new: int, length: int) -> None:
        if self.hidden and sum(self.hidden[-1]) == new:
            self.hidden[-1] = self.hidden[-1][0], self.hidden[-1][1] + length
        else:
            self.hidden.append((new, length))


class Map:
    """What a map says. The image of a row is a table and a row, or None if it is gone; the image of a slot None if it is gone."""

    def __init__(self) -> None:
        self.counts: dict[int, int] = {}
        self.rows: dict[int, dict[int, Image]] = {}
        self.drops: set[int] = set()
        self.slots: dict[int, dict[int, int | None]] = {}
        self.signatures: dict[int, int] = {}
        self.documents: dict[str, str] = {}
        self.link: str | None = None
        self.code: dict[int, CodeMap] = {}
        self.shares = False
        self.shares_slots = False

    def image(self, table: int, row: int) -> Image:
        """The image of a row; None also if it has no line in a table that has lines."""
        if table == METHODS and row in self.drops:
            return None
        return self.rows.get(table, {}).get(row) if table in self.counts else (table, row)

    def text(self, version: int = NEWEST) -> Iterator[str]:
        """The lines, in the order of canonical texts."""
        yield f"ppdbmap {version}"
        if self.shares:
            yield "shares"
        if self.shares_slots and version >= SHARED_SLOTS:
            yield "shares slots"
        if self.link is not None:
            yield f"link {self.link}"
        for table, count in sorted(self.counts.items()):
            yield f"rows {table:02x} {count}"
            yield from self._row_lines(table)
        for row in sorted(self.drops):
            yield f"drop {row}"
        for method, slots in sorted(self.slots.items()):
            yield f"slots {method}"
            for slot, image in sorted(slots.items()):
                if image is not None or version >= GONE_SLOTS:
                    yield f"slot {method} {slot} {'gone' if image is None else image}"
        for method, row in sorted(self.signatures.items()):
            yield f"signature {method} {row}"
        for name, new in sorted(self.documents.items()):
            yield f"document {name} {new}"
        for method, code in sorted(self.code.items()):
            yield f"method {method} {code.old_size} {code.new_size}"
            lines = [(run.new, f"run {run.old} {run.new} {run.length}") for run in code.runs]
            if version >= HIDDEN:
                lines = sorted(lines + [(start, f"hide {start} {length}") for start, length in code.hidden])
            yield from (line for _, line in lines)

    def _row_lines(self, table: int) -> Iterator[str]:
        for row, image in sorted(self.rows.get(table, {}).items()):
            if image is None:
                yield f"gone {table:02x} {row}"
            elif image[0] == table:
                yield f"row {table:02x} {row} {image[1]}"
            else:
                yield f"row {table:02x} {row} {image[0]:02x} {image[1]}"


class Reader:
    """Reads a text. It asks for what it needs; `ppdb` judges the text by all rules."""

    def __init__(self, text: bytes, name: str) -> None:
        self.map, self.name = Map(), name
        self.last: CodeMap | None = None
        lines = text.split(b"\n")
        if lines[0].rstrip(b"\r") not in {b"ppdbmap %d" % version for version in range(1, 6)}:
            raise Damaged(f"{name} is no map: its first line is none of `ppdbmap 1` to `ppdbmap 5`")
        for self.line, line in enumerate(lines[1:], 2):
            words = line.rstrip(b"\r").decode("latin-1").split(" ")
            if words != [""] and not words[0].startswith("#"):
                self._read(words)

    def _fail(self) -> Damaged:
        return Damaged(f"line {self.line} of {self.name} is no line of a map")

    def _read(self, words: list[str]) -> None:
        read = {"rows": self._rows, "row": self._row, "gone": self._gone, "method": self._method, "run": self._run, "hide": self._hide,
                "drop": self._drop, "slots": self._slots, "slot": self._slot, "signature": self._signature, "document": self._document,
                "link": self._link, "shares": self._shares}.get(words[0])
        if read is None:
            raise self._fail()
        try:
            read(words[1:])
        except (ValueError, KeyError, IndexError):
            raise self._fail() from None

    def _rows(self, words: list[str]) -> None:
        table, count = int(words[0], 16), int(words[1])
        self.map.counts[table] = count
        self.map.rows[table] = {}

    def _row(self, words: list[str]) -> None:
        table = int(words[0], 16)
        image = (table, int(words[2])) if len(words) == 3 else (int(words[2], 16), int(words[3]))
        self.map.rows[table][int(words[1])] = image

    def _gone(self, words: list[str]) -> None:
        self.map.rows[int(words[0], 16)][int(words[1])] = None

    def _method(self, words: list[str]) -> None:
        self.last = self.map.code[int(words[0])] = CodeMap(int(words[1]), int(words[2]))

    def _code(self) -> CodeMap:
        """The method to which a line belongs."""
        if self.last is None:
            raise self._fail()
        return self.last

    def _run(self, words: list[str]) -> None:
        self._code().runs.append(Run(int(words[0]), int(words[1]), int(words[2])))

    def _hide(self, words: list[str]) -> None:
        self._code().hidden.append((int(words[0]), int(words[1])))

    def _drop(self, words: list[str]) -> None:
        self.map.drops.add(int(words[0]))

    def _slots(self, words: list[str]) -> None:
        self.map.slots[int(words[0])] = {}

    def _slot(self, words: list[str]) -> None:
        self.map.slots[int(words[0])][int(words[1])] = None if words[2] == "gone" else int(words[2])

    def _signature(self, words: list[str]) -> None:
        self.map.signatures[int(words[0])] = int(words[1])

    def _document(self, words: list[str]) -> None:
        self.map.documents[words[0]] = words[1]

    def _link(self, words: list[str]) -> None:
        self.map.link = words[0]

    def _shares(self, words: list[str]) -> None:
        if words == ["slots"]:
            self.map.shares_slots = True
        else:
            self.map.shares = True


def read_map(text: bytes, name: str) -> Map:
    """The map of a text. Damaged says which line is none."""
    return Reader(text, name).map
