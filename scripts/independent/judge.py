"""The first fault of a file, or None (FORMAT, 4): the parts 1 to 4 by the container, and here the rows, in the order of their places."""
from collections import defaultdict
from collections.abc import Callable, Iterator

from .blobs import Named, read_constant, read_imports, read_name, read_points
from .container import PARENTS, Container, Fault
from .fields import BlobFault
from .values import HOISTED, STEPPING, TYPE_DOCUMENTS, content_of

MOST_REFERRED, TIMES = 268435456, 0x80000000


class Rows:
    """The faults of the rows of each table. A method yields those of a table, cell by cell; the first is the file's."""

    def __init__(self, file: Container) -> None:
        self.file, self.referred, self.table, self.row = file, 0, 0, 0

    def fault(self, code: int, column: int, byte: int = 0) -> Fault:
        return Fault(code, 5, byte, (self.table, self.row, column))

    def refers(self, item: bytes | None) -> bool:
        """Adds a text or blob that is referred to. Whether they are too many now."""
        self.referred += len(item or b"")
        return self.referred > MOST_REFERRED

    def cells(self, table: int) -> Iterator[tuple[int, ...]]:
        self.table = table
        for self.row, cells in enumerate(self.file.rows[table], 1):
            yield cells

    def blob(self, column: int, index: int, read: Callable[[bytes, Named], object] | None = None) -> Iterator[Fault]:
        """A cell of a blob, and the content that this reads."""
        found, named, wrong = self.file.blob(index), Named(), None
        if found is None:
            yield self.fault(20, column)
            return
        if self.refers(found):
            yield self.fault(40, column)
        if read:
            try:
                read(found, named)
            except BlobFault as fault:
                wrong = fault
        for at, part in named:
            if self.refers(self.file.blob(part)):
                yield self.fault(40, column, at)
        if wrong:
            yield self.fault(wrong.code, column, wrong.at)

    def text(self, column: int, index: int) -> Iterator[Fault]:
        found = self.file.text(index)
        if found is None:
            yield self.fault(19, column)
        elif self.refers(found):
            yield self.fault(40, column)

    def guid(self, column: int, index: int) -> Iterator[Fault]:
        if index and self.file.guid(index) is None:
            yield self.fault(21, column)

    def named_row(self, column: int, table: int, row: int, optional: bool = False) -> Iterator[Fault]:
        if not (row == 0 and optional or self.file.is_row(table, row)):
            yield self.fault(22, column)

    def documents(self) -> Iterator[Fault]:
        names: set[bytes] = set()
        for name, algorithm, of, language in self.cells(0x30):
            blob = self.file.blob(name)
            if blob == b"":
                yield self.fault(24, 0)
            twice = False
            if blob:
                try:
                    joined = read_name(blob, self.file, [])
                    twice = joined in names
                    names.add(joined)
                except BlobFault:
                    pass
            if twice and self.referred + len(blob or b"") <= MOST_REFERRED:
                yield self.fault(25, 0)
            yield from self.blob(0, name, lambda blob, named: read_name(blob, self.file, named) if blob else None)
            yield from self.guid(1, algorithm)
            yield from self.blob(2, of)
            yield from self.guid(3, language)

    def methods(self) -> Iterator[Fault]:
        for document, points in self.cells(0x31):
            yield from self.named_row(0, 0x30, document, optional=True)
            yield from self.blob(1, points, lambda blob, _: read_points(blob, document, self.file) if blob else None)

    def scopes(self) -> Iterator[Fault]:
        greatest = (0, 0, 0)
        ranges: dict[int, list[tuple[int, int]]] = defaultdict(list)
        before = (1, 1)
        for method, imports, *lists, start, length in self.cells(0x32):
            yield from self.named_row(0, 0x06, method)
            if greatest > (method, start, -length):
                yield self.fault(26, 0)
            yield from self.named_row(1, 0x35, imports, optional=True)
            for column, (table, first) in enumerate(zip((0x33, 0x34), lists), 2):
                if not before[column - 2] <= first <= self.file.count(table) + 1 or self.row == 1 != first:
                    yield self.fault(29, column)
            end = start + length
            if any(low < end and start < high and not (low <= start and end <= high or start <= low and high <= end) for low, high in ranges[method]):
                yield self.fault(28, 4)
            if length == 0 or end >= TIMES:
                yield self.fault(27, 5)
            greatest = max(greatest, (method, start, -length))
            ranges[method].append((start, end))
            before = (lists[0], lists[1])

    def owners(self, column: int, table: int) -> list[int]:
        """The scope of each row of a list, by the row."""
        owners = [0] * (self.file.count(table) + 1)
        scopes = self.file.rows[0x32]
        for number, scope in enumerate(scopes, 1):
            end = scopes[number][column] if number < len(scopes) else self.file.count(table) + 1
            owners[scope[column]:end] = [number] * (end - scope[column])
        return owners

    def variables(self) -> Iterator[Fault]:
        yield from self.without_scope(0x33)
        owners, slots, names = self.owners(2, 0x33), set[tuple[int, int]](), set[tuple[int, bytes | None]]()
        for _, slot, name in self.cells(0x33):
            owner = owners[self.row]
            if (owner, slot) in slots:
                yield self.fault(30, 1)
            slots.add((owner, slot))
            yield from self.own_name(2, name, owner, names)

    def constants(self) -> Iterator[Fault]:
        yield from self.without_scope(0x34)
        owners, names = self.owners(3, 0x34), set[tuple[int, bytes | None]]()
        for name, signature in self.cells(0x34):
            yield from self.own_name(0, name, owners[self.row], names)
            yield from self.blob(1, signature, lambda blob, _: read_constant(blob, self.file))

    def without_scope(self, table: int) -> Iterator[Fault]:
        if self.file.count(table) and not self.file.count(0x32):
            yield Fault(29, 5, 0, (table, 1, 0))

    def own_name(self, column: int, index: int, owner: int, names: set[tuple[int, bytes | None]]) -> Iterator[Fault]:
        """A name of a variable or of a constant, which no earlier one of its scope has."""
        name = self.file.text(index)
        if name is not None and (owner, name) in names:
            yield self.fault(31, column)
        names.add((owner, name))
        yield from self.text(column, index)

    def imports(self) -> Iterator[Fault]:
        parents, ending = [0, *(parent for parent, _ in self.file.rows[0x35])], {0}
        for parent, imports in self.cells(0x35):
            yield from self.named_row(0, 0x35, parent, optional=True)
            at, chain = self.row, list[int]()
            while at not in ending and at < len(parents) and len(chain) <= len(parents):
                chain.append(at)
                at = parents[at]
            if len(chain) > len(parents):
                yield self.fault(32, 0)
            ending.update(chain)
            yield from self.blob(1, imports, lambda blob, named: read_imports(blob, self.file, named))

    def machines(self) -> Iterator[Fault]:
        last, kickoffs = 0, set[int]()
        for move, kickoff in self.cells(0x36):
            yield from self.named_row(0, 0x06, move)
            if move <= last:
                yield self.fault(33, 0)
            yield from self.named_row(1, 0x06, kickoff)
            if kickoff in kickoffs:
                yield self.fault(34, 1)
            last = max(last, move)
            kickoffs.add(kickoff)

    def customs(self) -> Iterator[Fault]:
        last = 0
        for parent, kind, value in self.cells(0x37):
            table = PARENTS[parent & 31] if parent & 31 < len(PARENTS) else None
            if table is None:
                yield self.fault(23, 0)
            elif not self.file.is_row(table, parent >> 5):
                yield self.fault(22, 0)
            if parent < last:
                yield self.fault(35, 0)
            last = max(last, parent)
            of = self.file.guid(kind)
            if of is None:
                yield self.fault(21, 1)
                continue
            if of in (STEPPING, HOISTED) and table != 0x06 or of == TYPE_DOCUMENTS and table != 0x02:
                yield self.fault(36, 1)
            yield from self.blob(2, value, lambda blob, _: content_of(of, blob, self.file))

    def faults(self) -> Iterator[Fault]:
        for of_table in (self.documents, self.methods, self.scopes, self.variables, self.constants, self.imports, self.machines, self.customs):
            yield from of_table()


def first_fault(data: bytes) -> Fault | None:
    """The first fault of a file, None if it is valid."""
    try:
        return next(Rows(Container(data)).faults(), None)
    except Fault as fault:
        return fault
