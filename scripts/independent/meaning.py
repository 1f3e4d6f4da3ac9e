"""What a file says at an offset of a method, of a method as a whole, and of its other rows, with all rows, offsets, slots and names as their
images by a map (FORMAT, 11 and 12, "What is kept"). So a file before a rewrite, by its map, and the file after it, by the map without
lines, must say the same. Rows of the tables 30 to 37 have other numbers in the two files, so what they say stands in their place."""
from bisect import bisect
from collections import defaultdict
from collections.abc import Callable, Iterator

from .blobs import Import, Steps, Type
from .maps import GONE, UNMOVED, Map
from .values import HOISTED, SOURCE_LINK, TYPE_DOCUMENTS, Custom, NamedConstant, Scope, Value

# Something that is said: a tuple of numbers, bytes and such tuples.
Said = tuple[object, ...]
ITEMS = range(0x30, 0x38)


class Meaning:
    def __init__(self, value: Value, by: Map = UNMOVED, pool: dict[Said, Said] | None = None) -> None:
        """Two meanings with one pool say equal things by one object, so that they are compared at once."""
        self.value, self.map, self.pool = value, by, {} if pool is None else pool
        self.known: dict[tuple[str, int], Said] = {}
        self.offsets = {row: [point.offset for point in method.points] for row, method in value.methods.items()}
        self.customs: dict[tuple[int, int], list[Custom]] = defaultdict(list)
        for custom in value.customs:
            self.customs[custom.table, custom.parent].append(custom)
        self.scopes: dict[int, list[Scope]] = defaultdict(list)
        for scope in value.scopes:
            self.scopes[scope.method].append(scope)

    def methods(self) -> set[int]:
        """The methods of which something is said, but for the dropped ones."""
        machines = (method for machine in self.machine_rows() for method in machine)
        records = (row for table, row in self.customs if table == 6)
        return {*self.value.methods, *self.scopes, *machines, *records} - self.map.drops

    def machine_rows(self) -> list[tuple[int, int]]:
        """A machine at a dropped method is removed."""
        return [machine for machine in self.value.machines if not self.map.drops & set(machine)]

    # Items.

    def document(self, row: int) -> Said:
        document = self.value.documents[row - 1]
        return self.map.names.get(document.name, document.name), document.algorithm, document.hash, document.language

    def type(self, of: Type) -> Type | str | None:
        image = self.map.row(*of)
        return image

    def use(self, use: Import) -> Said | None:
        """An import, None if it is removed."""
        kind, assembly, of = use.kind, None, None
        if use.type is not None:
            of = self.type(use.type)
        if use.assembly is not None:
            image = self.map.row(0x23, use.assembly)
            if image == GONE or kind == 6 and isinstance(image, tuple) and image[0] == 0x20:
                return None
            if isinstance(image, tuple) and image[0] == 0x20:
                kind = {2: 1, 8: 7}[kind]
            else:
                assembly = image
        return None if of == GONE else (kind, use.alias, assembly, use.namespace, of)

    def constant(self, named: NamedConstant) -> Said | None:
        """A constant, None if it is removed. An enumeration that is gone leaves a number."""
        value = named.value
        modifiers = tuple((code, self.type(of)) for code, of in value.modifiers)
        of = self.type(value.type) if value.type else None
        if GONE in (image for _, image in modifiers) or of == GONE and value.code in (0x11, 0x12):
            return None
        return named.name, modifiers, value.code, value.value, None if of == GONE else of, value.rest, self.records(0x34, named.row)

    def content(self, custom: Custom) -> object:
        """The content of a record. A record of hoisted locals may have slots that became empty."""
        by, method = self.map, custom.parent
        if isinstance(custom.content, Steps):
            handler, steps = custom.content
            return (None if handler is None else by.offset(method, handler),
                    tuple((by.offset(method, pause), by.offset(of, resume), by.method(of)) for pause, resume, of in steps))
        if custom.kind == HOISTED:
            return tuple(by.range(method, start, end) for start, end in custom.content)  # type: ignore[misc]
        if custom.kind == TYPE_DOCUMENTS:
            return tuple(self.document(row) for row in custom.content)  # type: ignore[arg-type]
        if custom.kind == SOURCE_LINK and (custom.table, custom.parent) == (0, 1) and by.link is not None:
            return by.link
        return custom.content

    def records(self, table: int, row: int) -> Said:
        """The custom records on a row."""
        return tuple((custom.kind, self.content(custom)) for custom in self.customs.get((table, row), ()))

    # What is said at an offset.

    def point(self, method: int, offset: int) -> Said | None:
        of, number = self.value.methods.get(method), bisect(self.offsets.get(method, ()), offset)
        if of is None or number == 0:
            return None
        last = of.points[number - 1]
        return self.map.offset(method, last.offset), self.document(last.document), last.span, self.map.signature(method, of.signature)

    def pooled(self, part: str, row: int, say: Callable[[], Said]) -> Said:
        """What is said of a row of a part, once."""
        if (part, row) not in self.known:
            said = say()
            self.known[part, row] = self.pool.setdefault(said, said)
        return self.known[part, row]

    def import_scope(self, row: int) -> Said:
        return self.pooled("import", row, lambda: (
            tuple(use for use in map(self.use, self.value.imports[row - 1].imports) if use), self.records(0x35, row)))

    def chain(self, row: int) -> Said:
        """An import scope, its parent, and so on."""
        rows = []
        while row:
            rows.append(row)
            row = self.value.imports[row - 1].parent
        return tuple(map(self.import_scope, rows))

    def scope(self, scope: Scope) -> Said:
        return self.pooled("scope", scope.row, lambda: self.scope_said(scope))

    def scope_said(self, scope: Scope) -> Said:
        by = self.map
        return (by.range(scope.method, scope.start, scope.end), self.records(0x32, scope.row),
                tuple((by.slot(scope.method, variable.slot), variable.attributes, variable.name, self.records(0x33, variable.row))
                      for variable in scope.variables),
                tuple(constant for constant in map(self.constant, scope.constants) if constant),
                self.pooled("chain", scope.imports, lambda: self.chain(scope.imports)))

    def hoisted(self, method: int, offset: int) -> Said:
        return tuple((slot, self.map.range(method, start, end)) for custom in self.customs.get((6, method), ()) if custom.kind == HOISTED
                     for slot, (start, end) in enumerate(custom.content) if start <= offset < end)  # type: ignore[misc, arg-type]

    def at(self, method: int, offset: int) -> Said:
        return (self.point(method, offset), self.hoisted(method, offset),
                tuple(self.scope(scope) for scope in self.scopes.get(method, ()) if scope.start <= offset < scope.end))

    # What is said of the whole file.

    def machines(self) -> Said:
        return tuple(sorted((self.map.method(move), self.map.method(kickoff)) for move, kickoff in self.machine_rows()))  # type: ignore[type-var]

    def type_records(self) -> dict[object, Said]:
        """The records on rows of the type system, by the image of the row."""
        found = {self.map.row(*parent): self.records(*parent) for parent in self.customs if parent[0] not in ITEMS}
        return {image: records for image, records in found.items() if image not in (None, GONE)}

    def with_points(self) -> set[int | None]:
        """The methods that have a point which is kept."""
        return {self.map.method(method) for method, of in self.value.methods.items()
                if any(self.map.is_kept(method, offset) for offset in self.edges(method) if offset >= of.points[0].offset)}

    def documents(self) -> Said:
        return tuple((self.document(row), self.records(0x30, row)) for row in range(1, len(self.value.documents) + 1))

    def import_scopes(self) -> Said:
        return tuple((imports.parent, *self.import_scope(row)) for row, imports in enumerate(self.value.imports, 1))

    def counts(self) -> dict[int, int]:
        found = {table: self.map.counts.get(table, self.value.counts.get(table, 0)) for table in {*self.value.counts, *self.map.counts}}
        return {table: count for table, count in found.items() if count}

    def whole(self) -> dict[str, object]:
        return {"entry point": self.map.method(self.value.entry) or 0, "row counts": self.counts(), "documents": self.documents(),
                "import scopes": self.import_scopes(), "state machines": self.machines(), "records": self.type_records(),
                "methods with points": self.with_points()}

    def edges(self, method: int) -> set[int]:
        """The offsets at which something begins or ends, and those beside them."""
        of = self.value.methods.get(method)
        found = {point.offset for point in of.points} if of else set()
        ranges = [(scope.start, scope.end) for scope in self.scopes.get(method, ())]
        ranges += [slot for custom in self.customs.get((6, method), ()) if custom.kind == HOISTED for slot in custom.content]  # type: ignore[misc]
        ranges += [(old, old + length) for old, _, length in self.map.runs.get(method, ())]
        found |= {offset for pair in ranges for offset in pair}
        return {offset + step for offset in found for step in (-1, 0, 1) if offset + step >= 0}


def differences(before: Value, by: Map, after: Value) -> Iterator[str]:
    """What the file after says otherwise than the file before, moved by the map. Each kept offset is looked at where something changes."""
    pool: dict[Said, Said] = {}
    old, new = Meaning(before, by, pool), Meaning(after, pool=pool)
    wanted, found = old.whole(), new.whole()
    yield from (f"{part}: {found[part]!r}, wanted {wanted[part]!r}" for part in wanted if wanted[part] != found[part])
    images = {by.method(method): method for method in old.methods()}
    yield from (f"something is said of method {image}" for image in sorted(new.methods() - images.keys()))
    for image, method in images.items():
        if image is None:
            yield f"method {method} has no image"
            continue
        for offset in sorted(offset for offset in old.edges(method) if by.is_kept(method, offset)):
            said, want = new.at(image, by.offset(method, offset)), old.at(method, offset)
            if said != want:
                yield f"method {image} offset {by.offset(method, offset)}: {said!r}, wanted {want!r}"
