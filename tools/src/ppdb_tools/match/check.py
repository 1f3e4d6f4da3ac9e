"""Whether a map says the truth of two modules: rows that are the same, and kept pairs of instructions that do the same."""
from typing import NamedTuple

from ppdb_tools import metadata as tables
from ppdb_tools.il import BY_NAME, OPERATIONS
from ppdb_tools.mapping import Map, Run
from ppdb_tools.match.bodies import KIND_OF, LOCAL, RETURN, Prepared, prepared
from ppdb_tools.match.compare import compare, edges
from ppdb_tools.match.maps import Mapper
from ppdb_tools.match.members import Input, new_namer, old_namer
from ppdb_tools.match.rows import LAST_TABLE, row_images
from ppdb_tools.match.texts import name_of
from ppdb_tools.match.types import simple_name

# What a `ret` may be inside of a protected range: a tool puts the value into a local, and leaves.
EXITS = frozenset(BY_NAME[name] for name in ("leave", "br", "stloc"))
# How many wrong pairs of a method are named.
MOST_NAMED = 3
# The tables whose rows have names; local signatures are judged with their methods.
NAMED = (tables.TYPE_REF, tables.TYPE_DEF, tables.FIELD, tables.TYPE_SPEC, tables.ASSEMBLY, tables.ASSEMBLY_REF)


class Wrong(NamedTuple):
    """What a map says that is not so: of a method or of a row."""
    subject: str
    text: str


class Verdict:
    """What was compared, and what is wrong."""

    def __init__(self) -> None:
        self.wrong: list[Wrong] = []
        self.compared = self.dropped = self.added = 0


class Checker:
    """Judges the map of the only old module of a mapper."""

    def __init__(self, mapper: Mapper, said: Map) -> None:
        self.mapper, self.map, self.verdict = mapper, said, Verdict()
        self.own = mapper.inputs[0]
        self.old, self.new = self.own.module, mapper.new
        self.given = self._given()
        self.new_names = new_namer(self.new, mapper.numbers)
        self.old_names = old_namer(self.given, self.new_names, -1)

    def _given(self) -> Input:
        """The old module with the rows that are known by names and code, and those of the map for what was renamed beyond that."""
        given = Input(self.old, self._known(tables.TYPE_DEF, self.own.types))
        given.methods, given.fields = self._known(tables.METHOD_DEF, self.own.methods), self._known(tables.FIELD, self.own.fields)
        given.references = [own or (self._reference(row) if row else None) for row, own in enumerate(self.own.references)]
        return given

    def _known(self, table: int, own: list[int]) -> list[int]:
        return [image or self._row(table, row) for row, image in enumerate(own)]

    def _row(self, table: int, row: int) -> int:
        """The row of the same table that the map says, 0 for none."""
        image = self.map.image(table, row) if row else None
        return image[1] if image and image[0] == table and image[1] <= self.new.count(table) else 0

    def _reference(self, row: int) -> tuple[int, int] | None:
        image = self.map.image(tables.TYPE_REF, row)
        return image if image and 0 < image[1] <= self.new.count(image[0]) else None

    def check(self) -> Verdict:
        """Judges rows and methods."""
        self.check_counts()
        self.check_rows()
        self.mapper.find_homes(0)
        images = {row: self._row(tables.METHOD_DEF, row) for row in range(1, len(self.old.methods))}
        for row, image in images.items():
            self.check_method(row, image)
        there = set(images.values())
        self.verdict.added = sum(row not in there for row in range(1, len(self.new.methods)))
        return self.verdict

    def fail(self, subject: str, text: str) -> None:
        self.verdict.wrong.append(Wrong(subject, text))

    def check_counts(self) -> None:
        for table in range(LAST_TABLE + 1):
            count, said = self.new.count(table), self.map.counts.get(table, self.old.count(table))
            if said != count:
                why = f"a `rows` line says {said}" if table in self.map.counts else f"there is no `rows` line, and the old module has {said}"
                self.fail(f"table {table:02x}", f"the new module has {count} rows, and {why}")

    def check_rows(self) -> None:
        """Rows that became another one than that of their name. Where a row was renamed, the map may know more."""
        images = row_images(self.own, self.new, self.mapper.old_names[0], self.mapper.new_names, set())
        for table in NAMED:
            for row, own in images.get(table, {}).items():
                if own is None or (table in self.map.counts and row not in self.map.rows[table]):
                    continue
                said = self.map.image(table, row)
                if said != own and not (said and self.has_name(table, row, said)):
                    self.fail(f"row {table:02x} {row}, {name_of(self.old, table << 24 | row)},", f"is {text_of(said)}, and by its name {text_of(own)}")

    def has_name(self, table: int, row: int, image: tuple[int, int]) -> bool:
        """Whether the definition that a map says has the own name of the old one: two types of a merge may have had one name."""
        if image[0] != table or image[1] > self.new.count(table):
            return False
        if table == tables.TYPE_DEF:
            return simple_name(self.old, row) == simple_name(self.new, image[1])
        return table == tables.FIELD and self.old.field_name(row) == self.new.field_name(image[1])

    def check_method(self, row: int, image: int) -> None:
        own, old = self.mapper.home(self.own, row), prepared(self.old_names, row)
        if not image:
            self.verdict.dropped += 1
            there = prepared(self.new_names, own) if own else None
            if old and there and compare(old, there).pairs:
                self.fail(self.old.title(row), f"has no row in the map, and is {self.new.title(own)}")
            return
        new = prepared(self.new_names, image)
        if old is None or new is None:
            if old is not None:
                self.fail(self.old.title(row), f"has code, and {self.new.title(image)} has none that can be read")
            return
        self.verdict.compared += 1
        wrong = [*self.sizes(row, old, new), *self.pairs(row, old, new), *self.slots(row, old, new), *self.signature(row, old, new)]
        for text in wrong:
            self.fail(self.old.title(row), text)
        if not wrong and own and own != image and not self.is_same_name(row, image) and self.is_same_name(row, own):
            self.fail(self.old.title(row), f"is {self.new.title(image)}, and by its name {self.new.title(own)}")

    def is_same_name(self, row: int, image: int) -> bool:
        return self.old.method_name(row) == self.new.method_name(image)

    def sizes(self, row: int, old: Prepared, new: Prepared) -> list[str]:
        code = self.map.code.get(row)
        said = (code.old_size, code.new_size) if code else (old.code.offsets[-1], old.code.offsets[-1])
        there = old.code.offsets[-1], new.code.offsets[-1]
        return [] if said == there else [f"has {there[0]} bytes of IL and then {there[1]}, and the map says {said[0]} and {said[1]}"]

    def pairs(self, row: int, old: Prepared, new: Prepared) -> list[str]:
        """The kept pairs that are not the same instruction."""
        kept = kept_pairs(old, new, self.map.code[row].runs if row in self.map.code else [Run(0, 0, old.code.offsets[-1])])
        pairs = [(at, to) for at, to in kept if to >= 0]
        starts, ends = edges(pairs, len(old), len(new))
        wrong = []
        for at, to in kept:
            if to < 0 or not is_same(old, new, at, to):
                wrong.append((at, to))
            elif at in old.targets and to in new.targets and not all(
                    starts[target] <= place <= ends[target] for target, place in zip(old.targets[at], new.targets[to])):
                wrong.append((at, to))
        found = [f"is wrong at IL {old.code.offsets[at]}: {named(old, at)} is {named(new, to)}" for at, to in wrong[:MOST_NAMED]]
        return found + [f"is wrong at {len(wrong) - MOST_NAMED} more instructions"] * (len(wrong) > MOST_NAMED)

    def slots(self, row: int, old: Prepared, new: Prepared) -> list[str]:
        """The slots with a local of another type, and those that code uses where the kept code uses another one."""
        said = self.map.slots.get(row)
        images: dict[int, int | None] = {slot: slot for slot in range(len(old.locals))} if said is None else said
        found = []
        for slot, image in sorted(images.items()):
            if image is not None and slot < len(old.locals) and (image >= len(new.locals) or old.locals[slot] != new.locals[image]):
                found.append(f"has a local of another type: slot {slot} is slot {image}")
        kept = kept_pairs(old, new, self.map.code[row].runs if row in self.map.code else [Run(0, 0, old.code.offsets[-1])])
        uses = {(old.code.operands[at], new.code.operands[to]) for at, to in kept
                if to >= 0 and KIND_OF[old.code.operations[at]] == LOCAL and is_same(old, new, at, to)}
        found += [f"has code for slot {slot} that uses slot {place}, and the map says {images.get(slot, 'nothing')}"
                  for slot, place in sorted(uses) if images.get(slot) != place]
        return found

    def signature(self, row: int, old: Prepared, new: Prepared) -> list[str]:
        """Whether the local signature is that of the new method."""
        said = self.map.signatures.get(row)
        if said is None:
            image = self.map.image(tables.STAND_ALONE_SIG, old.body.signature) if old.body.signature else None
            said = image[1] if image else 0
        there = new.body.signature
        return [] if said == there else [f"has the local signature {there or 'none'}, and the map says {said or 'none'}"]


def kept_pairs(old: Prepared, new: Prepared, runs: list[Run]) -> list[tuple[int, int]]:
    """The old instructions that are kept, and the new ones at their places; -1 for a place at which none begins."""
    found, index = [], 0
    for at, offset in enumerate(old.code.offsets[:-1]):
        while index < len(runs) and runs[index].old + runs[index].length <= offset:
            index += 1
        if index < len(runs) and runs[index].old <= offset:
            place = new.places.get(runs[index].new + offset - runs[index].old, -1)
            found.append((at, place if place < len(new) else -1))
    return found


def is_same(old: Prepared, new: Prepared, at: int, to: int) -> bool:
    """Whether two instructions do the same; a return may leave in another way."""
    return old.keys[at] == new.keys[to] or (old.code.operations[at] == RETURN and new.code.operations[to] in EXITS)


def named(body: Prepared, at: int) -> str:
    return "no instruction" if at < 0 else f"{OPERATIONS[body.code.operations[at]].name} at {body.code.offsets[at]}"


def text_of(image: tuple[int, int] | None) -> str:
    return f"row {image[0]:02x} {image[1]}" if image else "gone or without a line"
