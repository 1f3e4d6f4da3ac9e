"""The maps of a rewrite, from the modules before and after it."""
from typing import NamedTuple

from ppdb_tools import metadata as tables
from ppdb_tools.mapping import GONE_SLOTS, NEWEST, SHARING, CodeMap, Map
from ppdb_tools.match.bodies import Prepared, numbers_of_operations, prepared
from ppdb_tools.match.compare import Comparison, compare
from ppdb_tools.match.members import Input, MemberMatcher, new_namer, old_namer
from ppdb_tools.match.module import Module
from ppdb_tools.match.renamed import SHORTEST, called_methods, find_homes, match_members
from ppdb_tools.match.rows import LAST_TABLE, row_images, signature_images
from ppdb_tools.match.types import TypeMatcher, reference_images

class Finding(NamedTuple):
    """What is not decided, or what a map cannot say: the method, and a sentence without its subject."""
    method: int
    title: str
    text: str


class Counts:
    """How much of an old module is in the new one."""

    def __init__(self) -> None:
        self.methods = self.matched = self.undecided = self.instructions = self.kept = self.unsure = 0


class Result:
    """The map of an old module, and what it leaves out."""

    def __init__(self, module: Module) -> None:
        self.module, self.map = module, Map()
        self.findings: list[Finding] = []
        # The old and the new local signature of each method.
        self.signatures: dict[int, tuple[int, int]] = {}
        self.counts = Counts()

    def find(self, row: int, text: str) -> None:
        self.findings.append(Finding(row, self.module.title(row), text))


class Mapper:
    """Matches old modules with a new one."""

    def __init__(self, olds: list[Module], new: Module, version: int = NEWEST) -> None:
        self.new, self.version = new, version
        self.numbers = numbers_of_operations()
        self.inputs = [Input(old, types) for old, types in zip(olds, TypeMatcher(olds, new).match())]
        self.refer()
        self.members = MemberMatcher(self.inputs, new, self.numbers)
        match_members(self.members)
        self.refer()
        self.new_names = new_namer(new, self.numbers)
        self.old_names = [old_namer(each, self.new_names, key) for key, each in enumerate(self.inputs)]

    def refer(self) -> None:
        """Finds what the references of each input are in the new module."""
        by_name: dict[str, tuple[Module, list[int]]] = {}
        for each in self.inputs:
            by_name.setdefault(each.module.assembly, (each.module, each.types))
        for each in self.inputs:
            others = {name: found for name, found in by_name.items() if name and found[0] is not each.module}
            each.references = reference_images(each.module, each.types, self.new, others)

    def results(self) -> list[Result]:
        return [self.result(key) for key in range(len(self.inputs))]

    def result(self, key: int) -> Result:
        """The map of an input."""
        each, found = self.inputs[key], Result(self.inputs[key].module)
        self.add_rows(key, found)
        found.map.rows[tables.METHOD_DEF] = {}
        left = set(self.members.left_new())
        little = {row: whole for row in range(1, len(each.methods)) if (whole := self.add_method(key, found, row, left)) is not None}
        find_homes(self.members, key, little)
        for row in little:
            self.add_method(key, found, row, set())
        images, found.map.signatures = signature_images(found.signatures)
        found.map.rows[tables.STAND_ALONE_SIG] = images
        found.map.shares = any(is_shared(found.map.rows.get(table, {})) for table in SHARING)
        found.findings.sort(key=lambda finding: finding.method)
        return found

    def add_method(self, key: int, found: Result, row: int, left: set[int]) -> bool | None:
        """Adds what became of a method. One whose code may be in one of the new methods `left` is not added: whether all of its code is in
        its own new body, too, is the answer."""
        each = self.inputs[key]
        image = self.home(each, row)
        old, new = prepared(self.old_names[key], row), prepared(self.new_names, image) if image else None
        same = compare(old, new) if old and new else None
        if left and old and new and same and old.keys != new.keys and is_little_left(old, new, same, left):
            return len(same.pairs) == len(old)
        found.counts.methods += 1
        if not image:
            found.map.drops.add(row)
            if row in each.unsure:
                found.counts.undecided += 1
                found.find(row, f"is left out: it {each.unsure[row]}")
        elif has_code(each.module, row) and not self.add_code(found, row, old, new, same):
            found.map.drops.add(row)
        else:
            found.counts.matched += 1
            found.map.rows[tables.METHOD_DEF][row] = (tables.METHOD_DEF, image)
            found.signatures[row] = (old.body.signature if old else 0, new.body.signature if new else 0)
        return None

    @staticmethod
    def home(each: Input, row: int) -> int:
        return each.homes.get(row, each.methods[row])

    def find_homes(self, key: int) -> None:
        """Looks for the code of methods of which little is left."""
        each = self.inputs[key]
        left = set(self.members.left_new())
        if not left:
            return
        rows: dict[int, bool] = {}
        for row, image in enumerate(each.methods):
            old, new = (prepared(self.old_names[key], row), prepared(self.new_names, image)) if image else (None, None)
            if old and new and old.keys != new.keys:
                same = compare(old, new)
                if is_little_left(old, new, same, left):
                    rows[row] = len(same.pairs) == len(old)
        find_homes(self.members, key, rows)

    def add_rows(self, key: int, found: Result) -> None:
        each = self.inputs[key]
        merged = {other.module.assembly for other in self.inputs if other is not each} - {""}
        found.map.rows = row_images(each, self.new, self.old_names[key], self.new_names, merged)
        for table in range(LAST_TABLE + 1):
            if each.module.count(table) or self.new.count(table):
                found.map.counts[table] = self.new.count(table)

    def add_code(self, found: Result, row: int, old: Prepared | None, new: Prepared | None, same: Comparison | None) -> bool:
        """Adds what became of the code of a method; false if nothing of it is left, or if it cannot be read."""
        if old is None or new is None or same is None:
            found.find(row, "is left out: its code is damaged" if old is None else "is left out: it has no code that can be read any more")
            return False
        found.counts.instructions += len(old)
        found.counts.kept += len(same.pairs)
        found.counts.unsure += len(same.unsure)
        for text in sentences(old, same):
            found.find(row, text)
        # The debug file names the entry point, also without a line of it.
        if not same.pairs and row != entry_point(found.module):
            return False
        found.map.code[row] = code_map(old, new, same)
        self.add_slots(found, row, old, same)
        return True

    def add_slots(self, found: Result, row: int, old: Prepared, same: Comparison) -> None:
        count = len(old.locals)
        if all(same.slots.get(slot) == slot for slot in range(count)):
            return
        slots: dict[int, int | None] = dict(same.slots)
        for slot in same.gone_slots:
            slots[slot] = None
            if self.version < GONE_SLOTS:
                found.find(row, f"has no local any more for slot {slot}: if the debug file names it, remap reports M10")
        for slot, why in same.unsure_slots.items():
            found.find(row, f"has a local in slot {slot} that {why}: if the debug file names it, remap reports M10")
        found.map.slots[row] = slots


def is_little_left(old: Prepared, new: Prepared, same: Comparison, left: set[int]) -> bool:
    """Whether half of a method's code or more is not in its new body; or some of it is not, or there is little, and the new body calls a
    method that is new."""
    kept = len(same.pairs)
    return kept * 2 <= len(old) or (kept < len(old) or kept < SHORTEST) and not left.isdisjoint(called_methods(new))


def entry_point(module: Module) -> int:
    """The row of the method at which a program starts, 0 for none."""
    entry = module.metadata.image.cli.entry
    return entry & 0xFFFFFF if entry >> 24 == tables.METHOD_DEF else 0


def has_code(module: Module, row: int) -> bool:
    return bool(module.methods[row][0]) and not module.methods[row][1] & 7


def is_shared(images: dict[int, tuple[int, int] | None]) -> bool:
    """Whether two rows have one image."""
    there = [image for image in images.values() if image]
    return len(there) != len(set(there))


def code_map(old: Prepared, new: Prepared, same: Comparison) -> CodeMap:
    """The runs of pairs; of an instruction whose length changed the common part. New code between them is hidden."""
    starts, places = old.code.offsets, new.code.offsets
    found = CodeMap(starts[-1], places[-1])
    run_old = run_new = length = hidden = 0
    for at, to in same.pairs:
        start, place = starts[at], places[to]
        if place > places[hidden]:
            found.hide(places[hidden], place - places[hidden])
        hidden = to + 1
        if start != run_old + length or place != run_new + length:
            if length:
                found.keep(run_old, run_new, length)
            run_old, run_new, length = start, place, 0
        length += min(starts[at + 1] - start, places[hidden] - place)
    if length:
        found.keep(run_old, run_new, length)
    if places[-1] > places[hidden]:
        found.hide(places[hidden], places[-1] - places[hidden])
    return found


def sentences(old: Prepared, same: Comparison) -> list[str]:
    """What is not decided of the code, a sentence for each reason."""
    by_reason: dict[str, list[int]] = {}
    kept = {at for at, _ in same.pairs}
    for at, why in sorted(same.unsure.items()):
        if at not in kept:
            by_reason.setdefault(why, []).append(old.code.offsets[at])
    return [f"is not decided at IL {listed(offsets)}: each {why}" if len(offsets) > 1 else f"is not decided at IL {offsets[0]}: it {why}"
            for why, offsets in by_reason.items()]


def listed(offsets: list[int]) -> str:
    """At most eight offsets, and how many there are besides."""
    more = f" and {len(offsets) - 8} more" if len(offsets) > 8 else ""
    return ", ".join(map(str, offsets[:8])) + more
