"""Which methods and fields of an old module are which of the new one, once its types are known: by their types, names and signatures."""
from collections import Counter, defaultdict
from typing import Callable, Hashable, Iterable

from ppdb_tools import metadata as tables
from ppdb_tools.errors import Damaged
from ppdb_tools.match.bodies import Prepared, prepared
from ppdb_tools.match.module import Module
from ppdb_tools.match.names import Namer, Numbers

# How much of two bodies must be alike for a method whose signature changed, and below what they are two methods.
ENOUGH, TOO_LITTLE = 0.6, 0.3


class Input:
    """An old module, and what is known of its rows in the new one: 0 for none."""

    def __init__(self, module: Module, types: list[int]) -> None:
        self.module, self.types = module, types
        self.references: list[tuple[int, int] | None] = []
        self.methods, self.fields = [0] * len(module.methods), [0] * len(module.fields)
        # The types whose members were looked for by their names.
        self.done: set[int] = set()
        # Methods that may be one of several new ones, or that are alike and changed too much, with the reason.
        self.unsure: dict[int, str] = {}
        # The new method that has the code of an old one, if it is not that of its name.
        self.homes: dict[int, int] = {}


def new_namer(new: Module, numbers: Numbers, neutral: set[tuple[int, int]] | None = None) -> Namer:
    """The names of the new module; those of the definitions in `neutral` are alike."""
    hidden = neutral or set()

    def number(table: int, row: int) -> int:
        return numbers["some", table] if (table, row) in hidden else numbers["new", table, row]

    types = [number(tables.TYPE_DEF, row) for row in range(len(new.types))]
    references = [types[new.types_by_name[name]] if where == "" and name in new.types_by_name else numbers["type", where, name]
                  for where, name in new.reference_names]
    namer = Namer(new, numbers, types, references)
    namer.methods = [number(tables.METHOD_DEF, row) for row in range(len(new.methods))]
    namer.fields = [number(tables.FIELD, row) for row in range(len(new.fields))]
    return namer


def old_namer(each: Input, new: Namer, key: int, is_neutral: bool = False) -> Namer:
    """The names of an old module, by those of the new one."""
    numbers = new.numbers

    def number(table: int, row: int, image: int, known: list[int]) -> int:
        if image:
            return known[image]
        return numbers["some", table] if is_neutral else numbers["old", key, table, row]

    types = [number(tables.TYPE_DEF, row, image, new.types) for row, image in enumerate(each.types)]
    references = [0]
    for image, (where, name) in zip(each.references[1:], each.module.reference_names[1:]):
        if image is not None:
            references.append(new.type(*image))
        elif where == "" and name in each.module.types_by_name:
            references.append(types[each.module.types_by_name[name]])
        else:
            references.append(numbers["type", where, name])
    namer = Namer(each.module, numbers, types, references, new)
    namer.methods = [number(tables.METHOD_DEF, row, image, new.methods) for row, image in enumerate(each.methods)]
    namer.fields = [number(tables.FIELD, row, image, new.fields) for row, image in enumerate(each.fields)]
    return namer


class MemberMatcher:
    """What is known of the rows of all inputs, and which methods and fields of types that are known have one name."""

    def __init__(self, inputs: list[Input], new: Module, numbers: Numbers) -> None:
        self.inputs, self.new, self.numbers = inputs, new, numbers
        self.taken_methods: set[int] = set()
        self.taken_fields: set[int] = set()
        self.taken_types = {image for each in inputs for image in each.types}

    def by_names(self) -> None:
        """The members of the types that were matched since the last time."""
        namer = new_namer(self.new, self.numbers)
        for key, each in enumerate(self.inputs):
            rows = [row for row, image in enumerate(each.types) if image and row not in each.done]
            if rows:
                self.by_signature(each, old_namer(each, namer, key), namer, rows)
        for key, each in enumerate(self.inputs):
            rows = [row for row, image in enumerate(each.types) if image and row not in each.done]
            if rows:
                self.by_name(each, key, rows)
            each.done.update(rows)

    def by_signature(self, each: Input, old: Namer, new: Namer, rows: list[int]) -> None:
        """Members of one name and signature in one type, in their order."""
        for row in rows:
            image = each.types[row]
            for table, lists, others, found, taken in (
                    (tables.METHOD_DEF, each.module.type_methods, self.new.type_methods, each.methods, self.taken_methods),
                    (tables.FIELD, each.module.type_fields, self.new.type_fields, each.fields, self.taken_fields)):
                news = keyed(new, table, (place for place in others[image] if place not in taken))
                for key, members in keyed(old, table, (member for member in lists[row] if not found[member])).items():
                    if len(news.get(key, ())) == len(members):
                        for member, place in zip(members, news[key]):
                            found[member] = place
                            taken.add(place)

    def by_name(self, each: Input, key: int, rows: list[int]) -> None:
        """Members of one name in one type whose signature changed: a field, or a method with about the same code."""
        new, old = self.neutral_namers(each, key)
        for row in rows:
            image = each.types[row]
            for row_of, place in only_ones(each.module.field_name, (at for at in each.module.type_fields[row] if not each.fields[at]),
                                           self.new.field_name, (at for at in self.new.type_fields[image] if at not in self.taken_fields)):
                self.take_field(each, row_of, place)
            for row_of, place in only_ones(each.module.method_name, (at for at in each.module.type_methods[row] if not each.methods[at]),
                                           self.new.method_name, (at for at in self.new.type_methods[image] if at not in self.taken_methods)):
                alike = likeness(prepared(old, row_of), prepared(new, place))
                if alike >= ENOUGH:
                    self.take_method(each, row_of, place)
                elif alike >= TOO_LITTLE:
                    each.unsure[row_of] = "has another signature and other code"

    def take_method(self, each: Input, row: int, image: int) -> None:
        each.methods[row] = image
        each.unsure.pop(row, None)
        self.taken_methods.add(image)

    def take_field(self, each: Input, row: int, image: int) -> None:
        each.fields[row] = image
        self.taken_fields.add(image)

    def take_type(self, each: Input, row: int, image: int) -> None:
        each.types[row] = image
        self.taken_types.add(image)

    def take_used(self, each: Input, table: int, row: int, image: int) -> int:
        if table == tables.TYPE_DEF:
            known, taken, take = each.types, self.taken_types, self.take_type
        elif table == tables.FIELD:
            known, taken, take = each.fields, self.taken_fields, self.take_field
        else:
            known, taken, take = each.methods, self.taken_methods, self.take_method
        if row >= len(known) or known[row] or image in taken:
            return 0
        take(each, row, image)
        return 1

    def neutral_namers(self, each: Input, key: int) -> tuple[Namer, Namer]:
        """Names in which all definitions without a partner are alike."""
        free = {(tables.TYPE_DEF, row) for row in range(1, len(self.new.types)) if row not in self.taken_types}
        free |= {(tables.METHOD_DEF, row) for row in range(1, len(self.new.methods)) if row not in self.taken_methods}
        free |= {(tables.FIELD, row) for row in range(1, len(self.new.fields)) if row not in self.taken_fields}
        new = new_namer(self.new, self.numbers, free)
        return new, old_namer(each, new, key, True)

    def left(self, each: Input) -> list[int]:
        return [row for row in range(1, len(each.methods)) if not each.methods[row]]

    def left_new(self) -> list[int]:
        return [row for row in range(1, len(self.new.methods)) if row not in self.taken_methods]


def keyed(namer: Namer, table: int, rows: Iterable[int]) -> dict[tuple[str, int], list[int]]:
    """The members by their names and signatures. One whose signature is damaged has none."""
    found: dict[tuple[str, int], list[int]] = {}
    name = namer.module.method_name if table == tables.METHOD_DEF else namer.module.field_name
    for row in rows:
        try:
            found.setdefault((name(row), namer.definition_signature(table, row)), []).append(row)
        except Damaged:
            continue
    return found


def only_ones(name: Callable[[int], Hashable], olds: Iterable[int], other: Callable[[int], Hashable], news: Iterable[int]) -> list[tuple[int, int]]:
    """The old and the new rows of each name that one old and one new row have."""
    first, second = defaultdict(list), defaultdict(list)
    for row in olds:
        first[name(row)].append(row)
    for row in news:
        second[other(row)].append(row)
    return [(rows[0], second[each][0]) for each, rows in first.items() if len(rows) == 1 and len(second.get(each, ())) == 1]


def likeness(old: Prepared | None, new: Prepared | None) -> float:
    """How much of two bodies is alike, from 0 to 1; two methods without a body are."""
    if old is None or new is None:
        return 1 if old is new else 0
    common = sum((Counter(old.keys) & Counter(new.keys)).values())
    return 2 * common / max(1, len(old) + len(new))
