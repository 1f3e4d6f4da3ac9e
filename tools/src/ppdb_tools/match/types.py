"""Which types of old modules are which of the new one: by their names; where several old types have one name, and where a name is no more,
by the names of their members."""
from collections import defaultdict
from typing import Callable, Hashable

from ppdb_tools import metadata as tables
from ppdb_tools.match.module import Module

# How much of the members must be alike for a type that has another namespace, or another type around it.
ENOUGH = 0.5
# Names that most types have, or all of a kind: they say nothing of one.
COMMON = frozenset((".ctor", ".cctor", "Invoke", "BeginInvoke", "EndInvoke", "value__", "ToString", "Equals", "GetHashCode", "Dispose"))
Types = list[int]
Key = Callable[[Module, int], Hashable | None]


class TypeMatcher:
    """Finds for each old module the new row of each type, 0 if there is none."""

    def __init__(self, olds: list[Module], new: Module) -> None:
        self.olds, self.new = olds, new
        self.found: list[Types] = [[0] * len(old.types) for old in olds]
        self.taken: set[int] = set()

    def match(self) -> list[Types]:
        """By names, and then by what is left."""
        self.by_name()
        while self.by_simple_names() + self.by_members():
            pass
        return self.found

    def by_name(self) -> None:
        """A new type has the name of one old type; of several ones that with the most members in common, and then the first. A nested type
        follows the one around it."""
        claims: dict[int, list[tuple[int, int]]] = defaultdict(list)
        news = grouped(self.new.type_names)
        for index, old in enumerate(self.olds):
            for name, olds in grouped(old.type_names).items():
                # Names that a module has more than once are those of types in their order.
                if len(olds) == len(news.get(name, ())):
                    for row, image in zip(olds, news[name]):
                        claims[image].append((index, row))
        for image in sorted(claims, key=lambda row: self.new.type_names[row].count("/")):
            wanted = [(index, row) for index, row in claims[image] if self.around(index, row) == self.new.enclosing.get(image, 0)]
            if wanted:
                index, row = min(wanted, key=lambda at: -likeness(self.olds[at[0]], at[1], self.new, image)) if len(wanted) > 1 else wanted[0]
                self.take(index, row, image)
        for index, old in enumerate(self.olds):
            self.share_module(index, old)

    def share_module(self, index: int, old: Module) -> None:
        """The type `<Module>`, row 1, has the functions of all inputs."""
        if len(old.types) > 1 and len(self.new.types) > 1:
            self.found[index][1] = 1
            self.taken.add(1)

    def take(self, index: int, row: int, image: int) -> None:
        self.found[index][row] = image
        self.taken.add(image)

    def left(self) -> list[tuple[int, int]]:
        """The old types without a new one."""
        return [(index, row) for index, types in enumerate(self.found) for row, image in enumerate(types) if row and not image]

    def left_new(self) -> list[int]:
        return [row for row in range(1, len(self.new.types)) if row not in self.taken]

    def by_simple_names(self) -> int:
        """A type whose own name only one old and one new type have: it got another namespace, or another type around it."""
        return self.pair(simple_name, ENOUGH) or self.pair(simple_name, ENOUGH, False)

    def by_members(self) -> int:
        """A type that was renamed: only one old and one new type have members of these names."""
        return self.pair(member_key, 1)

    def pair(self, key: Key, enough: float, is_around: bool = True) -> int:
        """Takes the pairs of the only old and the only new type with a key, and with the same type around them, if they are alike."""
        olds, news = defaultdict(list), defaultdict(list)
        for index, row in self.left():
            olds[key(self.olds[index], row), is_around and self.around(index, row)].append((index, row))
        for row in self.left_new():
            news[key(self.new, row), is_around and self.new.enclosing.get(row, 0)].append(row)
        count = 0
        for each, rows in olds.items():
            if each[0] is not None and len(rows) == 1 and len(news.get(each, ())) == 1:
                (index, row), image = rows[0], news[each][0]
                if likeness(self.olds[index], row, self.new, image) >= enough:
                    self.take(index, row, image)
                    count += 1
        return count

    def around(self, index: int, row: int) -> int:
        """The new row of the type around a type; 0 for none, and -1 for one without a new row."""
        outer = self.olds[index].enclosing.get(row, 0)
        return (self.found[index][outer] or -1) if outer and outer < len(self.found[index]) else 0


def grouped(names: list[str]) -> dict[str, list[int]]:
    """The rows of each name."""
    found: dict[str, list[int]] = {}
    for row, name in enumerate(names[1:], 1):
        found.setdefault(name, []).append(row)
    return found


def simple_name(module: Module, row: int) -> str | None:
    """The name of a type; what a merger or a compiler put before it in angle brackets does not count, nor a name of that alone."""
    return module.text(module.types[row][1]).rpartition(">")[2] or None


def member_names(module: Module, row: int) -> frozenset[str]:
    """The names of the methods and fields of a type."""
    return frozenset([*map(module.method_name, module.type_methods[row]), *map(module.field_name, module.type_fields[row])])


def member_key(module: Module, row: int) -> frozenset[str] | None:
    """The names of the members, if they tell one type from another one."""
    names = member_names(module, row)
    return names if names - COMMON else None


def likeness(old: Module, row: int, new: Module, image: int) -> float:
    """How many of the members of both have one name, from 0 to 1."""
    first, second = member_names(old, row), member_names(new, image)
    return len(first & second) / len(first | second) if first or second else 1


def reference_images(old: Module, types: Types, new: Module, inputs: dict[str, tuple[Module, Types]]) -> list[tuple[int, int] | None]:
    """For each row of TypeRef the row of TypeRef or TypeDef that the new module has for this type; None if it names it no more. `inputs`
    has the old modules by the names of their assemblies, with the new rows of their types."""
    by_name: dict[str, set[str]] = {}
    by_place: dict[tuple[str, str], tuple[int, int]] = {}
    for row in range(len(new.references) - 1, 0, -1):
        where, name = new.reference_names[row]
        by_place[where, name] = (tables.TYPE_REF, row)
        by_name.setdefault(name, set()).add(where)
    new_scopes = {where for where, _ in new.reference_names}
    found: list[tuple[int, int] | None] = [None]
    for where, name in old.reference_names[1:]:
        image = by_place.get((where, name))
        if image is None:
            image = defined(where, name, old, types, new, inputs, where in new_scopes)
        if image is None and where not in new_scopes and len(by_name.get(name, ())) == 1:
            image = by_place[next(iter(by_name[name])), name]
        found.append(image)
    return found


def defined(where: str, name: str, old: Module, types: Types, new: Module, inputs: dict[str, tuple[Module, Types]],
            is_there: bool) -> tuple[int, int] | None:
    """The row of TypeDef of a type that the new module defines itself: one of this module, one of another input, or one of an assembly
    that became part of it, to which it refers no more."""
    found = (old, types) if where == "" else inputs.get(where)
    if found is None:
        row = 0 if is_there else new.types_by_name.get(name, 0)
    else:
        row = found[1][found[0].types_by_name[name]] if name in found[0].types_by_name else 0
    return (tables.TYPE_DEF, row) if row else None
