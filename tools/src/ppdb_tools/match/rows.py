"""The new rows of the old rows that a debug file may name: those of the tables 00, 01, 02, 04, 06, 11, 14, 17, 1b, 20 and 23."""
from collections import Counter, defaultdict

from ppdb_tools import metadata as tables
from ppdb_tools.errors import Damaged
from ppdb_tools.mapping import Image
from ppdb_tools.match.members import Input
from ppdb_tools.match.module import EVENT, EVENT_MAP, PROPERTY, PROPERTY_MAP, Module
from ppdb_tools.match.names import Namer

LAST_TABLE = 0x2C
Images = dict[int, Image]


def row_images(each: Input, new: Module, old_names: Namer, new_names: Namer, merged: set[str]) -> dict[int, Images]:
    """The images of the rows of all these tables but MethodDef and StandAloneSig. `merged` has the names of assemblies that are inputs."""
    old = each.module
    found: dict[int, Images] = {
        tables.MODULE: {1: (tables.MODULE, 1)},
        tables.TYPE_REF: {row: image for row, image in enumerate(each.references) if row},
        tables.TYPE_DEF: {row: moved_type(row, image, old, new) for row, image in enumerate(each.types) if row},
        tables.FIELD: {row: (tables.FIELD, image) if image else None for row, image in enumerate(each.fields) if row},
        tables.TYPE_SPEC: specifications(old_names, new_names),
        tables.ASSEMBLY_REF: assemblies(each, new, merged),
        EVENT: owned(each, new, EVENT, EVENT_MAP), PROPERTY: owned(each, new, PROPERTY, PROPERTY_MAP),
    }
    if old.count(tables.ASSEMBLY):
        found[tables.ASSEMBLY] = {1: (tables.ASSEMBLY, 1) if new.count(tables.ASSEMBLY) else None}
    return found


def moved_type(row: int, image: int, old: Module, new: Module) -> Image:
    """The row of a type; that of a reference to it if it is in another assembly now."""
    if image:
        return tables.TYPE_DEF, image
    name = old.type_names[row]
    there = [at for at, (where, other) in enumerate(new.reference_names) if other == name and where and at]
    was = any(other == name and where for where, other in old.reference_names)
    return (tables.TYPE_REF, there[0]) if len(there) == 1 and not was else None


def specifications(old: Namer, new: Namer) -> Images:
    """The first row of TypeSpec that is the same type."""
    places: dict[int, int] = {}
    for row in range(new.module.count(tables.TYPE_SPEC), 0, -1):
        try:
            places[new.specification(row)] = row
        except Damaged:
            continue
    found: Images = {}
    for row in range(1, old.module.count(tables.TYPE_SPEC) + 1):
        try:
            place = places.get(old.specification(row))
        except Damaged:
            place = None
        found[row] = (tables.TYPE_SPEC, place) if place else None
    return found


def identities(module: Module) -> list[tuple[object, ...]]:
    """Of each reference to an assembly its name, version, culture and key."""
    def value(cells: tuple[int, ...]) -> tuple[object, ...]:
        try:
            return module.text(cells[6]), cells[:4], module.text(cells[7]), module.metadata.blob(cells[5])
        except Damaged:
            return (None,)
    return [(), *map(value, module.metadata.rows(tables.ASSEMBLY_REF))]


def assemblies(each: Input, new: Module, merged: set[str]) -> Images:
    """The reference to the same assembly, by all that names it and then by its name; the module's own assembly for one that is part of
    it now."""
    exact: dict[tuple[object, ...], int] = {}
    names: dict[object, int] = {}
    for row, identity in reversed(list(enumerate(identities(new)))):
        if row:
            exact[identity] = names[identity[0]] = row
    joined = {each.module.reference_names[row][0] for row, image in enumerate(each.references) if image and image[0] == tables.TYPE_DEF}
    found: Images = {}
    for row, identity in enumerate(identities(each.module)):
        if row:
            place = exact.get(identity) or names.get(identity[0])
            is_own = not place and (identity[0] in merged or identity[0] in joined) and new.count(tables.ASSEMBLY)
            found[row] = (tables.ASSEMBLY, 1) if is_own else (tables.ASSEMBLY_REF, place) if place else None
    return found


def owned(each: Input, new: Module, table: int, map_table: int) -> Images:
    """The events or properties of one name in a type, in their order."""
    found: Images = {row: None for row in range(1, each.module.count(table) + 1)}
    places = by_type(new, table, map_table)
    for kind, names in by_type(each.module, table, map_table).items():
        others = places.get(each.types[kind], {}) if kind < len(each.types) and each.types[kind] else {}
        for name, rows in names.items():
            if len(rows) == len(others.get(name, ())):
                found.update((row, (table, place)) for row, place in zip(rows, others[name]))
    return found


def by_type(module: Module, table: int, map_table: int) -> dict[int, dict[str, list[int]]]:
    """The rows of events or properties by their type and their name."""
    found: dict[int, dict[str, list[int]]] = defaultdict(lambda: defaultdict(list))
    names = [cells[1] for cells in module.metadata.rows(table)]
    for (kind, _), (start, end) in zip(module.metadata.rows(map_table), module.metadata.ranges(map_table, 1, table)):
        for row in range(start, end):
            found[kind][module.text(names[row - 1])].append(row)
    return found


def signature_images(pairs: dict[int, tuple[int, int]]) -> tuple[Images, dict[int, int]]:
    """The images of the rows of StandAloneSig that are local signatures, and the methods with another new signature. `pairs` has the old
    and the new signature of each method. Many methods may share a row: its image is the row that most of them have now, unless that is
    the image of another row."""
    votes: dict[int, Counter[int]] = defaultdict(Counter)
    for old, new in pairs.values():
        if old:
            votes[old][new] += 1
    images: Images = {}
    taken: set[int] = set()
    for old, counts in sorted(votes.items(), key=lambda item: (-item[1].total(), item[0])):
        images[old] = None
        for new, _ in sorted(counts.items(), key=lambda item: (-item[1], item[0])):
            if new and new not in taken:
                images[old] = (tables.STAND_ALONE_SIG, new)
                taken.add(new)
                break
    return images, {method: new for method, (old, new) in pairs.items() if new != row_of(images, old)}


def row_of(images: Images, old: int) -> int:
    """The image of a local signature, 0 for none."""
    image = images.get(old)
    return image[1] if image else 0
