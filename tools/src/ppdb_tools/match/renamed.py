"""Which types and methods of an old module are which of the new one although their names or their places changed: by the code of methods,
where only one old and one new method have it, and by the structure of types."""
from collections import Counter, defaultdict
from typing import Callable, Hashable

from ppdb_tools import metadata as tables
from ppdb_tools.match.bodies import KIND_OF, NUMBER, STRING, TOKEN, Prepared, prepared
from ppdb_tools.match.members import Input, MemberMatcher, only_ones
from ppdb_tools.match.module import INTERFACE_IMPL
from ppdb_tools.match.names import Namer
from ppdb_tools.match.types import COMMON

# Bodies that are shorter, or name fewer things, are like those of other methods by chance.
SHORTEST, DISTINCTIVE = 4, 3
# What one round finds helps the next.
ROUNDS = 6
# Methods by a hash of their code.
Groups = dict[int, list[int]]
NO_CODE = 0


class Sides:
    """An input and the new module, with names in which all definitions without a partner are alike, and the code of what is left."""

    def __init__(self, each: Input, matcher: MemberMatcher, key: int) -> None:
        self.each, self.matcher = each, matcher
        self.new, self.old = matcher.neutral_namers(each, key)
        self.codes, self.new_codes = codes(self.old, matcher.left(each)), codes(self.new, matcher.left_new())

    def groups(self) -> tuple[Groups, Groups]:
        return by_code(self.codes), by_code(self.new_codes)


def match_members(matcher: MemberMatcher) -> None:
    """Matches by names, and then by code and structure, which tell more types."""
    for _ in range(ROUNDS):
        matcher.by_names()
        if not sum(round_of(matcher, key) for key in range(len(matcher.inputs))):
            break
    for key, each in enumerate(matcher.inputs):
        mark_unsure(matcher, key)


def round_of(matcher: MemberMatcher, key: int) -> int:
    """One search for an input; how much it found."""
    each = matcher.inputs[key]
    if not matcher.left_new() or not (matcher.left(each) or 0 in each.types[1:]):
        return 0
    sides = Sides(each, matcher, key)
    first, second = sides.groups()
    pairs = [(rows[0], second[code][0]) for code, rows in first.items() if len(rows) == 1 and len(second.get(code, ())) == 1
             and is_distinctive(sides.old, rows[0])]
    pairs += by_name_and_code(sides, first, second)
    pairs += by_type_and_code(sides)
    count = 0
    for row, image in pairs:
        if not each.methods[row] and image not in matcher.taken_methods:
            matcher.take_method(each, row, image)
            count += 1
    return count + by_use(sides, pairs) + by_structure(sides)


def signed(namer: Namer) -> Callable[[int], Hashable]:
    """Methods by their signatures."""
    return lambda row: namer.definition_signature(tables.METHOD_DEF, row)


def by_name_and_code(sides: Sides, first: Groups, second: Groups) -> list[tuple[int, int]]:
    """Of methods with the same code the only ones that have one name and signature: they are in another type now, and their old type is
    still there. Names that many types have say nothing."""
    each = sides.each

    def key(namer: Namer) -> Callable[[int], Hashable]:
        return lambda row: (namer.module.method_name(row), signed(namer)(row))

    found = []
    for code, rows in first.items():
        rows = [row for row in rows if each.types[each.module.owner[row]] and each.module.method_name(row) not in COMMON]
        found += only_ones(key(sides.old), rows, key(sides.new), second.get(code, ()))
    return found


def by_type_and_code(sides: Sides) -> list[tuple[int, int]]:
    """In each type that is known, the only old and the only new method that are left with a signature and code: it was renamed."""
    def key(namer: Namer, known: dict[int, int]) -> Callable[[int], Hashable]:
        return lambda row: (signed(namer)(row), known[row])

    olds, news = by_owner(sides.old, sides.codes), by_owner(sides.new, sides.new_codes)
    found = []
    for kind, rows in olds.items():
        image = sides.each.types[kind]
        if image and image in news:
            found += only_ones(key(sides.old, sides.codes), rows, key(sides.new, sides.new_codes), news[image])
    return found


def by_owner(namer: Namer, rows: dict[int, int]) -> dict[int, list[int]]:
    """Methods by the rows of their types."""
    found: dict[int, list[int]] = {}
    for row in rows:
        found.setdefault(namer.module.owner[row], []).append(row)
    return found


def by_use(sides: Sides, pairs: list[tuple[int, int]]) -> int:
    """Definitions that the same instructions name, and the types of methods that are the same: all of them must agree."""
    votes: dict[tuple[int, int], set[int]] = defaultdict(set)
    for row, image in pairs:
        votes[tables.TYPE_DEF, sides.old.module.owner[row]].add(sides.new.module.owner[image])
        first, second = prepared(sides.old, row), prepared(sides.new, image)
        if first is None or second is None:
            continue
        for operation, token, other in zip(first.code.operations, first.code.operands, second.code.operands):
            if KIND_OF[operation] == TOKEN and token >> 24 == other >> 24 and token >> 24 in (tables.TYPE_DEF, tables.FIELD, tables.METHOD_DEF):
                votes[token >> 24, token & 0xFFFFFF].add(other & 0xFFFFFF)
    owners = Counter((table, image) for (table, _), images in votes.items() for image in images)
    count = 0
    for (table, row), images in votes.items():
        image = next(iter(images))
        if len(images) == 1 and owners[table, image] == 1:
            count += sides.matcher.take_used(sides.each, table, row, image)
    return count


def by_structure(sides: Sides) -> int:
    """Types that are left, by all but their names: the only old and the only new one with their flags, base type, interfaces, the types of
    fields, and signatures and code of methods. Their fields follow in their order, where all are there."""
    matcher, each = sides.matcher, sides.each
    olds = [row for row, image in enumerate(each.types) if row > 1 and not image]
    news = [row for row in range(2, len(sides.new.module.types)) if row not in matcher.taken_types]
    if not olds or not news:
        return 0
    first, second = structure(sides.old, sides.codes), structure(sides.new, sides.new_codes)
    count = 0
    for row, image in only_ones(first, olds, second, news):
        if sides.old.module.type_methods[row] or sides.old.module.type_fields[row]:
            matcher.take_type(each, row, image)
            for field, place in zip(sides.old.module.type_fields[row], sides.new.module.type_fields[image]):
                if not each.fields[field] and place not in matcher.taken_fields:
                    matcher.take_field(each, field, place)
            count += 1
    return count


def structure(namer: Namer, known: dict[int, int]) -> Callable[[int], Hashable]:
    """A type without its names. Of methods that have a partner the partner counts."""
    module = namer.module
    interfaces: dict[int, list[int]] = defaultdict(list)
    for kind, coded in module.metadata.rows(INTERFACE_IMPL):
        interfaces[kind].append(namer.coded_type(coded))

    def key(row: int) -> Hashable:
        methods = sorted((module.methods[each][2] & 0x1F, signed(namer)(each), known.get(each, NO_CODE)) for each in module.type_methods[row])
        fields = tuple(namer.definition_signature(tables.FIELD, each) for each in module.type_fields[row])
        return module.types[row][0] & ~7, namer.coded_type(module.types[row][3]), tuple(sorted(interfaces[row])), tuple(methods), fields

    return key


def mark_unsure(matcher: MemberMatcher, key: int) -> None:
    """Of the methods that are left those whose code some new method has that is left too; of short ones if it is in their type."""
    each = matcher.inputs[key]
    if not matcher.left(each) or not matcher.left_new():
        return
    sides = Sides(each, matcher, key)
    first, second = sides.groups()
    for code, rows in first.items():
        news = second.get(code, ())
        is_short = news and len(prepared(sides.old, rows[0]) or ()) < SHORTEST
        owners = {sides.new.module.owner[image] for image in news}
        for row in rows:
            if news and (not is_short or each.types[each.module.owner[row]] in owners):
                each.unsure[row] = f"has the same code as {len(news)} new method{'s' * (len(news) > 1)}"


def find_homes(matcher: MemberMatcher, key: int, rows: dict[int, bool]) -> None:
    """The new methods that have the code of old ones whose own name has other code now: it went to a method, the only one with this code,
    or one that the old one calls. Of each of these old methods `rows` says whether all of its code is in its own new body too."""
    if not rows or not matcher.left_new():
        return
    each = matcher.inputs[key]
    new, old = matcher.neutral_namers(each, key)
    first, second = by_code(codes(old, list(rows))), by_code(codes(new, matcher.left_new()))
    for code, olds in first.items():
        for row in olds:
            called = called_methods(prepared(new, each.methods[row]))
            homes = [image for image in second.get(code, ()) if image not in matcher.taken_methods and (
                image in called and signed(old)(row) == signed(new)(image)
                or len(olds) == len(second[code]) == 1 and is_distinctive(old, row))]
            if len(homes) == 1:
                # So short a body is also what a tool adds.
                each.homes[row] = 0 if rows[row] else homes[0]
                if rows[row]:
                    each.unsure[row] = "may be itself, or a new method that it calls"
                else:
                    matcher.taken_methods.add(homes[0])


def called_methods(body: Prepared | None) -> set[int]:
    """The rows of the methods of its own module that a body names."""
    operands = zip(body.code.operations, body.code.operands) if body else ()
    return {operand & 0xFFFFFF for operation, operand in operands if KIND_OF[operation] == TOKEN and operand >> 24 == tables.METHOD_DEF}


def is_distinctive(namer: Namer, row: int) -> bool:
    """Whether a body names, besides definitions without a partner, several things: code that compilers write for many methods does not."""
    body = prepared(namer, row)
    if body is None or len(body) < SHORTEST:
        return False
    some = {namer.numbers["some", table] for table in (tables.TYPE_DEF, tables.METHOD_DEF, tables.FIELD)}
    named = {(operation, operand) for operation, operand in zip(body.code.operations, body.code.operands)
             if KIND_OF[operation] == STRING or KIND_OF[operation] == NUMBER and operand not in (0, 1)
             or KIND_OF[operation] == TOKEN and namer.token(operand) not in some}
    return len(named) >= DISTINCTIVE


def codes(namer: Namer, rows: list[int]) -> dict[int, int]:
    """A hash of the code of each method; NO_CODE if it has none."""
    found = {}
    for row in rows:
        body = prepared(namer, row)
        found[row] = NO_CODE if body is None else code_hash(body)
    return found


def by_code(known: dict[int, int]) -> Groups:
    """The methods that have code, by its hash."""
    found: Groups = {}
    for row, code in known.items():
        if code != NO_CODE:
            found.setdefault(code, []).append(row)
    return found


def code_hash(body: Prepared) -> int:
    """A hash of keys, branches, the use of locals, and clauses."""
    slots: dict[int, int] = {}
    uses = tuple(slots.setdefault(slot, len(slots)) for _, slot in body.slots())
    clauses = tuple((clause.kind, *(body.places.get(at, -1) for at in clause[1:5])) for clause in body.body.clauses)
    return hash((tuple(body.keys), tuple(body.targets.items()), uses, clauses))
