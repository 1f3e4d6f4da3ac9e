"""Two bodies side by side, with what was matched, and their exception clauses."""
from collections.abc import Iterator

from itertools import zip_longest

from ppdb_tools.il import OPERATIONS, Clause
from ppdb_tools.match.bodies import BRANCH, KIND_OF, NONE, STRING, SWITCH, TOKEN, Prepared
from ppdb_tools.match.compare import Comparison
from ppdb_tools.match.texts import name_of

# Signs between two instructions: kept, gone, added, not decided.
KEPT, GONE, ADDED, UNSURE = "=", "-", "+", "?"
WIDTH = 60
# What is before the handler of an exception clause, by its kind (II.25.4.6).
HANDLERS = {0: "catch", 1: "filter", 2: "finally", 4: "fault"}


def instruction(body: Prepared, at: int) -> str:
    """An instruction with its offset; a branch with the offset to which it leads."""
    operation, operand = body.code.operations[at], body.code.operands[at]
    kind, name = KIND_OF[operation], OPERATIONS[operation].name
    if kind == TOKEN:
        text = name_of(body.namer.module, operand)
    elif kind == STRING:
        # The last byte is a flag (II.24.2.4).
        text = repr(body.namer.module.string(operand)[:-1][:80].decode("utf-16-le", "replace"))
    elif kind == BRANCH:
        text = f"to {operand}"
    elif kind == SWITCH:
        text = f"to {', '.join(map(str, operand))}"
    else:
        text = "" if kind == NONE else str(operand)
    return f"{body.code.offsets[at]:5} {name} {text}".rstrip()


def side_by_side(old: Prepared, new: Prepared, same: Comparison) -> Iterator[str]:
    """The lines of both bodies: kept pairs beside each other, with = between them."""
    at = to = 0
    for one, other in [*same.pairs, (len(old), len(new))]:
        for left in range(at, one):
            sign = UNSURE if left in same.unsure else GONE
            yield line(instruction(old, left), sign, "", same.unsure.get(left, ""))
        for right in range(to, other):
            yield line("", ADDED, instruction(new, right))
        if one < len(old):
            yield line(instruction(old, one), KEPT, instruction(new, other))
        at, to = one + 1, other + 1
    for before, after in zip_longest(*(map(clause, body.body.clauses) for body in (old, new)), fillvalue=""):
        yield line(before, " ", after)
    for slot in range(len(old.locals)):
        place = same.slots.get(slot)
        said = f"slot {place}" if place is not None else ""
        yield line(f"slot {slot}", KEPT if said else UNSURE if slot in same.unsure_slots else GONE, said, same.unsure_slots.get(slot, ""))


def clause(each: Clause) -> str:
    """An exception clause, by the offsets of its ranges."""
    return f"try {each.try_start} to {each.try_end} {HANDLERS.get(each.kind, each.kind)} {each.start} to {each.end}"


def line(left: str, sign: str, right: str, why: str = "") -> str:
    """A line: an old instruction, a sign, a new one, and a reason."""
    if len(left) > WIDTH:
        left = f"{left[:WIDTH - 2]}.."
    return f"{left.ljust(WIDTH)} {sign} {right}{f'  ({why})' if why else ''}".rstrip()

