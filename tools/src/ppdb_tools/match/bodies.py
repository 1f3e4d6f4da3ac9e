"""Bodies of methods with keys for their instructions, which are equal if two instructions do the same: by what their operands name and by
the types of locals, but not by slots, and not by where a branch leads."""
from functools import cached_property
from itertools import accumulate
from typing import Iterator

from ppdb_tools.errors import Damaged
from ppdb_tools.il import BY_NAME, OPERATIONS, Body, Code, Kind, decode
from ppdb_tools.match.names import Namer, Numbers

KIND_OF = [int(operation.kind) for operation in OPERATIONS]
NONE, LOCAL, ARGUMENT, NUMBER, TOKEN, STRING, BRANCH, SWITCH = (int(kind) for kind in Kind)
RETURN, STORE = BY_NAME["ret"], BY_NAME["stloc"]
NEW_OBJECT, CALL_INDIRECT = BY_NAME["newobj"], BY_NAME["calli"]
# After these nothing follows in their own block, and the stack is empty (III.1.7.5).
ENDS = frozenset(at for at, operation in enumerate(OPERATIONS) if operation.flow in "brt")
POPS, PUSHES = [operation.pops for operation in OPERATIONS], [operation.pushes for operation in OPERATIONS]
# A value that no instruction put there: the exception in a handler.
CAUGHT = -1


def numbers_of_operations() -> Numbers:
    """Numbers whose first ones are the operations, so that an instruction without an operand is its own key."""
    numbers = Numbers()
    for operation in range(len(OPERATIONS)):
        numbers["operation", operation]
    return numbers


class Prepared:
    """A body whose instructions have keys."""

    def __init__(self, namer: Namer, body: Body) -> None:
        self.namer, self.body = namer, body
        self.code: Code = decode(body.code)
        self.locals = namer.locals_of(body.signature)
        self.keys = self._keys()

    def __len__(self) -> int:
        return len(self.code.operations)

    def _keys(self) -> list[int]:
        numbers, known, types = self.namer.numbers, self.namer.keys, self.locals
        found = []
        for operation, operand in zip(self.code.operations, self.code.operands):
            kind = KIND_OF[operation]
            if kind == NONE or kind == BRANCH:
                key = operation
            elif kind == TOKEN or kind == STRING:
                place = operation << 32 | operand
                if place not in known:
                    known[place] = numbers[operation, self.namer.token(operand) if kind == TOKEN else self.namer.module.string(operand)]
                key = known[place]
            elif kind == LOCAL:
                key = numbers[operation, types[operand] if operand < len(types) else -1]
            else:
                key = numbers[operation, len(operand) if kind == SWITCH else operand]
            found.append(key)
        return found

    def size(self, at: int) -> int:
        return self.code.offsets[at + 1] - self.code.offsets[at]

    @cached_property
    def places(self) -> dict[int, int]:
        """The index of the instruction at an offset; the end of the code counts as one."""
        return {offset: at for at, offset in enumerate(self.code.offsets)}

    @cached_property
    def targets(self) -> dict[int, tuple[int, ...]]:
        """To which instructions each branch and switch leads, -1 for none."""
        operations, operands = self.code.operations, self.code.operands
        found = {}
        for at, operation in enumerate(operations):
            if KIND_OF[operation] >= BRANCH:
                operand = operands[at]
                leads = operand if isinstance(operand, tuple) else (operand,)
                found[at] = tuple(self.places.get(offset, -1) for offset in leads)
        return found

    def slots(self) -> Iterator[tuple[int, int]]:
        """The instructions that use a local, and its slot."""
        for at, operation in enumerate(self.code.operations):
            if KIND_OF[operation] == LOCAL:
                yield at, self.code.operands[at]

    @cached_property
    def used(self) -> set[int]:
        """The slots that code uses."""
        return {slot for _, slot in self.slots()}

    @cached_property
    def depths(self) -> list[int]:
        """For each instruction the number of protected ranges and handlers in which it is."""
        ranges = {pair for clause in self.body.clauses for pair in ((clause.try_start, clause.try_end), (clause.start, clause.end))}
        steps = [0] * (len(self) + 2)
        for start, end in ranges:
            steps[self.places.get(start, -1)] += 1
            steps[self.places.get(end, -1)] -= 1
        return list(accumulate(steps))

    def keys_by_slot(self, images: dict[int, int]) -> list[int]:
        """Keys in which the locals that have an image are those of that slot."""
        numbers = self.namer.numbers
        found = list(self.keys)
        for at, slot in self.slots():
            if slot in images:
                found[at] = numbers["slot", self.code.operations[at], images[slot]]
        return found

    def strong(self, keys: list[int]) -> list[int]:
        """Keys that are equal only if, besides, the values of two instructions go to the same one in the same place, or, of instructions
        without a value, if their last value comes from the same one."""
        found = []
        for key, taker, place, giver in zip(keys, *self.flow):
            other = keys[taker] + 1 if taker >= 0 else -keys[giver] - 1 if giver >= 0 else 0
            found.append((key << 32) + (other << 4) + (place if place < 15 else 15))
        return found

    @cached_property
    def flow(self) -> tuple[list[int], list[int], list[int]]:
        """For each instruction the one that takes its value, in which place, and the one that gave its last value; -1 for none."""
        operations, targets, count = self.code.operations, self.targets, len(self)
        consumer, place, producer = [-1] * count, [0] * count, [-1] * count
        starts = {self.places.get(start): [CAUGHT] for clause in self.body.clauses if clause.kind < 2
                  for start in ((clause.start, clause.operand) if clause.kind else (clause.start,))}
        saved: dict[int | None, list[int]] = dict(starts)
        stack: list[int] = []
        falls = True
        for at, operation in enumerate(operations):
            if at in saved and (not falls or at in starts):
                stack = list(saved[at])
            elif not falls:
                stack = []
            pops, pushes = POPS[operation], PUSHES[operation]
            if pops < 0 or pushes < 0:
                pops, pushes = self.effect(at, len(stack))
            if pops and stack:
                producer[at] = stack[-1]
                for index in range(pops - 1, max(-1, pops - 1 - len(stack)), -1):
                    source = stack.pop()
                    if source >= 0 and consumer[source] < 0:
                        consumer[source], place[source] = at, index
            if pushes:
                stack += (at,) * pushes
            if at in targets:
                for target in targets[at]:
                    if target > at:
                        saved.setdefault(target, list(stack))
            falls = operation not in ENDS
        return consumer, place, producer

    def effect(self, at: int, height: int = 0) -> tuple[int, int]:
        """How many values an instruction takes and gives, on a stack of a height."""
        operation = self.code.operations[at]
        pops, pushes = POPS[operation], PUSHES[operation]
        if pops >= 0 and pushes >= 0:
            return pops, pushes
        if operation == RETURN or KIND_OF[operation] != TOKEN:
            return height, 0
        pops, pushes = self.namer.arity(self.code.operands[at])
        if operation == NEW_OBJECT:
            return pops - 1, 1
        return pops + (operation == CALL_INDIRECT), pushes


def prepared(namer: Namer, row: int) -> Prepared | None:
    """The body of a method; None if it has none, or if it is damaged."""
    try:
        body = namer.module.body(row)
        return None if body is None else Prepared(namer, body)
    except Damaged:
        return None
