"""Which instructions of a method are those of its body in the new module, and which of its locals."""
from collections import Counter
from typing import NamedTuple

from ppdb_tools.match.align import Alignment, align, embedded
from ppdb_tools.match.bodies import KIND_OF, LOCAL, RETURN, STORE, Prepared


class Comparison(NamedTuple):
    """The pairs of instructions that are the same, ascending, and what is not decided: instructions by their index, with the reason.
    `slots` gives the new slot of an old one; a slot that is gone or not decided has none."""
    pairs: list[tuple[int, int]]
    unsure: dict[int, str]
    slots: dict[int, int]
    gone_slots: list[int]
    unsure_slots: dict[int, str]


AMBIGUOUS = "has several like it in the new code"
EXCHANGED = "does or names something else now"
REPLACED = "is among code that was replaced"
LEADS = "leads elsewhere"
RETURNS = "may be another instruction now, since a new try block is around the code before it"
MOVED = "is in another place"


class View(NamedTuple):
    """Two bodies, with the keys by which their instructions are compared."""
    old: Prepared
    new: Prepared
    keys: list[int]
    others: list[int]


def compare(old: Prepared, new: Prepared) -> Comparison:
    """Compares two bodies: by the types of locals, and then, if something is left, by the slots that this told."""
    if old.keys == new.keys:
        return checked(View(old, new, old.keys, new.keys), [(at, at) for at in range(len(old))], {})
    view = View(old, new, old.keys, new.keys)
    unsure: dict[int, str] = {}
    pairs = without_returns(old, new, aligned(view, unsure), unsure)
    if len(pairs) < len(old) or used_slots(old, new, pairs)[1]:
        view = informed(view, pairs)
        unsure = {}
        pairs = without_returns(old, new, aligned(view, unsure), unsure)
    mark_moved(view, pairs, unsure)
    return checked(view, pairs, unsure)


def informed(view: View, pairs: list[tuple[int, int]]) -> View:
    """Keys that know of the slots of locals, of where branches lead and, if new protected ranges are around all that is kept, of the number
    of ranges around each instruction."""
    old, new = view.old, view.new
    slots = likely_slots(view, pairs)
    keys, others = old.keys_by_slot(slots), new.keys_by_slot({slot: slot for slot in slots.values()})
    _, ends = edges(pairs, len(old), len(new))
    kept = {to for _, to in pairs}
    add_targets(old, keys, ends)
    add_targets(new, others, next_kept(kept, len(new)))
    steps = {new.depths[to] - old.depths[at] for at, to in pairs}
    if len(steps) == 1 and steps != {0}:
        numbers, step = old.namer.numbers, steps.pop()
        keys = [numbers["depth", key, depth + step] for key, depth in zip(keys, old.depths)]
        others = [numbers["depth", key, depth] for key, depth in zip(others, new.depths)]
    return View(old, new, keys, others)


def add_targets(body: Prepared, keys: list[int], places: list[int]) -> None:
    """Makes the keys of branches those of a place: of the next new instruction that is kept, from the target on."""
    for at, targets in body.targets.items():
        keys[at] = body.namer.numbers["to", keys[at], tuple(places[target] for target in targets)]


def next_kept(kept: set[int], count: int) -> list[int]:
    """For each new instruction, and the end, the next one that is kept; for the place -1, which is none, -1."""
    found, place = [-1] * (count + 2), count
    for at in range(count, -1, -1):
        place = at if at in kept else place
        found[at] = place
    return found


def aligned(view: View, unsure: dict[int, str]) -> list[tuple[int, int]]:
    """The pairs that are the same by their keys, if the new code has all of the old code and in one way; else by what takes their values,
    too."""
    whole = embedded(view.keys, view.others) if len(view.keys) < len(view.others) else None
    if whole is not None and not whole.unsure:
        return whole.pairs
    found = align(view.old.strong(view.keys), view.new.strong(view.others))
    unsure.update((at, AMBIGUOUS) for at in found.unsure)
    return fill(view, found.pairs, unsure)


def checked(view: View, pairs: list[tuple[int, int]], unsure: dict[int, str]) -> Comparison:
    """Without what leads elsewhere, or uses another local."""
    pairs = with_true_targets(view.old, view.new, pairs, unsure)
    return with_slots(view.old, view.new, pairs, unsure)


def fill(view: View, sure: list[tuple[int, int]], unsure: dict[int, str]) -> list[tuple[int, int]]:
    """The pairs that are sure, and those between two of them that are the same by their own keys."""
    found: list[tuple[int, int]] = []
    before, place = -1, -1
    for at, to in [*sure, (len(view.keys), len(view.others))]:
        if at > before + 1 and to > place + 1:
            found += between(view, range(before + 1, at), range(place + 1, to), unsure)
        if at < len(view.keys):
            found.append((at, to))
        before, place = at, to
    return found


def between(view: View, olds: range, news: range, unsure: dict[int, str]) -> list[tuple[int, int]]:
    """The pairs in a gap. They count if nothing is lost or nothing is added there, or if one instruction took the place of another one:
    otherwise code was replaced, and what is alike may be so by chance."""
    keys, others = view.keys[olds.start:olds.stop], view.others[news.start:news.stop]
    inner = align(keys, others)
    pairs = [(olds.start + at, news.start + to) for at, to in inner.pairs]
    alike = len(inner.pairs) + len(inner.unsure) + returns_left(view, olds, inner)
    exchanged = exchange(view, olds, news, pairs)
    if exchanged >= 0:
        unsure[exchanged] = EXCHANGED
    if alike == len(keys) or len(inner.pairs) == len(others) or exchanged >= 0:
        unsure.update((olds.start + at, AMBIGUOUS) for at in inner.unsure)
        return [(at, to) for at, to in pairs if at not in unsure]
    unsure.update((at, REPLACED) for at in (*(at for at, _ in pairs), *(olds.start + at for at in inner.unsure)))
    return []


def returns_left(view: View, olds: range, inner: Alignment) -> int:
    """How many `ret` of a gap have no partner: with a new protected range around them, they are another instruction."""
    if len(view.new.body.clauses) <= len(view.old.body.clauses):
        return 0
    found = {at for at, _ in inner.pairs} | set(inner.unsure)
    return sum(view.old.code.operations[at] == RETURN and at - olds.start not in found for at in olds)


def exchange(view: View, olds: range, news: range, pairs: list[tuple[int, int]]) -> int:
    """If all but one instruction is the same, and that one has the same effect on the stack as the one in its place, that one; otherwise
    -1."""
    if len(olds) != len(news) or len(pairs) != len(olds) - 1 or not pairs:
        return -1
    left = (set(olds) - {at for at, _ in pairs}).pop()
    to = news.start + left - olds.start
    return left if to not in {place for _, place in pairs} and view.old.effect(left) == view.new.effect(to) else -1


def without_returns(old: Prepared, new: Prepared, pairs: list[tuple[int, int]], unsure: dict[int, str]) -> list[tuple[int, int]]:
    """Without a `ret` that is outside a new protected range in which the code before it is: it may be the one that a tool added, and the
    old one a `leave` now."""
    if len(new.body.clauses) <= len(old.body.clauses):
        return pairs
    found: list[tuple[int, int]] = []
    for at, to in pairs:
        if old.code.operations[at] == RETURN:
            before, place = found[-1] if found else (at, 0)
            if new.depths[to] - old.depths[at] != new.depths[place] - old.depths[before]:
                unsure[at] = RETURNS
                continue
        found.append((at, to))
    kept = {at for at, _ in found}
    unsure.update((at, RETURNS) for at, operation in enumerate(old.code.operations) if operation == RETURN and at not in kept)
    return found


def mark_moved(view: View, pairs: list[tuple[int, int]], unsure: dict[int, str]) -> None:
    """Says of the code that is left whether three instructions of it follow each other in new code elsewhere."""
    kept, taken = {at for at, _ in pairs}, {to for _, to in pairs}
    if len(kept) == len(view.keys):
        return
    there = {tuple(view.others[to:to + 3]) for to in range(len(view.others) - 2) if not taken & {to, to + 1, to + 2}}
    for at in range(len(view.keys) - 2):
        three = {at, at + 1, at + 2}
        if not kept & three and tuple(view.keys[at:at + 3]) in there:
            for each in three:
                unsure.setdefault(each, MOVED)


def likely_slots(view: View, pairs: list[tuple[int, int]]) -> dict[int, int]:
    """For the old slots the new one in which most code puts the value, or else from which most code takes it; none that two would have."""
    votes = slot_votes(view.old, view.new, pairs)
    best = {slot: max(counts, key=lambda place: (counts[place], -place)) for slot, counts in votes.items()}
    owners = Counter(best.values())
    return {slot: place for slot, place in best.items() if owners[place] == 1}


def slot_votes(old: Prepared, new: Prepared, pairs: list[tuple[int, int]]) -> dict[int, Counter[int]]:
    """How often code that uses an old slot uses each new one; code that puts a value there counts more than any that takes it."""
    votes: dict[int, Counter[int]] = {}
    operations, operands, others = old.code.operations, old.code.operands, new.code.operands
    for at, to in pairs:
        if KIND_OF[operations[at]] == LOCAL:
            votes.setdefault(operands[at], Counter())[others[to]] += len(old) if operations[at] == STORE else 1
    return votes


def with_true_targets(old: Prepared, new: Prepared, pairs: list[tuple[int, int]], unsure: dict[int, str]) -> list[tuple[int, int]]:
    """Without the branches that lead elsewhere: not to the new place of their target, nor to new code just before it."""
    if not old.targets or (len(pairs) == len(old) == len(new) and old.targets == new.targets):
        return pairs
    starts, ends = edges(pairs, len(old), len(new))
    found = []
    for at, to in pairs:
        if at in old.targets and not (to in new.targets and all(
                starts[target] <= place <= ends[target] for target, place in zip(old.targets[at], new.targets[to]))):
            unsure[at] = LEADS
        else:
            found.append((at, to))
    return found


def edges(pairs: list[tuple[int, int]], count: int, last: int) -> tuple[list[int], list[int]]:
    """For each old instruction, and the end, the first and the last new one to which a branch to it may lead: that after the last kept one
    before it, and the first kept one from it on. A branch to no instruction leads nowhere, so the entry for -1 is empty."""
    starts, ends = [0] * (count + 2), [last] * (count + 2)
    images = dict(pairs)
    place = 0
    for at in range(count + 1):
        starts[at] = place
        place = images.get(at, place - 1) + 1
    place = last
    for at in range(count, -1, -1):
        place = images.get(at, place)
        ends[at] = place
    starts[-1], ends[-1] = last + 1, -1
    return starts, ends


def with_slots(old: Prepared, new: Prepared, pairs: list[tuple[int, int]], unsure: dict[int, str]) -> Comparison:
    """The slots by the instructions that use them, and those that no code uses by their types."""
    slots, unsure_slots = used_slots(old, new, pairs)
    wrong = {at for at, to in pairs if KIND_OF[old.code.operations[at]] == LOCAL
             and slots.get(old.code.operands[at]) != new.code.operands[to]}
    for at in wrong:
        unsure[at] = "uses a local whose slot is not decided"
    if wrong:
        pairs = [pair for pair in pairs if pair[0] not in wrong]
    left = [slot for slot in range(len(old.locals)) if slot not in slots and slot not in unsure_slots]
    gone: list[int] = []
    if left:
        slots, gone, more = unused_slots(old, new, slots, left)
        unsure_slots.update(more)
    return Comparison(pairs, unsure, slots, gone, unsure_slots)


def used_slots(old: Prepared, new: Prepared, pairs: list[tuple[int, int]]) -> tuple[dict[int, int], dict[int, str]]:
    """The new slot of each old one that kept code uses. It must be one, and that of no other."""
    if not old.locals:
        return {}, {}
    slots: dict[int, int] = {}
    unsure: dict[int, str] = {}
    for slot, counts in sorted(slot_votes(old, new, pairs).items()):
        if len(counts) > 1:
            unsure[slot] = f"is in the slots {' and '.join(map(str, sorted(counts)))} now"
        else:
            slots[slot] = next(iter(counts))
    owners = Counter(slots.values())
    unsure.update((slot, f"shares the new slot {place} with another one") for slot, place in slots.items() if owners[place] > 1)
    return {slot: place for slot, place in slots.items() if slot not in unsure}, unsure


def unused_slots(old: Prepared, new: Prepared, slots: dict[int, int], left: list[int]) -> tuple[dict[int, int], list[int], dict[int, str]]:
    """The other slots by their order and their types, and whether any code uses them. Without a new one they are gone."""
    images, slots = set(slots.values()), dict(slots)

    def key(body: Prepared, slot: int) -> int:
        return body.locals[slot] << 1 | (slot in body.used)

    olds = [-slots[slot] - 1 if slot in slots else key(old, slot) for slot in range(len(old.locals))]
    news = [-slot - 1 if slot in images else key(new, slot) for slot in range(len(new.locals))]
    found = align(olds, news)
    slots.update((slot, place) for slot, place in found.pairs if slot in left)
    free = Counter(news[place] for place in range(len(news)) if place not in set(slots.values()))
    gone: list[int] = []
    unsure: dict[int, str] = {}
    for slot in left:
        if slot not in slots:
            if free[olds[slot]]:
                unsure[slot] = "has several like it"
            else:
                gone.append(slot)
    return slots, gone, unsure
