"""Which items of two sequences are the same, where that is certain: those pairs that are in every longest common subsequence. Of an item
that one longest subsequence pairs with this and another one with that item, nothing is known."""
from bisect import bisect_left
from typing import NamedTuple, Sequence

# The most bits that the table of a comparison may have: above it, only items that are in each sequence once divide it.
MOST_BITS = 1 << 29


class Alignment(NamedTuple):
    """The pairs that are certain, ascending, and the items of the old sequence that have several possible partners."""
    pairs: list[tuple[int, int]]
    unsure: list[int]


def align(old: Sequence[int], new: Sequence[int]) -> Alignment:
    """Aligns two sequences of keys."""
    if old == new:
        return Alignment([(at, at) for at in range(len(old))], [])
    if not old or not new:
        return Alignment([], [])
    if len(old) <= len(new):
        found = embedded(old, new)
    else:
        turned = embedded(new, old)
        found = None
        if turned is not None:
            pairs, unsure = turned
            found = Alignment([(at, to) for to, at in pairs], sorted(unsure_sources(new, old, unsure)))
    if found is not None:
        return found
    if len(old) * len(new) > MOST_BITS:
        return by_rare_items(old, new)
    return longest(old, new)


def embedded(old: Sequence[int], new: Sequence[int]) -> Alignment | None:
    """The alignment of a sequence all of which is in another one, in its order: what is at one place in the leftmost and in the rightmost
    embedding is there in each. None if not all of it is there."""
    left = leftmost(old, new)
    if left is None:
        return None
    turned = leftmost(old[::-1], new[::-1])
    if turned is None:
        return None
    last = len(new) - 1
    right = [last - at for at in reversed(turned)]
    return Alignment([(at, to) for at, to in enumerate(left) if right[at] == to], [at for at, to in enumerate(left) if right[at] != to])


def leftmost(old: Sequence[int], new: Sequence[int]) -> list[int] | None:
    """The first place of each item after that of the one before it."""
    found, at, index = [], -1, new.index
    try:
        for key in old:
            at = index(key, at + 1)
            found.append(at)
    except ValueError:
        return None
    return found


def unsure_sources(new: Sequence[int], old: Sequence[int], unsure: list[int]) -> set[int]:
    """The items of `old`, longer, that may be those of `new` that are unsure: what lies between the two embeddings."""
    left = leftmost(new, old) or []
    last = len(old) - 1
    right = [last - at for at in reversed(leftmost(new[::-1], old[::-1]) or [])]
    wanted: dict[int, list[tuple[int, int]]] = {}
    for at in unsure:
        wanted.setdefault(new[at], []).append((left[at], right[at]))
    return {at for at, key in enumerate(old) if any(low <= at <= high for low, high in wanted.get(key, ()))}


def longest(old: Sequence[int], new: Sequence[int]) -> Alignment:
    """The alignment by all longest common subsequences. Row by row, the bits of `zeros[i]` at which the length grows (Hyyrö, "Bit-parallel
    LCS-length computation revisited", 2004): the length for old[:i] and new[:j] is the number of bits below j."""
    places: dict[int, int] = {}
    for at, key in enumerate(new):
        places[key] = places.get(key, 0) | 1 << at
    full = (1 << len(new)) - 1
    row, zeros = full, [0]
    for key in old:
        matches = places.get(key, 0)
        kept = row & matches
        row = (row + kept | row - kept) & full
        zeros.append(full ^ row)
    upper, lower = upper_chain(old, new, zeros), lower_chain(old, new, zeros)
    pairs = [pair for pair, other in zip(upper, lower) if pair == other]
    sure = {at for at, _ in pairs}
    unsure = {at for pair, other in zip(upper, lower) if pair != other for at in candidates(old, new, pair, other)}
    return Alignment(pairs, sorted(unsure - sure))


def candidates(old: Sequence[int], new: Sequence[int], first: tuple[int, int], last: tuple[int, int]) -> list[int]:
    """The old items that may be in the pairs between two extreme ones of a rank."""
    keys = set(new[last[1]:first[1] + 1])
    return [at for at in range(first[0], last[0] + 1) if old[at] in keys]


def length_at(zeros: list[int], at: int, to: int) -> int:
    """The length of a longest common subsequence of old[:at] and new[:to]."""
    return (zeros[at] & (1 << to) - 1).bit_count()


def upper_chain(old: Sequence[int], new: Sequence[int], zeros: list[int]) -> list[tuple[int, int]]:
    """The pairs of each rank whose old item is the first, and whose new item is the last possible."""
    before: list[tuple[int, int]] = []
    seen: dict[int, list[int]] = {}
    for to, key in enumerate(new):
        seen.setdefault(key, []).append(to)
    at, to = len(old), len(new)
    rank = length_at(zeros, at, to)
    while rank:
        while at and length_at(zeros, at - 1, to) == rank:
            at -= 1
        at -= 1
        places = seen[old[at]]
        to = places[bisect_left(places, to) - 1]
        before.append((at, to))
        rank -= 1
    return before[::-1]


def lower_chain(old: Sequence[int], new: Sequence[int], zeros: list[int]) -> list[tuple[int, int]]:
    """The pairs of each rank whose old item is the last, and whose new item is the first possible."""
    before: list[tuple[int, int]] = []
    seen: dict[int, list[int]] = {}
    for at, key in enumerate(old):
        seen.setdefault(key, []).append(at)
    at, to = len(old), len(new)
    rank = length_at(zeros, at, to)
    while rank:
        # The last bit below `to` is where the length grew to `rank`.
        to = (zeros[at] & (1 << to) - 1).bit_length() - 1
        places = seen[new[to]]
        at = places[bisect_left(places, at) - 1]
        before.append((at, to))
        rank -= 1
    return before[::-1]


def by_rare_items(old: Sequence[int], new: Sequence[int]) -> Alignment:
    """The alignment of long sequences: by the items that are in each once, as far as they ascend, and by what is between two of them."""
    once_new = once(new)
    anchors = ascending([(at, once_new[key]) for key, at in once(old).items() if key in once_new])
    pairs: list[tuple[int, int]] = []
    unsure: list[int] = []
    start = to = 0
    for at, place in [*anchors, (len(old), len(new))]:
        if (at - start) * (place - to) <= MOST_BITS:
            between = align(old[start:at], new[to:place])
            pairs += [(start + one, to + other) for one, other in between.pairs]
            unsure += [start + one for one in between.unsure]
        else:
            unsure += range(start, at)
        if at < len(old):
            pairs.append((at, place))
        start, to = at + 1, place + 1
    return Alignment(pairs, unsure)


def once(keys: Sequence[int]) -> dict[int, int]:
    """The places of the keys that are in a sequence once, ascending."""
    found: dict[int, int] = {}
    for at, key in enumerate(keys):
        found[key] = -1 if key in found else at
    return {key: at for key, at in found.items() if at >= 0}


def ascending(pairs: list[tuple[int, int]]) -> list[tuple[int, int]]:
    """The longest part of pairs, ascending in the first, that ascends in the second too."""
    ends: list[int] = []
    chain: list[int] = []
    before: list[int] = []
    for index, (_, to) in enumerate(pairs):
        length = bisect_left(ends, to)
        before.append(chain[length - 1] if length else -1)
        if length == len(ends):
            ends.append(to)
            chain.append(index)
        else:
            ends[length], chain[length] = to, index
    found, index = [], chain[-1] if chain else -1
    while index >= 0:
        found.append(pairs[index])
        index = before[index]
    return found[::-1]
