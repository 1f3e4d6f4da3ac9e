"""Numbers in bytes that may end too early: little-endian ones, and the compressed ones of metadata (ECMA-335 II.23.2)."""
from ppdb_tools.errors import Damaged

# Bytes that are read and never changed.
Data = bytes | bytearray | memoryview


def piece(data: Data, start: int, size: int, what: str) -> bytes:
    """The bytes of a range that must be there as a whole."""
    if start < 0 or size < 0 or start + size > len(data):
        raise Damaged(f"{what} at byte {start} passes the end of the file")
    return bytes(data[start:start + size])


def number(data: Data, start: int, size: int, what: str) -> int:
    """An unsigned little-endian number of `size` bytes."""
    return int.from_bytes(piece(data, start, size, what), "little")


def compressed(data: Data, at: int, end: int | None = None) -> tuple[int, int] | None:
    """An unsigned compressed number and where it ends; None if it does not end before `end`, or begins with a byte above df."""
    end = len(data) if end is None else min(end, len(data))
    if not 0 <= at < end or data[at] >= 0xE0:
        return None
    size = 1 if data[at] < 0x80 else 2 if data[at] < 0xC0 else 4
    if at + size > end:
        return None
    return int.from_bytes(data[at:at + size], "big") & {1: 0x7F, 2: 0x3FFF, 4: 0x1FFFFFFF}[size], at + size


def signed(data: Data, at: int, end: int | None = None) -> tuple[int, int] | None:
    """A signed compressed number and where it ends: two's complement, rotated left by one within its 7, 14 or 29 bits."""
    found = compressed(data, at, end)
    if found is None:
        return None
    value, after = found
    bits = {1: 7, 2: 14, 4: 29}[after - at]
    return (value >> 1) - (1 << bits - 1 if value & 1 else 0), after
