"""The fields of a blob, one after another (FORMAT, 1 and 3)."""
from collections.abc import Callable

ENDS, MISSPELLED, NOT_ALLOWED = 37, 38, 39


class BlobFault(Exception):
    """A field of a blob that is not valid: the code of the fault and the field's first byte."""

    def __init__(self, code: int, at: int) -> None:
        super().__init__(code, at)
        self.code, self.at = code, at


def always(_: int) -> bool:
    return True


class Fields:
    """A blob, and the byte at which its next field begins."""

    def __init__(self, data: bytes) -> None:
        self.data, self.at = data, 0

    def is_end(self) -> bool:
        return self.at == len(self.data)

    def end(self) -> None:
        """No bytes may follow the last field."""
        if not self.is_end():
            raise BlobFault(NOT_ALLOWED, self.at)

    def take(self, count: int) -> bytes:
        if self.at + count > len(self.data):
            raise BlobFault(ENDS, self.at)
        self.at += count
        return self.data[self.at - count:self.at]

    def fixed(self, count: int, allowed: Callable[[int], bool] = always) -> int:
        """A number of so many bytes."""
        return self.checked(int.from_bytes(self.take(count), "little"), count, allowed)

    def checked(self, value: int, size: int, allowed: Callable[[int], bool]) -> int:
        """The value of the field of this size that was just read, if it is allowed."""
        if not allowed(value):
            raise BlobFault(NOT_ALLOWED, self.at - size)
        return value

    def compressed(self) -> tuple[int, int]:
        """The value of a compressed number and how many bytes it has (ECMA-335 II.23.2)."""
        if self.is_end():
            raise BlobFault(ENDS, self.at)
        first = self.data[self.at]
        if first >= 0xE0:
            raise BlobFault(MISSPELLED, self.at)
        size = 1 if first < 0x80 else 2 if first < 0xC0 else 4
        return int.from_bytes(self.take(size), "big") & (0x7F, 0x3FFF, 0, 0x1FFFFFFF)[size - 1], size

    def unsigned(self, allowed: Callable[[int], bool] = always) -> int:
        value, size = self.compressed()
        return self.checked(value, size, allowed)

    def signed(self, allowed: Callable[[int], bool] = always) -> int:
        """The lowest bit is the sign; the others are those of two's complement (II.23.2)."""
        value, size = self.compressed()
        bits = (7, 14, 0, 29)[size - 1]
        return self.checked((value >> 1) - (1 << bits - 1 if value & 1 else 0), size, allowed)
