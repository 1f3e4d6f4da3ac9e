"""The types of a method's parameters, from its signature (ECMA-335 II.23.2), written as Mono writes them in a stack trace."""
import re
from collections.abc import Callable
from typing import NamedTuple

from ppdb_tools.errors import Damaged
from ppdb_tools.numbers import compressed

# Types that are a code alone (II.23.1.16).
NAMED = {0x01: "System.Void", 0x02: "System.Boolean", 0x03: "System.Char", 0x04: "System.SByte", 0x05: "System.Byte", 0x06: "System.Int16",
         0x07: "System.UInt16", 0x08: "System.Int32", 0x09: "System.UInt32", 0x0A: "System.Int64", 0x0B: "System.UInt64",
         0x0C: "System.Single", 0x0D: "System.Double", 0x0E: "System.String", 0x16: "System.TypedReference", 0x18: "System.IntPtr",
         0x19: "System.UIntPtr", 0x1C: "System.Object"}
# Types that are a code and another type: pointers, references, and arrays of one dimension whose lower bound is 0.
SUFFIXES = {0x0F: "*", 0x10: "&", 0x1D: "[]"}
VALUE_TYPE, CLASS, OF_TYPE, ARRAY, INSTANCE, FUNCTION, OF_METHOD = 0x11, 0x12, 0x13, 0x14, 0x15, 0x1B, 0x1E
MODIFIERS = (0x1F, 0x20)
GENERIC = 0x10
# A signature may name one long name many times, and types in one another; no compiler writes so much.
LONGEST, DEEPEST = 1 << 16, 64


class Names(NamedTuple):
    """What a signature names by a number: types by their coded row, and the generic parameters of the type and of the method."""
    of: Callable[[int], str]
    of_type: list[str]
    of_method: list[str]


class Signature:
    """Reads a signature from its first byte on."""

    def __init__(self, data: bytes, names: Names) -> None:
        self.data, self.at, self.names = data, 0, names
        self.left, self.depth = LONGEST, 0

    def byte(self) -> int:
        if self.at >= len(self.data):
            raise Damaged("a signature is cut off")
        self.at += 1
        return self.data[self.at - 1]

    def number(self) -> int:
        """A compressed number (II.23.2)."""
        found = compressed(self.data, self.at)
        if found is None:
            raise Damaged("a signature has no number where one must be")
        self.at = found[1]
        return found[0]

    def parameters(self) -> list[str]:
        """The types of the parameters. One that is an instance of a generic type is that type alone: Mono prints it with the names of
        its own parameters, which only its assembly has."""
        if self.byte() & GENERIC:
            self.number()
        count = self.number()
        if count > len(self.data):
            raise Damaged("a signature has more parameters than bytes")
        self.type()
        return [self.parameter() for _ in range(count)]

    def parameter(self) -> str:
        self.pass_modifiers()
        is_generic = self.data[self.at:self.at + 1] == bytes([INSTANCE])
        name = self.type()
        return name.partition("[")[0] + "[" if is_generic else name

    def pass_modifiers(self) -> None:
        while self.at < len(self.data) and self.data[self.at] in MODIFIERS:
            self.at += 1
            self.number()

    def counted(self, name: str) -> str:
        """A name, as long as the signature is not longer than any that a compiler writes."""
        self.left -= len(name) + 1
        if self.left < 0:
            raise Damaged(f"a signature has more than {LONGEST} characters")
        return name

    def type(self) -> str:
        self.depth += 1
        if self.depth > DEEPEST:
            raise Damaged(f"a signature has more than {DEEPEST} types in one another")
        self.pass_modifiers()
        found = self.counted(self.of_code(self.byte()))
        self.depth -= 1
        return found

    def of_code(self, code: int) -> str:
        if code in NAMED:
            return NAMED[code]
        if code in SUFFIXES:
            return self.type() + SUFFIXES[code]
        if code in (VALUE_TYPE, CLASS):
            return self.names.of(self.number())
        if code in (OF_TYPE, OF_METHOD):
            return self.generic(self.names.of_type if code == OF_TYPE else self.names.of_method)
        return self.compound(code)

    def generic(self, names: list[str]) -> str:
        index = self.number()
        if index >= len(names):
            raise Damaged(f"a signature names the generic parameter {index} of {len(names)}")
        return names[index]

    def compound(self, code: int) -> str:
        if code == ARRAY:
            return self.type() + self.shape()
        if code == INSTANCE:
            self.byte()
            name, count = self.names.of(self.number()), self.number()
            if count > len(self.data):
                raise Damaged("a signature has more arguments than bytes")
            return f"{name}[{','.join(self.type() for _ in range(count))}]"
        if code == FUNCTION:
            return f"({','.join(self.parameters())})"
        raise Damaged(f"{code:02x} is no type of a signature")

    def shape(self) -> str:
        """The rank of an array. Its sizes and lower bounds are not printed."""
        rank = self.number()
        if rank > 32:
            raise Damaged(f"an array has the rank {rank}")
        for _ in range(2):
            for _ in range(min(self.number(), len(self.data))):
                self.number()
        return f"[{',' * (rank - 1)}]"


def are_types(wanted: list[str], printed: list[str]) -> bool:
    """Whether the types that a trace prints are those of a signature."""
    return len(wanted) == len(printed) and all(map(is_type, wanted, printed))


def is_type(wanted: str, printed: str) -> bool:
    if not wanted.endswith("["):
        return wanted == printed
    # The names of the parameters of a generic type; the brackets of an array have none.
    return printed.startswith(wanted) and re.fullmatch(r"[^][]+\]", printed[len(wanted):]) is not None
