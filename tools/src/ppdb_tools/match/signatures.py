"""Signatures (ECMA-335 II.23.2) as tuples of numbers that are equal if the signatures say the same: each type of a row of TypeDef, TypeRef
or TypeSpec is a number that the reader of the module gives."""
from typing import Callable, NamedTuple

from ppdb_tools.errors import Damaged
from ppdb_tools.numbers import compressed, signed

# Types that are a code alone, and those that are a code before another type (II.23.1.16).
PLAIN = frozenset((*range(0x01, 0x0F), 0x16, 0x18, 0x19, 0x1C, 0x41, 0x50, 0x51))
BEFORE_ANOTHER = frozenset((0x0F, 0x10, 0x1D, 0x45))
VOID, VALUE_TYPE, CLASS, OF_TYPE, ARRAY, INSTANCE, FUNCTION, OF_METHOD = 0x01, 0x11, 0x12, 0x13, 0x14, 0x15, 0x1B, 0x1E
MODIFIERS = frozenset((0x1F, 0x20))
SENTINEL = 0x41
# The first bytes of signatures.
FIELD, LOCALS, PROPERTY, METHOD_INSTANCE, GENERIC, HAS_THIS, EXPLICIT_THIS = 0x06, 0x07, 0x08, 0x0A, 0x10, 0x20, 0x40
# No type of a program is nested deeper.
DEEPEST = 100


class Method(NamedTuple):
    """A signature of a method: its first byte, its number of generic parameters, what it returns, and its parameters."""
    convention: int
    generics: int
    returned: tuple[int, ...]
    parameters: tuple[tuple[int, ...], ...]

    @property
    def pops(self) -> int:
        """How many values a call takes."""
        return len(self.parameters) + (self.convention & (HAS_THIS | EXPLICIT_THIS) == HAS_THIS)

    @property
    def pushes(self) -> int:
        """How many values a call gives."""
        return 0 if self.returned[-1:] == (VOID,) else 1


class Reader:
    """Reads one signature. `type_of` gives the number of a type by its coded row."""

    def __init__(self, data: bytes, type_of: Callable[[int], int]) -> None:
        self.data, self.type_of, self.at = data, type_of, 0

    def byte(self) -> int:
        if self.at >= len(self.data):
            raise Damaged("a signature ends too early")
        self.at += 1
        return self.data[self.at - 1]

    def count(self) -> int:
        found = compressed(self.data, self.at)
        if found is None:
            raise Damaged("a signature has no number where one must be")
        value, self.at = found
        return value

    def method(self) -> Method:
        """A signature of a method or of a property (II.23.2.1, II.23.2.2, II.23.2.5)."""
        convention = self.byte()
        generics = self.count() if convention & GENERIC else 0
        count = self.count()
        returned = self.type()
        return Method(convention, generics, returned, tuple(self.type() for _ in self.counted(count)))

    def locals(self) -> tuple[tuple[int, ...], ...]:
        """The types of locals (II.23.2.6)."""
        if self.byte() != LOCALS:
            raise Damaged("a signature is none of locals")
        return tuple(self.type() for _ in self.counted(self.count()))

    def arguments(self) -> tuple[tuple[int, ...], ...]:
        """The arguments of an instance of a generic method (II.23.2.15)."""
        if self.byte() != METHOD_INSTANCE:
            raise Damaged("a signature is none of an instance of a method")
        return tuple(self.type() for _ in self.counted(self.count()))

    def field(self) -> tuple[int, ...]:
        """The type of a field (II.23.2.4)."""
        if self.byte() != FIELD:
            raise Damaged("a signature is none of a field")
        return self.type()

    def any(self) -> tuple[object, ...]:
        """A signature of the table StandAloneSig, by its first byte."""
        first = self.data[:1]
        if first == bytes((LOCALS,)):
            return LOCALS, self.locals()
        if first == bytes((FIELD,)):
            return FIELD, self.field()
        return self.method()

    def counted(self, count: int) -> range:
        """As many as a signature says; each has at least a byte."""
        if count > len(self.data):
            raise Damaged(f"a signature of {len(self.data)} bytes has {count} parts")
        return range(count)

    def type(self) -> tuple[int, ...]:
        """A type (II.23.2.10 to II.23.2.12), with its modifiers."""
        found: list[int] = []
        self._type(found, 0)
        return tuple(found)

    def _type(self, found: list[int], depth: int) -> None:
        if depth > DEEPEST:
            raise Damaged("a type in a signature is nested too deep")
        code = self.byte()
        found.append(code)
        if code in PLAIN:
            if code == SENTINEL:
                self._type(found, depth + 1)
        elif code in (CLASS, VALUE_TYPE):
            found.append(self.type_of(self.count()))
        elif code in BEFORE_ANOTHER:
            self._type(found, depth + 1)
        elif code in MODIFIERS:
            found.append(self.type_of(self.count()))
            self._type(found, depth + 1)
        elif code in (OF_TYPE, OF_METHOD):
            found.append(self.count())
        else:
            self._compound(found, code, depth + 1)

    def _compound(self, found: list[int], code: int, depth: int) -> None:
        if code == INSTANCE:
            self._type(found, depth)
            count = self.count()
            found.append(count)
            for _ in self.counted(count):
                self._type(found, depth)
        elif code == ARRAY:
            self._type(found, depth)
            self._shape(found)
        elif code == FUNCTION:
            convention = self.byte()
            generics = self.count() if convention & GENERIC else 0
            parameters = self.count()
            found += (convention, generics, parameters)
            for _ in self.counted(parameters + 1):
                self._type(found, depth)
        else:
            raise Damaged(f"{code:02x} is no type of a signature")

    def _shape(self, found: list[int]) -> None:
        """The rank of an array, and what is said of its sizes and lower bounds (II.23.2.13)."""
        found.append(self.count())
        sizes = self.count()
        found += (sizes, *(self.count() for _ in self.counted(sizes)))
        bounds = self.count()
        found.append(bounds)
        for _ in self.counted(bounds):
            bound = signed(self.data, self.at)
            if bound is None:
                raise Damaged("a signature has no number where one must be")
            found.append(bound[0])
            self.at = bound[1]
