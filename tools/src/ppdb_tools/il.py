"""The code of methods: their headers, exception clauses and instructions (ECMA-335 II.25.4 and III). Instructions that say the same in
a long and a short form are read as one: `ldloc.0`, `ldloc.s 0` and `ldloc 0` as `ldloc` with the operand 0, `br.s` as `br`."""
import struct
from enum import IntEnum
from typing import Any, NamedTuple

from ppdb_tools.errors import Damaged
from ppdb_tools.numbers import Data, number, piece
from ppdb_tools.pe import Image

# Each opcode: its number, its name, the letter of its operand, how many values it pops and pushes (? by what it calls, * all of them), and
# the way that control takes: n on, b elsewhere, r back, t to a handler (III.1.2.1, III.3, III.4).
OPCODES = """
00:nop:-00n 01:break:-00n 02:ldarg.0:-01n 03:ldarg.1:-01n 04:ldarg.2:-01n 05:ldarg.3:-01n 06:ldloc.0:-01n 07:ldloc.1:-01n 08:ldloc.2:-01n
09:ldloc.3:-01n 0a:stloc.0:-10n 0b:stloc.1:-10n 0c:stloc.2:-10n 0d:stloc.3:-10n 0e:ldarg.s:a01n 0f:ldarga.s:a01n 10:starg.s:a10n 11:ldloc.s:v01n
12:ldloca.s:v01n 13:stloc.s:v10n 14:ldnull:-01n 15:ldc.i4.m1:-01n 16:ldc.i4.0:-01n 17:ldc.i4.1:-01n 18:ldc.i4.2:-01n 19:ldc.i4.3:-01n 1a:ldc.i4.4:-01n
1b:ldc.i4.5:-01n 1c:ldc.i4.6:-01n 1d:ldc.i4.7:-01n 1e:ldc.i4.8:-01n 1f:ldc.i4.s:i01n 20:ldc.i4:I01n 21:ldc.i8:L01n 22:ldc.r4:F01n 23:ldc.r8:D01n
25:dup:-12n 26:pop:-10n 27:jmp:T00n 28:call:T??n 29:calli:T??n 2a:ret:-?0r 2b:br.s:b00b 2c:brfalse.s:b10n 2d:brtrue.s:b10n 2e:beq.s:b20n 2f:bge.s:b20n
30:bgt.s:b20n 31:ble.s:b20n 32:blt.s:b20n 33:bne.un.s:b20n 34:bge.un.s:b20n 35:bgt.un.s:b20n 36:ble.un.s:b20n 37:blt.un.s:b20n 38:br:B00b
39:brfalse:B10n 3a:brtrue:B10n 3b:beq:B20n 3c:bge:B20n 3d:bgt:B20n 3e:ble:B20n 3f:blt:B20n 40:bne.un:B20n 41:bge.un:B20n 42:bgt.un:B20n 43:ble.un:B20n
44:blt.un:B20n 45:switch:S10n 46:ldind.i1:-11n 47:ldind.u1:-11n 48:ldind.i2:-11n 49:ldind.u2:-11n 4a:ldind.i4:-11n 4b:ldind.u4:-11n 4c:ldind.i8:-11n
4d:ldind.i:-11n 4e:ldind.r4:-11n 4f:ldind.r8:-11n 50:ldind.ref:-11n 51:stind.ref:-20n 52:stind.i1:-20n 53:stind.i2:-20n 54:stind.i4:-20n
55:stind.i8:-20n 56:stind.r4:-20n 57:stind.r8:-20n 58:add:-21n 59:sub:-21n 5a:mul:-21n 5b:div:-21n 5c:div.un:-21n 5d:rem:-21n 5e:rem.un:-21n
5f:and:-21n 60:or:-21n 61:xor:-21n 62:shl:-21n 63:shr:-21n 64:shr.un:-21n 65:neg:-11n 66:not:-11n 67:conv.i1:-11n 68:conv.i2:-11n 69:conv.i4:-11n
6a:conv.i8:-11n 6b:conv.r4:-11n 6c:conv.r8:-11n 6d:conv.u4:-11n 6e:conv.u8:-11n 6f:callvirt:T??n 70:cpobj:T20n 71:ldobj:T11n 72:ldstr:U01n
73:newobj:T?1n 74:castclass:T11n 75:isinst:T11n 76:conv.r.un:-11n 79:unbox:T11n 7a:throw:-10t 7b:ldfld:T11n 7c:ldflda:T11n 7d:stfld:T20n
7e:ldsfld:T01n 7f:ldsflda:T01n 80:stsfld:T10n 81:stobj:T20n 82:conv.ovf.i1.un:-11n 83:conv.ovf.i2.un:-11n 84:conv.ovf.i4.un:-11n
85:conv.ovf.i8.un:-11n 86:conv.ovf.u1.un:-11n 87:conv.ovf.u2.un:-11n 88:conv.ovf.u4.un:-11n 89:conv.ovf.u8.un:-11n 8a:conv.ovf.i.un:-11n
8b:conv.ovf.u.un:-11n 8c:box:T11n 8d:newarr:T11n 8e:ldlen:-11n 8f:ldelema:T21n 90:ldelem.i1:-21n 91:ldelem.u1:-21n 92:ldelem.i2:-21n 93:ldelem.u2:-21n
94:ldelem.i4:-21n 95:ldelem.u4:-21n 96:ldelem.i8:-21n 97:ldelem.i:-21n 98:ldelem.r4:-21n 99:ldelem.r8:-21n 9a:ldelem.ref:-21n 9b:stelem.i:-30n
9c:stelem.i1:-30n 9d:stelem.i2:-30n 9e:stelem.i4:-30n 9f:stelem.i8:-30n a0:stelem.r4:-30n a1:stelem.r8:-30n a2:stelem.ref:-30n a3:ldelem.any:T21n
a4:stelem.any:T30n a5:unbox.any:T11n b3:conv.ovf.i1:-11n b4:conv.ovf.u1:-11n b5:conv.ovf.i2:-11n b6:conv.ovf.u2:-11n b7:conv.ovf.i4:-11n
b8:conv.ovf.u4:-11n b9:conv.ovf.i8:-11n ba:conv.ovf.u8:-11n c2:refanyval:T11n c3:ckfinite:-11n c6:mkrefany:T11n d0:ldtoken:T01n d1:conv.u2:-11n
d2:conv.u1:-11n d3:conv.i:-11n d4:conv.ovf.i:-11n d5:conv.ovf.u:-11n d6:add.ovf:-21n d7:add.ovf.un:-21n d8:mul.ovf:-21n d9:mul.ovf.un:-21n
da:sub.ovf:-21n db:sub.ovf.un:-21n dc:endfinally:-00r dd:leave:B*0b de:leave.s:b*0b df:stind.i:-20n e0:conv.u:-11n fe00:arglist:-01n fe01:ceq:-21n
fe02:cgt:-21n fe03:cgt.un:-21n fe04:clt:-21n fe05:clt.un:-21n fe06:ldftn:T01n fe07:ldvirtftn:T11n fe09:ldarg:A01n fe0a:ldarga:A01n fe0b:starg:A10n
fe0c:ldloc:V01n fe0d:ldloca:V01n fe0e:stloc:V10n fe0f:localloc:-11n fe11:endfilter:-10r fe12:unaligned.:i00n fe13:volatile.:-00n fe14:tail.:-00n
fe15:initobj:T10n fe16:constrained.:T00n fe17:cpblk:-30n fe18:initblk:-30n fe19:no.:i00n fe1a:rethrow:-00t fe1c:sizeof:T01n fe1d:refanytype:-11n
fe1e:readonly.:-00n
"""
# The sizes of operands by their letters; a switch has more (III.1.2).
SIZES = {"-": 0, "A": 2, "a": 1, "V": 2, "v": 1, "B": 4, "b": 1, "S": 4, "I": 4, "i": 1, "L": 8, "D": 8, "F": 4, "U": 4, "T": 4}
# The numbers of short forms after the last dot of a name; `br.s` and `leave.s` have no number.
SHORT = {"s": None, "m1": -1, **{str(count): count for count in range(9)}}


class Kind(IntEnum):
    """What the operand of an instruction is."""
    NONE = 0
    LOCAL = 1
    ARGUMENT = 2
    NUMBER = 3
    TOKEN = 4
    STRING = 5
    BRANCH = 6
    SWITCH = 7


# Numbers that are compared for each instruction.
BRANCH, SWITCH = int(Kind.BRANCH), int(Kind.SWITCH)
KINDS = {"-": Kind.NONE, "A": Kind.ARGUMENT, "a": Kind.ARGUMENT, "V": Kind.LOCAL, "v": Kind.LOCAL, "B": Kind.BRANCH, "b": Kind.BRANCH,
         "S": Kind.SWITCH, "I": Kind.NUMBER, "i": Kind.NUMBER, "L": Kind.NUMBER, "D": Kind.NUMBER, "F": Kind.NUMBER, "U": Kind.STRING,
         "T": Kind.TOKEN}


class Operation(NamedTuple):
    """What an instruction does, whatever the form of its operand. `pops` and `pushes` are below 0 if they are not fixed."""
    name: str
    kind: Kind
    pops: int
    pushes: int
    flow: str


class Form(NamedTuple):
    """An opcode: the number of its operation, the operand's kind and size and, for a form without one, its value."""
    operation: int
    kind: int
    size: int
    value: int
    is_signed: bool


OPERATIONS: list[Operation] = []
# The opcodes of one byte, and those after the byte fe.
ONE: list[Form | None] = [None] * 256
TWO: list[Form | None] = [None] * 256
BY_NAME: dict[str, int] = {}


def split_form(name: str) -> tuple[str, int | None]:
    """The name of the operation of an opcode, and the operand that is in the name."""
    before, dot, last = name.rpartition(".")
    is_short = dot and last in SHORT and before.split(".")[0] in ("ldarg", "ldloc", "stloc", "ldc") or last == "s"
    return (before, SHORT[last]) if is_short else (name, None)


def add_opcode(word: str) -> None:
    """Reads a word of OPCODES."""
    digits, name, rest = word.split(":")
    operation, value = split_form(name)
    letter, pops, pushes, flow = tuple(rest)
    kind = KINDS[letter]
    if value is not None:
        kind = {"ldarg": Kind.ARGUMENT, "ldc.i4": Kind.NUMBER}.get(operation, Kind.LOCAL)
    if operation not in BY_NAME:
        BY_NAME[operation] = len(OPERATIONS)
        taken, given = (int(count) if count.isdigit() else -1 for count in (pops, pushes))
        OPERATIONS.append(Operation(operation, kind, taken, given, flow))
    form = Form(BY_NAME[operation], int(kind), SIZES[letter], value or 0, letter in "Ii")
    number_of = int(digits, 16)
    (TWO if number_of > 0xFF else ONE)[number_of & 0xFF] = form


for each in OPCODES.split():
    add_opcode(each)


class Clause(NamedTuple):
    """An exception clause: its kind (0 catch, 1 filter, 2 finally, 4 fault), its ranges, and a token or the start of its filter."""
    kind: int
    try_start: int
    try_end: int
    start: int
    end: int
    operand: int


class Body(NamedTuple):
    """A method's body: its IL, the row of its local signature (0 for none), and its exception clauses."""
    code: bytes
    signature: int
    clauses: tuple[Clause, ...]


class Code(NamedTuple):
    """Instructions: where each begins, its operation and its operand. The last offset is the end of the code; a branch has the offset to
    which it leads, a switch a tuple of them."""
    offsets: list[int]
    operations: list[int]
    operands: list[Any]


TINY, FAT, MORE = 2, 3, 8
MOST_CLAUSES = 0x10000


def body_at(image: Image, address: int) -> Body:
    """The body at an address (II.25.4)."""
    start = image.place(address, 1, "a method")
    data = image.data
    first = data[start]
    if first & 3 == TINY:
        return Body(piece(data, start + 1, first >> 2, "the code of a method"), 0, ())
    if first & 3 != FAT:
        raise Damaged(f"the header of the method at byte {start} is neither tiny nor fat")
    flags, _, size, token = struct.unpack("<HHII", piece(data, start, 12, "the header of a method"))
    at = start + (flags >> 12) * 4
    code = piece(data, at, size, "the code of a method")
    clauses = tuple(clauses_at(data, at + size + 3 & ~3)) if flags & MORE else ()
    return Body(code, token & 0xFFFFFF if token >> 24 == 0x11 else 0, clauses)


def clauses_at(data: Data, at: int) -> list[Clause]:
    """The clauses of the sections of data after the code (II.25.4.5)."""
    found: list[Clause] = []
    while True:
        kind = number(data, at, 1, "a section of a method")
        is_fat = kind & 0x40
        size = number(data, at + 1, 3 if is_fat else 1, "a section of a method")
        each = struct.Struct("<IIIIII" if is_fat else "<HHBHBI")
        if kind & 1 and size >= 4:
            rows = each.iter_unpack(piece(data, at + 4, (size - 4) // each.size * each.size, "the clauses of a method"))
            found += [Clause(flags & 7, start, start + length, handler, handler + held, operand)
                      for flags, start, length, handler, held, operand in rows]
        if not kind & 0x80 or size < 4 or len(found) > MOST_CLAUSES:
            return found
        at += size + 3 & ~3


def decode(code: bytes) -> Code:
    """The instructions of a body. Damaged says that the code is none: an unknown opcode, or one that ends too early."""
    offsets: list[int] = []
    operations: list[int] = []
    operands: list[Any] = []
    value: Any
    at, end = 0, len(code)
    try:
        while at < end:
            offsets.append(at)
            form = ONE[code[at]]
            at += 1
            if form is None:
                form = TWO[code[at]] if code[at - 1] == 0xFE else None
                at += 1
                if form is None:
                    raise Damaged(f"the bytes at IL offset {offsets[-1]} are no instruction")
            operation, kind, size, value, is_signed = form
            operations.append(operation)
            after = at + size
            if size:
                if after > end:
                    raise Damaged(f"the code ends in the instruction at IL offset {offsets[-1]}")
                value = int.from_bytes(code[at:after], "little", signed=is_signed or kind >= BRANCH)
                if kind == BRANCH:
                    value += after
                elif kind == SWITCH:
                    value, after = switch(code, after, value)
            at = after
            operands.append(value)
    except IndexError:
        raise Damaged(f"the code ends in the instruction at IL offset {offsets[-1]}") from None
    offsets.append(end)
    return Code(offsets, operations, operands)


def switch(code: bytes, at: int, count: int) -> tuple[tuple[int, ...], int]:
    """The offsets to which a switch leads, and where it ends."""
    after = at + 4 * count
    if count < 0 or after > len(code):
        raise Damaged(f"the code ends in the switch before IL offset {at}")
    return tuple(after + step for step in struct.unpack_from(f"<{count}i", code, at)), after
