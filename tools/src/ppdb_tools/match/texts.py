"""What a token names, for readers: types, members and the types of parameters, which tell overloads apart."""
from collections.abc import Iterator

from ppdb_tools import metadata as tables
from ppdb_tools.errors import Damaged
from ppdb_tools.match.module import Module
from ppdb_tools.match.signatures import ARRAY, CLASS, FUNCTION, INSTANCE, MODIFIERS, OF_METHOD, OF_TYPE, VALUE_TYPE, Reader
from ppdb_tools.metadata import METHOD_SPEC, decoded

# The types that are a code alone (II.23.1.16), and what follows the name of the type to which a code belongs.
PLAIN = dict(enumerate("void bool char int8 uint8 int16 uint16 int32 uint32 int64 uint64 float32 float64 string".split(), 1))
PLAIN |= {0x16: "typedref", 0x18: "native int", 0x19: "native uint", 0x1C: "object"}
AFTER = {0x0F: "*", 0x10: "&", 0x1D: "[]", 0x41: "", 0x45: ""}


def name_of(module: Module, token: int) -> str:
    """What a token names."""
    try:
        return _name(module, token >> 24, token & 0xFFFFFF)
    except (Damaged, IndexError, StopIteration):
        return f"{token:08x}"


def _name(module: Module, table: int, row: int) -> str:
    if table == tables.TYPE_DEF:
        return module.type_names[row]
    if table == tables.TYPE_REF:
        where, whole = module.reference_names[row]
        return f"[{where}]{whole}" if where else whole
    if table == tables.TYPE_SPEC:
        return _type(module, iter(Reader(module.metadata.blob(module.metadata.row(table, row)[0]), int).type()))
    if table == tables.METHOD_DEF:
        return f"{module.type_names[module.owner[row]]}::{module.method_name(row)}{_parameters(module, module.methods[row][4])}"
    if table == tables.FIELD:
        return f"{module.type_names[module.field_owner[row]]}::{module.field_name(row)}"
    if table == tables.MEMBER_REF:
        parent, name, signature = module.metadata.row(table, row)
        above, of = decoded("MemberRefParent", parent)
        return f"{_name(module, above, of)}::{module.text(name)}{_parameters(module, signature)}"
    if table == METHOD_SPEC:
        above, of = decoded("MethodDefOrRef", module.metadata.row(table, row)[0])
        return f"{_name(module, above, of)}<>" if above != METHOD_SPEC else "?"
    return f"{table:02x}{row:06x}"


def _parameters(module: Module, at: int) -> str:
    """The types of the parameters of a method; nothing for a field."""
    data = module.metadata.blob(at)
    if data[:1] == b"\x06":
        return ""
    return f"({', '.join(_type(module, iter(each)) for each in Reader(data, int).method().parameters)})"


def _type(module: Module, codes: Iterator[int]) -> str:
    """A type of a signature whose types are coded rows."""
    code = next(codes)
    if code in PLAIN:
        return PLAIN[code]
    if code in AFTER:
        return _type(module, codes) + AFTER[code]
    if code in (CLASS, VALUE_TYPE):
        table, row = decoded("TypeDefOrRef", next(codes))
        return _name(module, table, row).rpartition("]")[2] if table != tables.TYPE_SPEC else f"{table:02x}{row:06x}"
    if code in MODIFIERS:
        next(codes)
        return _type(module, codes)
    if code in (OF_TYPE, OF_METHOD):
        return f"{'!' * (1 + (code == OF_METHOD))}{next(codes)}"
    if code == INSTANCE:
        head = _type(module, codes)
        return f"{head}<{', '.join(_type(module, codes) for _ in range(next(codes)))}>"
    if code == ARRAY:
        element, rank = _type(module, codes), next(codes)
        for _ in range(2):
            for _ in range(next(codes)):
                next(codes)
        return f"{element}[{',' * (rank - 1)}]"
    if code == FUNCTION:
        next(codes), next(codes)
        returned, *parameters = [_type(module, codes) for _ in range(next(codes) + 1)]
        return f"{returned} *({', '.join(parameters)})"
    return f"{code:02x}"
