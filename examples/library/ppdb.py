"""libppdb from Python, by ctypes, over bytes: a module to copy. It requires only the shared object, which the variable PPDB_LIBRARY
names; otherwise the system looks for libppdb.so.1. A call without an answer raises Failed with its status, for example 5: out of memory."""
import os
from collections.abc import Iterable, Sequence
from ctypes import CDLL, CFUNCTYPE, POINTER, Structure, byref, c_char_p, c_size_t, c_uint8, c_uint32, create_string_buffer


def struct(name: str, **fields: type) -> type[Structure]:
    return type(name, (Structure,), {"_fields_": list(fields.items())})


Fault = struct("Fault", row=c_uint32, byte=c_uint32, code=c_uint8, part=c_uint8, table=c_uint8, column=c_uint8)
Piece = struct("Piece", start=c_size_t, name_length=c_size_t, length=c_size_t)
Frame = struct("Frame", method=c_uint32, offset=c_uint32)
Line = struct("Line", kind=c_uint32, document=c_uint32, offset=c_uint32, start_line=c_uint32, start_column=c_uint32, end_line=c_uint32,
              end_column=c_uint32)
LIBRARY = CDLL(os.environ.get("PPDB_LIBRARY", "libppdb.so.1"))
BYTES, SIZE = (c_char_p, c_size_t), POINTER(c_size_t)
version = CFUNCTYPE(c_uint32)(("ppdb_version", LIBRARY))
ppdb_verify = CFUNCTYPE(c_uint8, *BYTES, POINTER(Fault))(("ppdb_verify", LIBRARY))
ppdb_run = CFUNCTYPE(c_uint8, *BYTES, *BYTES, POINTER(Piece), c_size_t, *BYTES, SIZE, *BYTES, SIZE)(("ppdb_run", LIBRARY))
ppdb_lines = CFUNCTYPE(c_uint8, *BYTES, POINTER(Frame), c_size_t, POINTER(Line), c_size_t)(("ppdb_lines", LIBRARY))


class Failed(Exception):
    pass


def verify(file: bytes) -> Fault | None:
    """The first fault of a file, or None if it is accepted."""
    fault = Fault()
    status = ppdb_verify(file, len(file), byref(fault))
    if status > 1:
        raise Failed(status)
    return fault if status else None


def run(words: Iterable[str], files: dict[str, bytes]) -> tuple[int, bytes, bytes]:
    """The status, the text and the new file of a command over files by their names."""
    spelled, pieces, joined = b"".join(word.encode() + b"\0" for word in words), (Piece * len(files))(), bytearray()
    for at, (name, file) in enumerate((name.encode(), file) for name, file in files.items()):
        pieces[at] = Piece(len(joined), len(name), len(file))
        joined += name + file
    rooms, needed = (0, 0), (c_size_t(), c_size_t())
    while True:
        text, made = (create_string_buffer(room + 1) for room in rooms)
        status = ppdb_run(spelled, len(spelled), bytes(joined), len(joined), pieces, len(files), text, rooms[0], byref(needed[0]), made,
                          rooms[1], byref(needed[1]))
        lengths = tuple(length.value for length in needed)
        if lengths == rooms:
            return status, text.raw[:-1], made.raw[:-1]
        rooms = lengths


def lines(file: bytes, frames: Sequence[tuple[int, int]]) -> list[Line]:
    """The line of each frame: a method's row and an IL offset."""
    found = (Line * len(frames))()
    if status := ppdb_lines(file, len(file), (Frame * len(frames))(*frames), len(frames), found, len(frames)):
        raise Failed(status)
    return list(found)
