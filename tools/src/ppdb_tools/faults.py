"""A sentence for each fault that `ppdb` reports (docs/FORMAT.md, "Faults"), and what to do about it."""
import re

FAULTS = {
    1: "this is no Portable PDB: it does not begin with BSJB",
    2: "this is a Windows PDB, the format of older compilers: build with -debug:portable, or convert it, for example with Pdb2Pdb",
    3: "a field passes the end of the file: the file is cut off",
    4: "the name of a stream is empty, is not ASCII, or does not end",
    5: "a stream has a name that no debug file has; files of Edit and Continue have such streams: build the whole module again",
    6: "two streams have the same name",
    7: "a stream passes the end of the file: the file is cut off, or the header of the stream is wrong",
    8: "the stream #Pdb or #~ is missing: this is metadata, but not that of a debug file",
    9: "the stream #Pdb ends inside a field",
    10: "the stream #Pdb counts rows of a table that no module has",
    11: "the stream #Pdb says that a table has more than 16777215 rows",
    12: "the entry point is no method of the module",
    13: "the stream #~ ends inside a field before its tables",
    14: "the sizes of heaps have a bit that no heap has",
    15: "the stream #~ has a table that no debug file has",
    16: "a table has more than 16777215 rows",
    17: "the rows of a table pass the end of the stream #~",
    18: "the table of sequence points does not have a row for each method",
    19: "a name is not in the heap of texts",
    20: "a blob is not in the heap of blobs",
    21: "a GUID is not in its heap, or a custom record has no kind",
    22: "a row is named that its table does not have",
    23: "the parent of a custom record is in no table",
    24: "a document has no name",
    25: "two documents have the same name",
    26: "scopes are not in the order of their methods, starts and lengths",
    27: "a scope is empty, or ends at 2147483648 or later",
    28: "two scopes of a method overlap, and neither contains the other",
    29: "the list of variables or constants of a scope is wrong",
    30: "two variables of a scope have the same slot",
    31: "two variables, or two constants, of a scope have the same name",
    32: "the parents of an import scope never end",
    33: "state machines are not in the order of their MoveNext methods",
    34: "two state machines have the same kickoff method",
    35: "custom records are not in the order of their parents",
    36: "a custom record is on a row that its kind cannot be on",
    37: "a blob ends inside a field, or before a field that it must have",
    38: "a compressed number begins with a byte of e0 or more",
    39: "a field of a blob is not allowed there, or bytes follow the last field",
    40: "the names and blobs that rows refer to have more than 268435456 bytes in total",
}
# What to do about faults of known writers, by the fault and its table.
ADVICE = {
    (29, "32"): "the compiler of F# writes it so, and `ppdb-tools repair` mends it",
    (39, "31"): "the compiler of F# writes it so, and `ppdb-tools repair` mends it",
    (39, "34"): "Mono.Cecil writes nulls so, and `ppdb-tools repair` mends most of them",
}
FAULT = re.compile(r"F(\d{1,2})\b(?: table ([0-9a-f]{2}))?")


def code_of(fault: str) -> str:
    """The code of a fault with its place, as `ppdb` prints it: F39 of `F39 table 31 row 1 column 1 byte 0`."""
    found = FAULT.match(fault)
    return f"F{found[1]}" if found else ""


def sentence(fault: str) -> str:
    """What a fault means, and what to do about it if its writer is known; empty if it is no fault."""
    found = FAULT.match(fault)
    if not found or int(found[1]) not in FAULTS:
        return ""
    advice = ADVICE.get((int(found[1]), found[2] or ""))
    return FAULTS[int(found[1])] + (f" ({advice})" if advice else "")
