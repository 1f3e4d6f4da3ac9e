"""Names as they are printed. Whoever made a file chose the names in it, so no byte of a name may end a line, move the cursor, colour a
terminal, or turn the order of letters."""
import os
import re
import unicodedata

# What `ppdb` prints for a byte outside 21 to 7e and for the backslash, and for the empty name.
ESCAPE = re.compile(rb"\\x([0-9a-f]{2})|\\-")
# Characters without a form of their own: controls, marks of direction and other formats, surrogates, unassigned ones, ends of lines.
FORMLESS = {"Cc", "Cf", "Cs", "Cn", "Co", "Zl", "Zp"}


def escaped(name: bytes | str) -> str:
    """A name as `ppdb` prints it, for machines: in ASCII, without a space, and `unescaped` gives the bytes again."""
    data = os.fsencode(name) if isinstance(name, str) else name
    return "".join(chr(byte) if 0x21 <= byte <= 0x7E and byte != 0x5C else f"\\x{byte:02x}" for byte in data) or r"\-"


def unescaped(name: str) -> bytes:
    """The bytes of a name that `ppdb` printed."""
    return ESCAPE.sub(lambda found: bytes.fromhex((found[1] or b"").decode()), name.encode("utf-8", "surrogateescape"))


def text_of(name: str) -> str:
    """The text of a name that `ppdb` printed. Bytes that are not UTF-8 stay as surrogates, as Python reads names of files."""
    return unescaped(name).decode("utf-8", "surrogateescape")


def printable(text: str) -> str:
    """A text for people: letters of all scripts and spaces as they are; every character without a form of its own is `\\x` and two
    hexadecimal digits for each of its bytes in UTF-8."""
    if text.isascii() and text.isprintable():
        return text
    return "".join(letter if is_plain(letter) else hexadecimal(letter) for letter in text)


def is_plain(letter: str) -> bool:
    """Whether a character is printed as it is."""
    return unicodedata.category(letter) not in FORMLESS


def hexadecimal(letter: str) -> str:
    """The escape of a character."""
    return "".join(f"\\x{byte:02x}" for byte in letter.encode("utf-8", "surrogateescape"))


def shown(name: str | os.PathLike[str]) -> str:
    """The name of a file for people."""
    return printable(os.fsdecode(name))
