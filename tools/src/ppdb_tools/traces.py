"""The frames of stack traces of .NET and Mono that carry offsets of IL. Whoever caused an exception chose its message, and so lines of
the trace: each line is read once from its left to its right."""
import re
from pathlib import PureWindowsPath
from typing import NamedTuple

# After `METHOD (PARAMETERS)` in a frame of Mono: the offset, and the identity of the module. A module that was compiled ahead of time
# has a second identity after `#`.
MONO_END = re.compile(r"\) \[0x([0-9a-f]{1,8})\] in <([0-9a-f]{32})(?:#[0-9a-f]{1,64})?>:0 ?", re.I)
# In a frame of .NET: the token and the offset. What is before is the module.
DOTNET_END = re.compile(r"\.(?:dll|exe):token 0x([0-9a-f]{1,8})\+0x([0-9a-f]{1,8})(?![0-9a-f])", re.I)
# A GUID directly after a frame, or the key of a symbol server that is made of it.
IDENTITY = re.compile(r"[^\w]{0,8}\b([0-9a-f]{8})-?([0-9a-f]{4})-?([0-9a-f]{4})-?([0-9a-f]{4})-?([0-9a-f]{12})(?:f{8})?\b", re.I)
# Ends of frames that a debug file cannot answer, with the reason.
NO_OFFSET = (
    (re.compile(r"\) <0x[0-9a-f]{1,16} \+ 0x[0-9a-f]{1,16}>", re.I), "it has an offset in machine code only"),
    (re.compile(r"\) \[0x[0-9a-f]{1,8}\] in <filename unknown>:0", re.I), "it does not name its module"),
    (re.compile(r":token 0x[0-9a-f]{1,8}\+0x[0-9a-f]{1,8}", re.I), "its module is no file"),
    (re.compile(r"\) \+ 0x[0-9a-f]{1,16}$|\) \+\d{1,9}$", re.I), "it has an offset in machine code only"),
)
METHOD_TABLE = 0x06


class Frame(NamedTuple):
    """A frame: what is before and after its place, its module by name (.NET) or by identity, its method by token or by name (Mono),
    and its offset."""
    start: str
    rest: str
    offset: int
    module: str
    identity: str
    token: int
    method: str
    parameters: str

    @property
    def is_mono(self) -> bool:
        return not self.module

    def with_line(self, document: str, line: int) -> str:
        """The frame with its line, as the runtime prints it."""
        return f"{self.start} in {document}:{line} {self.rest}" if self.is_mono else f"{self.start} in {document}:line {line}{self.rest}"


def frame_of(text: str) -> Frame | None:
    """The frame of a line, None if it has no offset in a module that it names."""
    if "] in <" in text:
        return mono_frame(text) or dotnet_frame(text)
    return dotnet_frame(text) if "oken 0x" in text else None


def mono_frame(text: str) -> Frame | None:
    """`at TYPE.METHOD (PARAMETERS) [0xOFFSET] in <MVID>:0`."""
    begin = len(text) - len(text.lstrip())
    if not text.startswith("at ", begin):
        return None
    opened = text.find(" (", begin + 3)
    if opened < 0 or any(letter.isspace() for letter in text[begin + 3:opened]):
        return None
    found = MONO_END.search(text, opened)
    if not found:
        return None
    offset, identity = found.groups()
    return Frame(text[:found.start() + 1], text[found.end():], int(offset, 16), "", identity.lower(), 0, text[begin + 3:opened],
                 text[opened + 2:found.start()])


def dotnet_frame(text: str) -> Frame | None:
    """`.. in PATH.dll:token 0xTOKEN+0xOFFSET`, and an identity that may follow."""
    places = list(DOTNET_END.finditer(text))
    if not places:
        return None
    found = places[-1]
    begin = text.find(") in ", 0, found.start())
    if begin < 0 or begin + 5 == found.start():
        return None
    rest = text[found.end():]
    named = IDENTITY.match(rest)
    name = PureWindowsPath(text[begin + 5:found.start()]).name
    return Frame(text[:begin + 1], rest, int(found[2], 16), name, "".join(named.groups()).lower() if named else "", int(found[1], 16), "", "") \
        if name else None


def no_offset(text: str) -> str | None:
    """Why a line that looks like a frame has no place in a debug file, None if it does not look like one."""
    if ")" not in text:
        return None
    return next((why for pattern, why in NO_OFFSET if pattern.search(text)), None)
