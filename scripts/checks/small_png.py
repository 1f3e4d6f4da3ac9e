"""Pictures of at most 256 colours, so that those of the documents stay small (PNG, ISO/IEC 15948)."""
import struct
import zlib
from collections import Counter
from collections.abc import Iterator

SIGNATURE = b"\x89PNG\r\n\x1a\n"
COLOURS = 256


def chunks(data: bytes) -> Iterator[tuple[bytes, bytes]]:
    at = len(SIGNATURE)
    while at < len(data):
        size, = struct.unpack_from(">I", data, at)
        yield data[at + 4:at + 8], data[at + 8:at + 8 + size]
        at += 12 + size


def chunk(kind: bytes, data: bytes) -> bytes:
    return struct.pack(">I", len(data)) + kind + data + struct.pack(">I", zlib.crc32(kind + data))


def paeth(left: int, above: int, corner: int) -> int:
    """Of three bytes the nearest to left + above - corner."""
    to_left, to_above, to_corner = abs(above - corner), abs(left - corner), abs(left + above - 2 * corner)
    return left if to_left <= to_above and to_left <= to_corner else above if to_above <= to_corner else corner


def unfiltered(kind: int, line: bytearray, above: bytes, step: int) -> bytes:
    """The bytes of a line, by those before it and above it."""
    for at in range(len(line)):
        left, corner = (line[at - step], above[at - step]) if at >= step else (0, 0)
        if kind == 1:
            line[at] = line[at] + left & 0xFF
        elif kind == 2:
            line[at] = line[at] + above[at] & 0xFF
        elif kind == 3:
            line[at] = line[at] + (left + above[at]) // 2 & 0xFF
        elif kind == 4:
            line[at] = line[at] + paeth(left, above[at], corner) & 0xFF
    return bytes(line)


def pixels(data: bytes) -> tuple[int, int, list[bytes]]:
    """The width, the height and the pixels of a picture of three or four bytes each, without the fourth."""
    parts = list(chunks(data))
    width, height, depth, colour, _, _, interlace = struct.unpack(">IIBBBBB", parts[0][1])
    if (depth, interlace) != (8, 0) or colour not in (2, 6):
        raise ValueError("the picture has another form")
    step = 3 if colour == 2 else 4
    raw, above, found = zlib.decompress(b"".join(part for kind, part in parts if kind == b"IDAT")), bytes(width * step), []
    for first in range(0, len(raw), width * step + 1):
        above = unfiltered(raw[first], bytearray(raw[first + 1:first + 1 + width * step]), above, step)
        found += [above[at:at + 3] for at in range(0, len(above), step)]
    return width, height, found


def palette(counts: Counter) -> tuple[list[bytes], dict[bytes, int]]:
    """The most common colours, of those that are nearly alike one, and which of them each colour becomes."""
    alike: dict[bytes, Counter] = {}
    for colour, count in counts.items():
        alike.setdefault(bytes(part >> 3 for part in colour), Counter())[colour] += count
    groups = sorted(alike.values(), key=lambda group: (-group.total(), min(group)))
    kept = [max(group, key=lambda colour: (group[colour], colour)) for group in groups[:COLOURS]]
    index = {colour: number for number, group in enumerate(groups[:COLOURS]) for colour in group}
    for group in groups[COLOURS:]:
        for colour in group:
            index[colour] = min(range(len(kept)), key=lambda number: sum((one - other) ** 2 for one, other in zip(kept[number], colour)))
    return kept, index


def small(data: bytes) -> bytes:
    """The picture with at most 256 colours."""
    width, height, found = pixels(data)
    kept, index = palette(Counter(found))
    lines = b"".join(b"\0" + bytes(index[colour] for colour in found[first:first + width]) for first in range(0, len(found), width))
    return SIGNATURE + chunk(b"IHDR", struct.pack(">IIBBBBB", width, height, 8, 3, 0, 0, 0)) + chunk(b"PLTE", b"".join(kept)) + \
        chunk(b"IDAT", zlib.compress(lines, 9)) + chunk(b"IEND", b"")
