"""The lines that `show` prints of a valid file (FORMAT, 7)."""
from collections.abc import Iterator
from uuid import UUID

from .blobs import Import, Point
from .values import Value


def escaped(name: bytes) -> str:
    return "".join(chr(byte) if 0x21 <= byte <= 0x7E and byte != 0x5C else f"\\x{byte:02x}" for byte in name) or r"\-"


def digits(blob: bytes) -> str:
    return blob.hex() or "-"


def guid(item: bytes | None) -> str:
    return "-" if item is None else str(UUID(bytes_le=item))


def point_line(point: Point) -> str:
    head = f"point {point.offset} {point.document}"
    if point.span is None:
        return f"{head} hidden"
    start_line, start_column, end_line, end_column = point.span
    return f"{head} {start_line}:{start_column} {end_line}:{end_column}"


def use_line(use: Import) -> str:
    words = [f"use {use.kind}"]
    if use.alias is not None:
        words.append(f"alias {escaped(use.alias)}")
    if use.assembly is not None:
        words.append(f"assembly {use.assembly}")
    if use.namespace is not None:
        words.append(f"namespace {escaped(use.namespace)}")
    if use.type is not None:
        words.append(f"type {use.type[0]:02x} {use.type[1]}")
    return " ".join(words)


def lines(value: Value) -> Iterator[str]:
    yield f"id {value.id.hex()}"
    yield f"entry {0x06000000 + value.entry if value.entry else 0:08x}"
    yield from (f"rows {table:02x} {value.counts[table]}" for table in sorted(value.counts))
    for row, document in enumerate(value.documents, 1):
        yield (f"document {row} algorithm {guid(document.algorithm)} hash {digits(document.hash)} language {guid(document.language)} "
               f"name {escaped(document.name)}")
    for row, method in value.methods.items():
        yield f"method {row} signature {method.signature}"
        yield from map(point_line, method.points)
    for scope in value.scopes:
        yield f"scope {scope.row} method {scope.method} import {scope.imports} range {scope.start} {scope.end}"
    for scope in value.scopes:
        for variable in scope.variables:
            yield (f"variable {variable.row} scope {scope.row} slot {variable.slot} attributes {variable.attributes} "
                   f"name {escaped(variable.name)}")
    for scope in value.scopes:
        for constant in scope.constants:
            yield f"constant {constant.row} scope {scope.row} signature {digits(constant.blob)} name {escaped(constant.name)}"
    for row, imports in enumerate(value.imports, 1):
        yield f"import {row} parent {imports.parent}"
        yield from map(use_line, imports.imports)
    yield from (f"machine {row} move {move} kickoff {kickoff}" for row, (move, kickoff) in enumerate(value.machines, 1))
    for row, custom in enumerate(value.customs, 1):
        yield f"custom {row} parent {custom.table:02x} {custom.parent} kind {guid(custom.kind)} value {digits(custom.value)}"


def shown(value: Value) -> bytes:
    return "".join(f"{line}\n" for line in lines(value)).encode("ascii")
