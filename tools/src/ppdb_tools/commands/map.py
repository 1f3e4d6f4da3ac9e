"""Writes the map of a rewrite, from the modules before and after it: for tools of which one has not the source, and for libraries that
write no map. It compares the types, members and instructions of both: operands by what they name, branches by where they lead, long and
short forms alike, locals by their use. `ppdb remap` then moves the debug file of OLD.

It writes NEW.map, or with several OLD, which became one module, NEW.1.map, NEW.2.map and so on, in their order, for `ppdb merge`.
It never guesses: what has several possible partners, or was replaced by something like it, is left out of the map, and named in a line
with tabs between OLD, the method, and what is not decided. The last line for each OLD says how much is kept.

The exit status is 1 if something is left out; the map is written, and does not say it. With --explain it writes no map: it prints the
methods of that name, or the method of that row, with both bodies side by side: = between instructions that are the same, - after one that
is gone, + before one that is new, ? after one that is not decided, with the reason."""
import argparse

from ppdb_tools.errors import Damaged, Status, Stop
from ppdb_tools.inputs import read
from ppdb_tools.mapping import NEWEST
from ppdb_tools.match.bodies import prepared
from ppdb_tools.match.compare import compare
from ppdb_tools.match.explain import side_by_side
from ppdb_tools.match.maps import Mapper, Result
from ppdb_tools.match.module import Module
from ppdb_tools.names import printable, shown
from ppdb_tools.output import Lines, put, warn
from ppdb_tools.outputs import write_over

DOES = "write the map of a rewrite from the modules before and after it"
EXAMPLE = "ppdb-tools map old/App.dll new/App.dll && ppdb remap old/App.pdb new/App.dll.map new/App.pdb --keep-id"


def words(parser: argparse.ArgumentParser) -> None:
    parser.add_argument("modules", metavar="OLD", nargs="+", help="the modules before, and without --into the one after")
    parser.add_argument("--into", metavar="NEW", help="the module that all OLD became")
    parser.add_argument("--output", metavar="MAP", help="write this map, with several OLD MAP.1, MAP.2 and so on; - is the standard output")
    parser.add_argument("--explain", metavar="METHOD", help="print both bodies of a method: TYPE::NAME, NAME, or its row in OLD")


def module_of(name: str) -> Module:
    """The module of a file."""
    try:
        return Module(read(name), name)
    except Damaged as damaged:
        raise Stop(f"{shown(name)}: {damaged}") from damaged


def mapper_of(olds: list[str], new: str) -> Mapper:
    """The modules of these files, matched."""
    try:
        return Mapper([module_of(name) for name in olds], module_of(new))
    except RecursionError:
        raise Stop(f"{shown(new)}: types are nested too deep in it or in the modules before") from None


def run(said: argparse.Namespace) -> int:
    olds, new = (said.modules, said.into) if said.into else (said.modules[:-1], said.modules[-1])
    if not olds or not said.into and len(olds) != 1:
        raise Stop("OLD and NEW are required; with several OLD, --into NEW", Status.WORDS)
    if said.output == "-" and len(olds) > 1:
        raise Stop("the maps of several OLD are files: name one", Status.WORDS)
    mapper = mapper_of(olds, new)
    if said.explain is not None:
        return explain(mapper, said.explain)
    out = Lines()
    is_undecided = False
    for index, result in enumerate(mapper.results(), 1):
        text = "".join(f"{line}\n" for line in result.map.text(NEWEST))
        if said.output == "-":
            put(text)
        else:
            write_over(place(said.output, new, index if len(olds) > 1 else 0), text.encode("ascii"))
        is_undecided |= bool(result.findings)
        report(result, out, said.output == "-")
    out.write()
    return Status.FOUND if is_undecided else Status.DONE


def place(output: str | None, new: str, number: int) -> str:
    """The file of a map."""
    if output is None:
        return f"{new}.{number}.map" if number else f"{new}.map"
    return f"{output}.{number}" if number else output


def report(result: Result, out: Lines, is_aside: bool) -> None:
    """Says what a map leaves out, and how much it keeps."""
    name, counts = shown(result.module.name), result.counts
    lines = [f"{name}\t{printable(finding.title)}\t{finding.text}" for finding in result.findings]
    lines.append(f"{name}\tkept\t{counts.matched} of {counts.methods} methods, {counts.kept} of {counts.instructions} instructions; "
                 f"not decided: {counts.undecided} methods, {counts.unsure} instructions")
    for line in lines:
        if is_aside:
            warn("map", line.replace("\t", ": "))
        else:
            out.add(line)


def explain(mapper: Mapper, wanted: str) -> int:
    """Prints the bodies of the methods of a name or a row."""
    out, found = Lines(), 0
    for key, each in enumerate(mapper.inputs):
        mapper.find_homes(key)
        for row in range(1, len(each.methods)):
            name = each.module.title(row).rpartition(" (method ")[0]
            if wanted not in (str(row), name, name.rpartition("::")[2]):
                continue
            found += 1
            image = mapper.home(each, row)
            out.add(f"{shown(each.module.name)}: {printable(each.module.title(row))}")
            if not image:
                out.add(f"it has no method in {shown(mapper.new.name)}{f': it {each.unsure[row]}' if row in each.unsure else ''}")
                continue
            out.add(f"{shown(mapper.new.name)}: {printable(mapper.new.title(image))}")
            old, new = prepared(mapper.old_names[key], row), prepared(mapper.new_names, image)
            for line in side_by_side(old, new, compare(old, new)) if old and new else ("one of them has no code that can be read",):
                out.add(printable(line))
    out.write()
    if not found:
        raise Stop(f"no method is named {shown(wanted)}, and none has this row", Status.WORDS)
    return Status.DONE
