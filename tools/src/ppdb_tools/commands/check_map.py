"""Judges a map by the modules before and after a rewrite, whoever wrote it: `ppdb` reads no modules, so it takes a map that is wrong.

For each method with code that the map keeps it compares the old and the new body, joined by the map and not by names: each kept instruction
must do the same at its new place, each branch lead to the same place, each local have its type and its uses, and the local signature be that
of the new method. Rows must be those of the same names, and methods that the map drops be gone.

It prints a line for each thing that is wrong, with a tab between the method or row and what is wrong; then how many methods were compared,
how many of OLD are not in NEW by the map, and how many are new. What a tool changed on purpose is printed too, for example another constant.
The exit status is 1 if something is wrong, or if no method was compared."""
import argparse

from ppdb_tools.commands.map import mapper_of
from ppdb_tools.errors import Damaged, Status, Stop
from ppdb_tools.inputs import read
from ppdb_tools.mapping import read_map
from ppdb_tools.match.check import Checker
from ppdb_tools.names import printable, shown
from ppdb_tools.output import Lines

DOES = "judge a map by the modules before and after a rewrite"
EXAMPLE = "ppdb-tools check-map old/App.dll new/App.dll new/App.dll.map"


def words(parser: argparse.ArgumentParser) -> None:
    parser.add_argument("old", metavar="OLD", help="the module before")
    parser.add_argument("new", metavar="NEW", help="the module after")
    parser.add_argument("map", metavar="MAP", help="the map")
    parser.add_argument("--with", metavar="OLD", dest="others", action="append", default=[],
                        help="another module that became part of NEW, to find what OLD names in it")


def run(said: argparse.Namespace) -> int:
    try:
        given = read_map(read(said.map), shown(said.map))
    except Damaged as damaged:
        raise Stop(str(damaged)) from damaged
    verdict = Checker(mapper_of([said.old, *said.others], said.new), given).check()
    out = Lines()
    for wrong in verdict.wrong:
        out.add(f"{printable(wrong.subject)}\t{printable(wrong.text)}")
    out.add(f"{verdict.compared} compared, {verdict.dropped} of {shown(said.old)} are not in {shown(said.new)}, {verdict.added} are new, "
            f"{len(verdict.wrong)} wrong")
    out.write()
    return Status.FOUND if verdict.wrong or not verdict.compared else Status.DONE
