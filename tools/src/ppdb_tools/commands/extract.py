"""Writes the debug file that is embedded in an assembly. It is found by the debug directory alone, and its PDB ID must be that of the
assembly's CodeView entry: an assembly may carry another assembly with a debug file of its own, as a resource. Without OUT it is
ASSEMBLY's name with .pdb, in the current folder, where no file of that name may be yet.

The exit status is 1 if there is no embedded debug file, and 3 if it is damaged or has another PDB ID; nothing is written then."""
import argparse
from pathlib import Path

from ppdb_tools.debug_files import check_identity, identity
from ppdb_tools.errors import Damaged, Status, Stop
from ppdb_tools.inputs import Input
from ppdb_tools.names import shown
from ppdb_tools.output import warn
from ppdb_tools.outputs import write_new, write_over
from ppdb_tools.pe import Image

DOES = "write the debug file that is embedded in an assembly"
EXAMPLE = "ppdb-tools extract App.dll App.pdb"


def words(parser: argparse.ArgumentParser) -> None:
    parser.add_argument("assembly", metavar="ASSEMBLY")
    parser.add_argument("out", metavar="OUT", nargs="?")
    parser.add_argument("--any-id", action="store_true", help="write it also if its PDB ID is not that of the CodeView entry")


def run(said: argparse.Namespace) -> int:
    with Input.open(said.assembly) as file:
        try:
            image = Image(file.read())
            found = image.embedded()
            if found is None:
                raise Stop(f"{shown(said.assembly)}: it has no embedded debug file", Status.FOUND)
            if not said.any_id and not check_identity(image, identity(Input.of(said.assembly, found))):
                warn("extract", f"{shown(said.assembly)}: no CodeView entry has a PDB ID to compare with")
        except Damaged as damaged:
            raise Stop(f"{shown(said.assembly)}: {damaged}") from damaged
    if said.out is None:
        write_new(Path(Path(said.assembly).name).with_suffix(".pdb"), found)
    else:
        write_over(said.out, found)
    return Status.DONE
