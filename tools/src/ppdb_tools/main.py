"""The command `ppdb-tools`: which subcommand its words ask for, and how it ends."""
import argparse
import importlib
import os
import signal
import sys
from collections.abc import Sequence
from types import ModuleType

from ppdb_tools import __version__
from ppdb_tools.errors import Damaged, Status, Stop
from ppdb_tools.output import warn

# Each subcommand is the module of its name in ppdb_tools.commands, with DOES, EXAMPLE, words(parser) and run(said).
SUBCOMMANDS = ("check", "diff", "stats", "sources", "extract", "stacktrace", "frames", "store", "page", "repair", "stack-maps", "map", "check-map")
STATUSES = """exit status: 0 done and nothing found; 1 done, and something found; 2 the words are wrong, or there is no command ppdb;
3 an input could not be read; 4 the output could not be written"""


class Form(argparse.RawDescriptionHelpFormatter):
    """Keeps the lines of descriptions and examples as they are written."""


def module(name: str) -> ModuleType:
    """The module of a subcommand."""
    return importlib.import_module(f"ppdb_tools.commands.{name.replace('-', '_')}")


def parser_of(name: str) -> argparse.ArgumentParser:
    """The words of a subcommand."""
    found = module(name)
    parser = argparse.ArgumentParser(prog=f"ppdb-tools {name}", formatter_class=Form, allow_abbrev=False, description=found.__doc__,
                                     epilog=f"example:\n  {found.EXAMPLE}\n\n{STATUSES}")
    found.words(parser)
    return parser


def overview() -> str:
    """What `ppdb-tools help` prints."""
    width = max(map(len, SUBCOMMANDS))
    lines = [f"  {name.ljust(width)}  {module(name).DOES}" for name in SUBCOMMANDS]
    return "\n".join(["usage: ppdb-tools SUBCOMMAND ..", "", "Tools for Portable PDB files and the assemblies that they belong to.", "", *lines, "",
                      "`ppdb-tools help SUBCOMMAND` says more of one.", "", STATUSES, ""])


def asked(words: Sequence[str]) -> int:
    """Does what the words ask for."""
    first = words[0] if words else "help"
    if first in ("help", "--help", "-h"):
        if len(words) > 1 and words[1] in SUBCOMMANDS:
            sys.stdout.write(parser_of(words[1]).format_help())
        else:
            sys.stdout.write(overview())
        return Status.DONE if words else Status.WORDS
    if first == "--version":
        print(f"ppdb-tools {__version__}")
        return Status.DONE
    if first not in SUBCOMMANDS:
        raise Stop(f'there is no subcommand "{first}"; ppdb-tools help lists them', Status.WORDS)
    status: int = module(first).run(parser_of(first).parse_args(words[1:]))
    return status


def run(words: Sequence[str] | None = None) -> int:
    """Runs a subcommand, and returns the exit status."""
    if words is None:
        words = sys.argv[1:]
        # A reader that closes the pipe early ends the run, as it ends other tools.
        signal.signal(signal.SIGPIPE, signal.SIG_DFL)
    name = words[0] if words and words[0] in SUBCOMMANDS else ""
    try:
        return int(asked(words))
    except Stop as stop:
        warn(name, str(stop))
        return int(stop.status)
    except Damaged as damaged:
        warn(name, str(damaged))
        return int(Status.INPUT)
    except SystemExit as left:
        return int(left.code or 0)
    except KeyboardInterrupt:
        return 130
    except BrokenPipeError:
        os.dup2(os.open(os.devnull, os.O_WRONLY), 1)
        return int(Status.OUTPUT)
