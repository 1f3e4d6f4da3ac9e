"""What ends a subcommand, and the exit status that says so. A message names the thing and what is wrong with it, in one line."""
from enum import IntEnum


class Status(IntEnum):
    """The exit statuses of `ppdb-tools`."""
    DONE = 0
    # The work is done, and found something: a file that is refused, a difference, a frame without a line.
    FOUND = 1
    # The words are wrong, or there is no command ppdb.
    WORDS = 2
    # An input could not be read: it is not there, is damaged, or is too long.
    INPUT = 3
    # The output could not be written.
    OUTPUT = 4


class Stop(Exception):
    """Ends a subcommand with a message on standard error and a status."""

    def __init__(self, why: str, status: Status = Status.INPUT) -> None:
        super().__init__(why)
        self.status = status


class Damaged(Exception):
    """Bytes that are not what they should be. The message says what is wrong, and at which byte."""


class NoAssembly(Damaged):
    """The bytes are no PE file, or have no header of .NET."""
