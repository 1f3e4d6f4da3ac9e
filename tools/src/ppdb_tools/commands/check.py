"""Checks the debug files of a build. Each FILE is a debug file, or an assembly with a debug file in it or beside it; below a FOLDER all files
that end with .pdb, .dll or .exe are checked, where files without .NET and assemblies without a debug file are left out. Links that lead
out of the FOLDER are not followed.

A debug file must keep the rules of the format (`ppdb verify`: F1 to F40). The debug file of an assembly must have the PDB ID that its
CodeView entry names. Each document must have a URL by Source Link, an embedded source that has its hash, or a file with its hash below
a folder of --source; --format-only leaves the sources out.

A line of the allow list is RULE FILE [DOCUMENT]: RULE is F39 or a name such as no-source, * is all; FILE and DOCUMENT are patterns with *
and ? for names as ppdb prints them, and what is after # is ignored. `--format lines` prints for each FILE the status of `ppdb verify`,
FILE, and the line that it printed, with tabs between them, asks for no more than that, and does not look into folders.

The exit status is 0 if nothing is found, 1 if something is, and 3 if a file could not be read, or there is none."""
import argparse
import os
from collections import deque
from collections.abc import Callable, Iterable, Iterator
from concurrent.futures import Future, ThreadPoolExecutor
from typing import TypeVar

from ppdb_tools import program
from ppdb_tools.checking import READ, Allowed, Checker, Finding, Report
from ppdb_tools.errors import Status, Stop
from ppdb_tools.inputs import read
from ppdb_tools.names import escaped, shown
from ppdb_tools.output import Progress, put_line, warn
from ppdb_tools.reports import FORMATS
from ppdb_tools.targets import Target, Targets

DOES = "check the debug files of a build, and that their sources can be found"
EXAMPLE = "ppdb-tools check bin/Release --source . --format annotations"
MOST_JOBS = 64
Item = TypeVar("Item")
Result = TypeVar("Result")


def words(parser: argparse.ArgumentParser) -> None:
    parser.add_argument("names", metavar="FILE", nargs="+", help="a debug file, an assembly or a folder")
    parser.add_argument("--source", action="append", default=[], metavar="FOLDER", help="where sources are; may be repeated")
    parser.add_argument("--format-only", action="store_true", help="ask only for the rules of the format, and for PDB IDs")
    parser.add_argument("--format", choices=[*FORMATS, "lines"], default="text", help="what is printed; by default text")
    parser.add_argument("--allow", metavar="LIST", help="a list of findings that are known")
    parser.add_argument("--jobs", type=int, metavar="N", help="how many files are checked at once")


def in_order(work: Callable[[Item], Result], items: Iterable[Item], jobs: int) -> Iterator[Result]:
    """The results of items in their order, of which some are worked on at once and few wait."""
    if jobs == 1:
        yield from map(work, items)
        return
    waiting: deque[Future[Result]] = deque()
    with ThreadPoolExecutor(jobs) as pool:
        try:
            for item in items:
                waiting.append(pool.submit(work, item))
                if len(waiting) > 4 * jobs:
                    yield waiting.popleft().result()
            while waiting:
                yield waiting.popleft().result()
        finally:
            for left in waiting:
                left.cancel()


def jobs_of(said: argparse.Namespace) -> int:
    """How many files are checked at once: one for each processor, but one alone for lines, which other programs run side by side."""
    if said.jobs is not None:
        if not 1 <= said.jobs <= MOST_JOBS:
            raise Stop(f"--jobs is a number from 1 to {MOST_JOBS}", Status.WORDS)
        return int(said.jobs)
    return 1 if said.format == "lines" else min(os.cpu_count() or 1, MOST_JOBS)


def put_lines(names: list[str], jobs: int) -> int:
    """Prints a line for each file, at once, so that an interrupted run leaves whole lines."""
    are_accepted, progress = True, Progress("files", len(names))
    for name, answer in zip(names, in_order(lambda name: program.by_name("verify", name), names, jobs)):
        put_line(answer.status, escaped(name), answer.line)
        are_accepted &= answer.status == 0
        progress.step(name)
    progress.end()
    return Status.DONE if are_accepted else Status.FOUND


def allowed(name: str | None) -> Allowed:
    """The allow list."""
    try:
        return Allowed(name or "", read(name).decode("utf-8", "replace") if name else "")
    except ValueError as wrong:
        raise Stop(f"{shown(name or '')}: line {wrong} is not RULE FILE [DOCUMENT]", Status.WORDS) from wrong


class Count:
    """What all reports together say."""

    def __init__(self) -> None:
        self.files = self.wrong = self.allowed = self.left_out = 0
        self.is_unread = False

    def take(self, report: Report, known: int) -> None:
        self.files += not report.is_left_out
        self.left_out += report.is_left_out
        self.wrong += bool(report.findings)
        self.allowed += known
        self.is_unread |= any(finding.rule == READ for finding in report.findings)

    @property
    def summary(self) -> str:
        more = [f"{count} {what}" for count, what in ((self.allowed, "findings allowed"), (self.left_out, "assemblies without debug file left out")) if count]
        return ", ".join([f"{self.files} files, {self.wrong} with findings", *more])

    @property
    def status(self) -> Status:
        return Status.INPUT if self.is_unread or not self.files and not self.wrong else Status.FOUND if self.wrong else Status.DONE


def reports(said: argparse.Namespace, targets: Targets) -> Iterator[Report]:
    """The reports of all files, in their order, and of the folders that could not be listed."""
    found = list(targets)
    checker = Checker(said.source, said.format_only, {os.path.normpath(target.name) for target in found})
    progress = Progress("files", len(found))

    def check(target: Target) -> Report:
        return checker.check(*target)
    for report in in_order(check, found, jobs_of(said)):
        progress.step(report.name)
        yield report
    progress.end()
    yield from (Report(name, [Finding(READ, why)]) for name, why in targets.unread)


def run(said: argparse.Namespace) -> int:
    if said.format == "lines":
        return put_lines(said.names, jobs_of(said))
    program.program()
    known, targets, count, form = allowed(said.allow), Targets(said.names), Count(), FORMATS[said.format]()
    form.begin()
    for report in reports(said, targets):
        kept = [finding for finding in report.findings if not known.allows(escaped(report.name), finding)]
        count.take(report._replace(findings=kept), len(report.findings) - len(kept))
        form.report(report._replace(findings=kept))
    form.end(count.summary)
    for line in known.unused:
        warn("check", f"{shown(known.name)}: line {line} allows nothing that was found")
    if targets.left_out:
        warn("check", f"{targets.left_out} links that lead out of their folder were left out")
    if not count.files:
        warn("check", "there is no debug file")
    return count.status
