"""The groups that other scripts run: the case files, the examples of the documents, and the tests of the tools."""
import os
import re
import subprocess
import sys
from pathlib import Path

from result import ROOT, Result

LAST = re.compile(r"(\d+) passed, (\d+) failed(?:, (\d+) skipped)?$")


def by_script(result: Result, *words: str | Path, **more: str) -> None:
    """Runs a script whose last line counts what passed, failed and was skipped."""
    ended = subprocess.run(words, stdout=subprocess.PIPE, text=True, check=False, env={**os.environ, **more})
    lines = ended.stdout.splitlines() or [""]
    found = LAST.search(lines[-1])
    if not found or bool(ended.returncode) != (found[2] != "0"):
        result.fail(str(words[0]), f"status {ended.returncode}, {lines[-1]}")
        return
    passed, failed, skipped = (int(count or 0) for count in found.groups())
    result.passed, result.failed, result.skipped = result.passed + passed, result.failed + failed, result.skipped + skipped
    result.notes += [line.split(": ", 1)[-1] for line in lines[:-1] if ": skipped" in line]


def is_older(program: Path) -> bool:
    """Whether this is the released program, and the sources are newer."""
    of_sources, released, _ = subprocess.run([ROOT / "scripts/making/look"], stdout=subprocess.PIPE, text=True, check=True).stdout.split()
    return program == (ROOT / "release/ppdb").resolve() and of_sources != released


def cases(program: Path, result: Result) -> None:
    """A program of these sources is asked all cases, also those of the version that it is about to have."""
    by_script(result, ROOT / "scripts/checks/check-cases", *(() if is_older(program) else ("--version", "999.0")), program)


def examples(program: Path, result: Result) -> None:
    by_script(result, sys.executable, ROOT / "scripts/checks/run-examples", ROOT, program)


def tools(program: Path, result: Result) -> None:
    """The tests of tools/, by unittest."""
    if not (ROOT / "tools/tests").is_dir():
        return
    ended = subprocess.run([sys.executable, "-B", "-m", "unittest", "discover", "-s", "tools/tests"], cwd=ROOT, text=True, check=False,
                           stderr=subprocess.PIPE, stdout=subprocess.DEVNULL, env={**os.environ, "PPDB": str(program)})
    ran = re.search(r"^Ran (\d+) test", ended.stderr, re.M)
    counts = {word: int(count) for word, count in re.findall(r"(failures|errors|skipped)=(\d+)", ended.stderr.splitlines()[-1] if ran else "")}
    failed = counts.get("failures", 0) + counts.get("errors", 0)
    if not ran or bool(ended.returncode) != bool(failed):
        result.fail("tools/tests", f"status {ended.returncode}: {ended.stderr[-800:]}")
        return
    if failed:
        print(ended.stderr, file=sys.stderr)
    result.passed += int(ran[1]) - failed - counts.get("skipped", 0)
    result.failed, result.skipped = result.failed + failed, result.skipped + counts.get("skipped", 0)
