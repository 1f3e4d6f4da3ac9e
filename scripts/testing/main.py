"""Runs the groups of tests with a program: main.py PROGRAM [GROUP].. (scripts/test)."""
import os
import subprocess
import sys
import time
from collections.abc import Callable
from concurrent.futures import ProcessPoolExecutor
from pathlib import Path

ROOT = Path(__file__).resolve().parents[2]
sys.path.insert(0, str(ROOT / "scripts"))
import others  # noqa: E402
import readers  # noqa: E402
from kept import kept  # noqa: E402
from result import Result  # noqa: E402

GROUPS: dict[str, Callable[[Path, Result], None]] = {
    "cases": others.cases, "examples": others.examples, "show": readers.show, "verify": readers.verify, "rebuild": readers.rebuild,
    "remap": readers.remap, "kept": kept, "tools": others.tools}


def run(name: str, program: Path) -> tuple[Result, float]:
    begun, result = time.monotonic(), Result()
    GROUPS[name](program, result)
    return result, time.monotonic() - begun


def main(program: Path, names: list[str]) -> int:
    wrong = [name for name in names if name not in GROUPS]
    if wrong:
        print(f"test: there is no group {wrong[0]}; the groups are {', '.join(GROUPS)}", file=sys.stderr)
        return 2
    version = subprocess.run([program, "--version"], stdout=subprocess.PIPE, text=True, check=True).stdout.strip()
    print(f"program: {program.relative_to(ROOT) if program.is_relative_to(ROOT) else program}, {version}", flush=True)
    results = []
    with ProcessPoolExecutor(len(os.sched_getaffinity(0))) as pool:
        # The longest group begins first.
        begun = {name: pool.submit(run, name, program) for name in sorted(names or GROUPS, key=lambda name: name != "tools")}
        for name in names or GROUPS:
            result, seconds = begun[name].result()
            results.append(result)
            if result != Result():
                print("; ".join([f"{name}: {result}, {seconds:.1f} s", *result.notes]), flush=True)
    total = Result(*(sum(getattr(result, count) for result in results) for count in ("passed", "failed", "skipped")))
    if total.passed == 0:
        total.fail("make test", "nothing was tested")
    print(total)
    return 1 if total.failed else 0


if __name__ == "__main__":
    sys.exit(main(Path(sys.argv[1]).resolve(), sys.argv[2:]))
