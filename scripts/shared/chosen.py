"""The program that ./ppdb runs (scripts/making/program), for checks, attacks and measurements."""
import subprocess
import sys
from pathlib import Path

FINDER = Path(__file__).resolve().parents[1] / "making/program"


def chosen() -> Path:
    """Where the program is. A script that has none ends with status 70; why is said on standard error."""
    found = subprocess.run([FINDER, "--quiet"], stdout=subprocess.PIPE, text=True, check=False)
    if found.returncode:
        sys.exit(70)
    return Path(found.stdout.strip())


PROGRAM = chosen()
