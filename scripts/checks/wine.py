"""A Windows of Wine, for scripts/checks/check-targets and hostile/windows-writes."""
from __future__ import annotations

import os
import subprocess
from contextlib import contextmanager
from pathlib import Path
from typing import Iterator

PATIENCE = 3600


@contextmanager
def wine(folder: Path) -> Iterator[None]:
    """A Windows in a folder, whose server stays. Debian's ends with its last process and starts again with the next, hundreds of times in these
    runs; one of 2826 once printed nothing on a busy machine, and most likely began while the server ended. The services of this Windows keep the
    standard error of the program that starts them, so that is none of which somebody waits for the end."""
    os.environ.update({"WINEPREFIX": str(folder), "WINEDEBUG": "-all", "WINEDLLOVERRIDES": "mscoree=;mshtml=", "DISPLAY": ""})
    quiet = {"stdout": subprocess.DEVNULL, "stderr": subprocess.DEVNULL, "timeout": PATIENCE}
    for words in (["wine", "wineboot", "-i"], ["wineserver", "-w"], ["wineserver", "-p"], ["wine", "cmd", "/c", "exit"]):
        subprocess.run(words, **quiet)
    try:
        yield
    finally:
        subprocess.run(["wineserver", "-k"], **quiet)
