"""What a group of tests comes to, and how it runs the program."""
import subprocess
import sys
from dataclasses import dataclass, field
from pathlib import Path

ROOT = Path(__file__).resolve().parents[2]
CORPUS = ROOT / "corpus"
SECONDS = 60
Answer = tuple[int, bytes]


@dataclass
class Result:
    passed: int = 0
    failed: int = 0
    skipped: int = 0
    # What a group leaves out, and why.
    notes: list[str] = field(default_factory=list)

    def expect(self, what: str, got: object, want: object) -> bool:
        """Whether something is as it must be. What differs is printed."""
        if got == want:
            self.passed += 1
            return True
        self.fail(what, f"{got!r:.400}, wanted {want!r:.400}")
        return False

    def fail(self, what: str, why: str) -> None:
        self.failed += 1
        print(f"test: {what}: {why}", file=sys.stderr)

    def __str__(self) -> str:
        return f"{self.passed} passed, {self.failed} failed" + (f", {self.skipped} skipped" if self.skipped else "")


def answer(program: Path, *words: str | Path, cwd: Path) -> Answer:
    """The exit status of the program and what it prints."""
    ended = subprocess.run([program, *words], cwd=cwd, stdin=subprocess.DEVNULL, stdout=subprocess.PIPE, stderr=subprocess.DEVNULL,
                           timeout=SECONDS, check=False)
    return ended.returncode, ended.stdout


def corpus() -> list[Path]:
    return sorted(CORPUS.glob("*.pdb"))
