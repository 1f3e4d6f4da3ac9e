"""Asks the prover which tactics close a place: each lemma is copied beside itself with a probe there, {! TACTIC !}, which a check that
lets goals open answers, and only the copies are checked."""
import re
import subprocess
from collections.abc import Iterable, Iterator
from contextlib import contextmanager
from pathlib import Path
from typing import NamedTuple

from .lemmas import Kind, items, read_lines, write_lines
from .places import Place, with_tactic

# A call that takes more steps is refused as a probe, so that what is written is found soon; a search that ends below is the same without the bound.
STEPS = 150_000
NEEDED = (("arith", "Rattle.std.proofs.Common"), ("rules", "Rattle.std.proofs.Common"), ("common_steps", "Rattle.std.proofs.lemmas.Grind"))
PROBED = re.compile(r"`(\S+-probe(\d+)x(\d+))`")
MESSAGE = re.compile(r"\S+:\d+:\d+: (.*)$")
REFUSED = re.compile(r"does not fit|not judged|undetermined|not determined|was not|broke off|limit")


class Found(NamedTuple):
    """A place of a file, and the first tactic that closes it."""

    path: Path
    place: Place
    tactic: str


def check(crate: Path, *flags: str) -> tuple[int, str]:
    """Checks the crate over what earlier checks kept, and answers the status and all that was said."""
    done = subprocess.run(["rt", "check", *flags], cwd=crate, stdout=subprocess.PIPE, stderr=subprocess.STDOUT, text=True, check=False)
    return done.returncode, done.stdout


def missing_imports(lines: list[str]) -> list[str]:
    """The lines that import what the tactics are made of, where the file does not."""
    text = "\n".join(" ".join(it.lines.of(lines)) for it in items(lines) if it.kind is Kind.IMPORT)
    return [f"use {module}.{{{name}}}" for name, module in NEEDED if not re.search(r"[{,\s.]" + name + r"[},\s]", text)]


def first_item(lines: list[str]) -> int:
    """Where imports may stand: before the first that is there, or the first item."""
    return next((it.lines.first for it in items(lines) if it.kind not in (Kind.BLANK, Kind.COMMENT, Kind.MODULE)), 0)


class Reach(NamedTuple):
    """How a check comes to the lemmas of a crate: by all of its functions, or by the answers of one, which import them as long as it runs."""

    crate: Path
    function: str | None = None

    @contextmanager
    def flags(self, paths: Iterable[Path]) -> Iterator[list[str]]:
        """The flags of a check that reads these files of lemmas."""
        if self.function is None:
            yield []
            return
        answers = self.crate / "proofs" / self.function / "Answers.antt"
        before = answers.read_text(encoding="utf-8")
        lines = before.split("\n")
        at = first_item(lines)
        modules = [".".join(it.relative_to(self.crate / "proofs").with_suffix("").parts) for it in paths if it.name != "Answers.antt"]
        lines[at:at] = [f"use Rattle.{self.crate.name}.proofs.{it} as read{number}" for number, it in enumerate(modules)]
        write_lines(answers, lines)
        try:
            yield ["--only", self.function.replace("/", "::")]
        finally:
            answers.write_text(before, encoding="utf-8")


def declaring_file(crate: Path, path: Path) -> Path | None:
    """The file whose `mod` line declares the module of a file."""
    line = re.compile(r"^(?:pub )?mod " + re.escape(path.stem) + "$", re.MULTILINE)
    for it in (crate / "proofs").rglob("*.antt"):
        home = it.parent if it.name == "Lib.antt" else it.with_suffix("")
        if home == path.parent and line.search(it.read_text(encoding="utf-8")):
            return it
    return None


def bounded(tactic: str) -> str:
    """The tactic with few steps."""
    return f"{tactic} steps {STEPS}" if tactic.startswith("search ") else tactic


def probes_of(lines: list[str], number: int, place: Place) -> list[str]:
    """Copies of the lemma, one a tactic."""
    lemma = place.lemma
    start = " " * lemma.indent
    signature = start + lemma.signature.text(lines)[lemma.indent + len(lemma.visibility):]
    found: list[str] = []
    for at, tactic in enumerate(place.tactics):
        name = f"{lemma.name}-probe{number}x{at}"
        clauses = [start + name + it[lemma.indent + len(lemma.name):] for it in with_tactic(lines, place, "{! " + bounded(tactic) + " !}")]
        found += ["", signature.replace(lemma.name, name, 1), *(lemma.unfolding.of(lines) if lemma.unfolding else []), *clauses]
    return found


def with_probes(lines: list[str], numbered: list[tuple[int, Place]]) -> list[str]:
    """The file with the copies of each lemma behind it."""
    behind: dict[int, list[str]] = {}
    for number, place in numbered:
        behind.setdefault(place.lemma.end, []).extend(probes_of(lines, number, place))
    first = first_item(lines)
    found = lines[:first] + missing_imports(lines)
    for at in range(first, len(lines) + 1):
        found += behind.get(at, []) + lines[at:at + 1]
    return found


def fitting(said: str) -> dict[int, int]:
    """The first tactic that closes each place, by their numbers, as the check said it."""
    verdicts: dict[tuple[int, int], bool] = {}
    now: tuple[int, int] | None = None
    for line in said.split("\n"):
        message = MESSAGE.match(line)
        if message:
            named = PROBED.search(message[1])
            now = (int(named[2]), int(named[3])) if named else None
            if now and message[1].startswith("goal"):
                verdicts.setdefault(now, True)
            elif now and "has-holes" not in message[1]:
                verdicts[now] = False
        elif now and not line.startswith("    ") and REFUSED.search(line):
            verdicts[now] = False
    first: dict[int, int] = {}
    for number, tactic in sorted(it for it, fits in verdicts.items() if fits):
        first.setdefault(number, tactic)
    return first


class Probing:
    """Files of a crate as they are while probes stand in them or beside them; at the end each is as it was."""

    def __init__(self, crate: Path) -> None:
        self.crate = crate
        self.made: list[Path] = []
        self.kept: dict[Path, str] = {}

    def __enter__(self) -> "Probing":
        return self

    def __exit__(self, *_: object) -> None:
        for path in self.made:
            path.unlink(missing_ok=True)
        for path, text in self.kept.items():
            path.write_text(text, encoding="utf-8")

    def keep(self, path: Path) -> None:
        self.kept.setdefault(path, path.read_text(encoding="utf-8"))

    def add(self, path: Path, numbered: list[tuple[int, Place]]) -> Path | None:
        """Puts the probes beside a file of lemmas, or into one of answers, and answers where they stand."""
        probed = with_probes(read_lines(path), numbered)
        if path.name == "Answers.antt":
            self.keep(path)
            write_lines(path, probed)
            return path
        declaring = declaring_file(self.crate, path)
        if declaring is None:
            return None
        self.keep(declaring)
        copy = path.with_name(path.stem + "Probe.antt")
        self.made.append(copy)
        write_lines(copy, probed)
        with declaring.open("a", encoding="utf-8") as file:
            file.write(f"mod {copy.stem}\n")
        return copy


def probe(reach: Reach, work: dict[Path, list[Place]]) -> list[Found]:
    """Which places of these files a tactic closes. Raises RuntimeError where the check does not come to the probes."""
    numbered = [(path, place) for path, places in work.items() for place in places]
    with Probing(reach.crate) as probing:
        added = [probing.add(path, [(number, place) for number, (of, place) in enumerate(numbered) if of == path]) for path in work]
        with reach.flags(it for it in added if it) as flags:
            _, said = check(reach.crate, "--allow-holes", *flags)
    first = fitting(said)
    if numbered and "-probe" not in said:
        raise RuntimeError(f"the check of {reach.crate.name} came to no probe:\n{said[-2000:]}")
    return [Found(*numbered[number], numbered[number][1].tactics[tactic]) for number, tactic in first.items()]
