"""The LLVM modules that `rattle build` makes of proved crates. It hands a module to the clang of its toolchain folder and keeps none, so it
gets a folder whose clang first copies what it is to compile."""
from __future__ import annotations

import os
import shutil
import subprocess
from dataclasses import dataclass
from pathlib import Path

ROOT = Path(__file__).resolve().parents[2]
CRATES = {"program": "ppdb_cli", "library": "ppdb_library"}
# The first processor of each target, whose code every other one runs.
PROCESSORS = {"x86_64-unknown-linux-gnu": "x86-64", "aarch64-unknown-linux-gnu": "generic"}
# How clang is told what to read, to write and to write for: all other words are how it optimizes.
PLACES = ("--target=", "--sysroot=", "-march=")

CLANG = """#!/usr/bin/env bash
# Copies the module that it is to compile, and the words, and is then the toolchain's own clang.
for word in "$@"; do case $word in *.bc) cp "$word" '{to}/module.bc' && printf '%s\\n' "$@" >'{to}/words' ;; esac; done
exec -a "${{0##*/}}" '{clang}' "$@"
"""


class Failed(Exception):
    """A tool failed; the text says which, and what it printed."""


@dataclass(frozen=True)
class Module:
    """A module for Linux on x86-64 and what clang was told of it; `object` is what the toolchain itself made for its target."""
    path: Path
    flags: tuple[str, ...]
    object: Path
    verdict: str


def kit() -> Path:
    """The folder of the toolchain."""
    told = subprocess.run(["rt", "doc"], capture_output=True, text=True, check=True).stdout
    return Path(told.strip()).parent


def optimizing(words: list[str]) -> tuple[str, ...]:
    """The words of a clang that only say how it optimizes."""
    left, rest = [], iter(words)
    for word in rest:
        if word in ("-x", "-o"):
            next(rest)
        elif word != "-c" and not word.startswith(PLACES) and not word.endswith(".bc"):
            left.append(word)
    return tuple(left)


def keeping_toolchain(folder: Path, kept: Path) -> Path:
    """A toolchain folder that keeps in `kept` the module that it compiles."""
    own = kit() / "toolchain"
    (folder / "bin").mkdir(parents=True)
    (folder / "lib").symlink_to(own / "lib")
    for name in os.listdir(own / "bin"):
        if name != "clang":
            (folder / "bin" / name).symlink_to(own / "bin" / name)
    clang = folder / "bin/clang"
    clang.write_text(CLANG.format(to=kept, clang=own / "bin/clang"))
    clang.chmod(0o755)
    return folder


def archive(log: Path, *words: str | Path) -> tuple[bool, list[str]]:
    """Runs scripts/making/archive; whether it ended well, and the lines that it printed."""
    ran = subprocess.run([ROOT / "scripts/making/archive", *words], stdout=subprocess.PIPE, stderr=subprocess.STDOUT, text=True, errors="replace")
    with log.open("a") as out:
        out.write(ran.stdout)
    return ran.returncode == 0, ran.stdout.splitlines()


def proved(part: str, target: str, folder: Path, checked: Path) -> Module:
    """Proves the program's or the library's crate for a target, over the libraries below it, if `checked` does not say that this is done, and
    builds it. Fails if it is not proved."""
    crate, made = CRATES[part], folder / ("program.o" if part == "program" else "library.a")
    shutil.rmtree(folder, ignore_errors=True)
    folder.mkdir(parents=True)
    log, flags = folder / "log", ("--target", target, "--cpu", PROCESSORS[target])
    building = ("--of", checked, crate, made, keeping_toolchain(folder / "toolchain", folder), *flags)
    # What was checked earlier may be of other sources; then rattle says so, and it is proved again.
    done, said = archive(log, *building) if checked.is_dir() else (False, [])
    if not done:
        shutil.rmtree(checked, ignore_errors=True)
        checked.parent.mkdir(parents=True, exist_ok=True)
        done, said = archive(log, "--check", checked, crate, *flags)
        done, said = archive(log, *building) if done else (done, said)
    verdict = [line for line in said if line.startswith("logic=proved ")]
    if not done or not verdict or not made.is_file():
        raise Failed(f"{crate} was not proved and built for {target}: {'; '.join(said[-2:])}")
    shutil.rmtree(folder / "toolchain")
    return Module(folder / "module.bc", optimizing((folder / "words").read_text().splitlines()), made, f"{crate} {verdict[-1]}")
