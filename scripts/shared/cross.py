"""Compiles and links for other machines, by the clang of the Rattle toolchain: it is also every linker of LLVM, under its name."""
from __future__ import annotations

import re
import subprocess
from dataclasses import dataclass
from pathlib import Path
from typing import Sequence

from kept_modules import ROOT, Failed, Module, kit

TARGETS = ROOT / "targets"
# What a module for Linux on x86-64 says of its machine alone: how a stack is probed, and for which processor a function is.
OF_THE_MACHINE = re.compile(r' "(?:probe-stack|stack-probe-size|target-cpu)"="[^"]*"')
# What the program calls of the system, and its `main`, where targets/ has them under names of its own.
RENAMED = re.compile(r"@(\w+)\(")
FILES = ("open", "close", "read", "write", "fsync", "fdatasync", "flock", "ftruncate", "fchmod", "fchown", "rename", "unlink", "unlinkat", "statx",
         "readlink", "getpid")


@dataclass(frozen=True)
class Machine:
    """A machine for which a module is compiled: its name, how it lays out data, and words for clang."""
    triple: str
    layout: str
    words: tuple[str, ...] = ()
    without: tuple[str, ...] = ()
    renamed: tuple[str, ...] = ()

    @property
    def options(self) -> tuple[str, ...]:
        return (f"--target={self.triple}", *self.words)


LINUX_X64 = Machine("x86_64-unknown-linux-gnu", "", ("-march=x86-64",))
LINUX_ARM64 = Machine("aarch64-unknown-linux-gnu",
                      "e-m:e-p270:32:32-p271:32:32-p272:64:64-i8:8:32-i16:16:32-i64:64-i128:128-n32:64-S128-Fn32", ("-march=armv8-a",))
WINDOWS_X64 = Machine("x86_64-w64-windows-gnu", "e-m:w-p270:32:32-p271:32:32-p272:64:64-i64:64-i128:128-f80:128-n8:16:32:64-S128", ("-march=x86-64",),
                      ("-fPIC", "-fPIE", "-ffunction-sections", "-fdata-sections"), ("main", *FILES))
WASM = Machine("wasm64-unknown-unknown", "e-m:e-p:64:64-p10:8:8-p20:8:8-i64:64-i128:128-n32:64-S128",
               ("-mcpu=lime1", "-mllvm", "-expand-div-rem-bits=64"), ("-fPIC", "-fPIE"), ("main",))
MACOS_ARM64 = Machine("arm64-apple-macosx11.0.0", "e-m:o-p270:32:32-p271:32:32-p272:64:64-i64:64-i128:128-n32:64-S128-Fn32", (), (), ("main", "open", "statx"))
MACOS_X64 = Machine("x86_64-apple-macosx11.0.0", "e-m:o-p270:32:32-p271:32:32-p272:64:64-i64:64-i128:128-f80:128-n8:16:32:64-S128",
                    ("-march=x86-64",), (), ("main", "open", "statx"))


def run(words: Sequence[str | Path], name: str | None = None) -> None:
    """Runs a tool; with a name, the toolchain's clang under that name."""
    words = [str(word) for word in words]
    program = str(kit() / "toolchain/bin/clang") if name else None
    ran = subprocess.run([name, *words] if name else words, executable=program, stdout=subprocess.PIPE, stderr=subprocess.STDOUT,
                         stdin=subprocess.DEVNULL, text=True, errors="replace")
    if ran.returncode:
        raise Failed(f"{name or words[0]} failed: {ran.stdout[-2000:]}")


def retargeted(module: Path, machine: Machine, made: Path) -> Path:
    """Writes a module as text for another machine; the code is as it was."""
    printed = made.with_suffix(".printed")
    run(["-S", "-emit-llvm", "-x", "ir", module, "-o", printed, "-O0", "-Xclang", "-disable-llvm-passes"], "clang")
    with printed.open() as lines, made.open("w") as out:
        for line in lines:
            if line.startswith("target datalayout") and machine.layout:
                line = f'target datalayout = "{machine.layout}"\n'
            elif line.startswith("target triple"):
                line = f'target triple = "{machine.triple}"\n'
            elif line.startswith("attributes ") and machine.layout:
                line = OF_THE_MACHINE.sub("", line)
            elif machine.renamed:
                line = RENAMED.sub(lambda it: f"@ppdb_{it[1]}(" if it[1] in machine.renamed else it[0], line)
            out.write(line)
    printed.unlink()
    return made


def compiled(module: Module, machine: Machine, made: Path) -> Path:
    """Compiles a module for a machine as `rattle` has clang optimize it."""
    text = retargeted(module.path, machine, made.with_suffix(".ll"))
    flags = [flag for flag in module.flags if flag not in machine.without]
    run([*machine.options, *flags, "-c", "-x", "ir", text, "-o", made], "clang")
    text.unlink()
    return made


def written(source: str, machine: Machine, folder: Path) -> Path:
    """Compiles a file of targets/, C or LLVM's language, for a machine, without a header of any system."""
    made = folder / f"{Path(source).stem}.o"
    pic = () if "-fPIC" in machine.without else ("-fPIC",)
    alone = ("-ffreestanding", "-nostdlibinc", "-fno-stack-protector")
    run([*machine.options, "-O2", *alone, *pic, "-Wno-override-module", "-c", TARGETS / source, "-o", made], "clang")
    return made
