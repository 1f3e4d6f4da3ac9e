"""The contracts of all crates: each function with its clauses and the first sentence of its comment, and every name of the sources."""
import re
from collections import defaultdict
from pathlib import Path

ROOT = Path(__file__).resolve().parents[2]
CRATES = ROOT / "crates"
FUNCTION = re.compile(r"^\s*(pub(?:\([^)]*\))? )?(?:const )?(?:extern \"C\" )?fn (\w+)")
OWNER = re.compile(r"^(?:impl|trait|pub trait)\b(.*)$")
EXPORTED = re.compile(r"^pub use [\w:]+(?:::\{([^}]*)\}|::(\w+));", re.M)
CLAUSE = re.compile(r"^\s*ensures (\w*) ?\{(.*)")


class Sources:
    """The functions of all crates with their clauses, and every word of the code and the definitions. A function is under its name, and
    under its name after its crate, its type, or both."""

    def __init__(self) -> None:
        self.clauses: dict[str, set[str]] = defaultdict(set)
        self.ordered: dict[str, list[str]] = defaultdict(list)
        self.of_trait: dict[str, list[str]] = defaultdict(list)
        self.says: dict[str, str] = {}
        self.words: set[str] = set()
        self.exported: dict[str, set[str]] = defaultdict(set)
        self.records: dict[str, set[str]] = {}
        for file in sorted(CRATES.glob("*/specs/**/*.antt")):
            self.read_definitions(file.read_text())
        for file in sorted(CRATES.glob("*/specs/**/*.antt")):
            for name, record in re.findall(r"^abbrev pub (\w+) :.*\n\1 [^=\n]*= (\w+) [^×⊎→\n]*$", file.read_text(), re.M):
                if record in self.records:
                    self.records.setdefault(name, {name} | self.records[record])
        for file in sorted(CRATES.glob("*/src/**/*.rt")):
            self.read(file.relative_to(CRATES).parts[0], file.read_text())

    def read_definitions(self, text: str) -> None:
        self.words.update(re.findall(r"[\w-]+", text))
        for name, fields in re.findall(r"^pub record (\w+)[^\n]*\n((?:  .*\n)*)", text, re.M):
            self.records.setdefault(name, {name}).update(re.findall(r"^  (?:pub )?(\w+) :", fields, re.M))

    def read(self, crate: str, text: str) -> None:
        self.words.update(re.findall(r"\w+", text))
        for names in EXPORTED.findall(text):
            self.exported[crate].update(re.findall(r"\w+", " ".join(names)))
        owner, calls, comment = "", [], []
        for line in text.splitlines():
            if OWNER.match(line):
                owner = line
            elif line == "}":
                owner = ""
            if line.lstrip().startswith("///"):
                comment.append(line.strip()[3:].strip())
            elif found := FUNCTION.match(line):
                calls = self.named(crate, owner, found[2])
                for call in calls:
                    self.clauses[call]
                    self.says.setdefault(call, first_sentence(comment))
            if not line.lstrip().startswith(("///", "#[")):
                comment = []
            for call in calls if (clause := CLAUSE.match(line)) else []:
                self.add(call, clause[1], clause[2])
                if re.match(r"(?:pub )?trait ", owner):
                    self.of_trait[call] += [clause[1]] if clause[1] else []

    def named(self, crate: str, owner: str, name: str) -> list[str]:
        kinds = [f"{front}{kind}" for kind in re.findall(r"\w+", owner) for front in ("", f"{crate}::")]
        return [name, f"{crate}::{name}", *(f"{kind}::{name}" for kind in kinds)]

    def add(self, call: str, clause: str, statement: str) -> None:
        """A clause of a call, and the records that it states."""
        if clause and clause not in self.ordered[call]:
            self.ordered[call].append(clause)
        self.clauses[call].add(clause)
        for word in re.findall(r"\w+", statement):
            self.clauses[call].update(self.records.get(word, ()))

    def clauses_of(self, call: str) -> list[str]:
        """The names of a call's clauses, in order; those of a trait's call without those that its implementations add."""
        return self.of_trait.get(call, self.ordered[call])

    def called(self, name: str, owner: str) -> list[str]:
        """The functions that a name stands for: itself, a method of the type named before, one that a crate hands on, or all of a type."""
        if f"{owner}::{name}" in self.clauses:
            return [f"{owner}::{name}"]
        if name in self.clauses:
            return [name]
        methods = [call for call in self.clauses if call.startswith(f"{name}::")]
        is_handed_on = any(name == f"{crate}::{one}" for crate, names in self.exported.items() for one in names)
        return methods or ([name.rpartition("::")[2]] if is_handed_on else [])


def first_sentence(comment: list[str]) -> str:
    return re.split(r"(?<=[.:])\s", " ".join(comment))[0].rstrip(".:")
