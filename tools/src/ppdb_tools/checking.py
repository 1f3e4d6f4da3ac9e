"""What `ppdb-tools check` finds in a file: the first fault of its debug file, and what a format cannot say: whether an assembly and its
debug file belong together, and whether others find the sources."""
import fnmatch
import os
import re
from typing import NamedTuple

from ppdb_tools import program
from ppdb_tools.debug_files import identity, neighbours, stored_identity
from ppdb_tools.described import described, links
from ppdb_tools.errors import Damaged, NoAssembly
from ppdb_tools.faults import FAULTS, code_of, sentence
from ppdb_tools.inputs import Input, TooLong, Unreadable, opened_below
from ppdb_tools.names import printable, text_of
from ppdb_tools.pe import Image
from ppdb_tools.sources import DAMAGED, DIFFERS, Folders
from ppdb_tools.verdicts import Verdict, verdicts

# The rules beyond those of the format, each with what a finding says. F1 to F40 are the rules of `ppdb verify`.
READ, ANSWER, ASSEMBLY, LOST, OTHER = "read", "answer", "assembly", "no-debug-file", "other-debug-file"
SOURCE, OTHER_SOURCE, DAMAGED_SOURCE, LINKS = "no-source", "other-source", "damaged-source", "source-link"
OWN_RULES = {
    READ: "the file cannot be read",
    ANSWER: "ppdb does not answer about the file",
    ASSEMBLY: "the assembly is damaged, or is none",
    LOST: "the assembly has no debug file of its build, embedded or beside it",
    OTHER: "the debug file of the assembly belongs to another build",
    SOURCE: "a document has no URL, no embedded source and no file with its hash",
    OTHER_SOURCE: "an embedded source has another hash than its document",
    DAMAGED_SOURCE: "an embedded source cannot be unpacked",
    LINKS: "the Source Link record cannot be read",
}
RULES = {**{f"F{number}": text for number, text in FAULTS.items()}, **OWN_RULES}


class Finding(NamedTuple):
    """What is wrong: the rule, its sentence, and where: the place of a fault as `ppdb` prints it, or a document's name as it does."""
    rule: str
    says: str
    place: str = ""
    document: str = ""


class Report(NamedTuple):
    """A file and what was found in it. An assembly without a debug file, which no word names, is left out of the count."""
    name: str
    findings: list[Finding]
    is_left_out: bool = False


class Checker:
    """Checks files. `targets` are the files that are checked anyway."""

    def __init__(self, folders: list[str], is_format_only: bool, targets: set[str]) -> None:
        self.folders, self.is_format_only, self.targets = folders, is_format_only, targets

    def check(self, name: str, is_named: bool) -> Report:
        """What is found in a file; `is_named` says that a word is its name."""
        try:
            with Input.open(name) as file:
                if file.start(2) == b"MZ":
                    return self.assembly(file, is_named)
                return Report(name, self.debug_file(file))
        except Unreadable as unreadable:
            # A program with everything in one file is longer than any assembly that is read.
            is_left_out = isinstance(unreadable, TooLong) and not is_named and not name.lower().endswith(".pdb")
            return Report(name, [] if is_left_out else [Finding(READ, unreadable.reason)], is_left_out)

    def assembly(self, file: Input, is_named: bool) -> Report:
        """What is found in an assembly, and in its debug file."""
        try:
            image = Image(file.read())
            if not image.streams:
                raise NoAssembly("it has no metadata")
            found = image.embedded()
            if found is not None:
                with Input.of(file.name, found) as embedded:
                    return Report(file.name, [*self.identities(image, embedded), *self.debug_file(embedded)])
        except NoAssembly as other:
            return Report(file.name, [Finding(ASSEMBLY, str(other))] if is_named else [], not is_named)
        except Damaged as damaged:
            return Report(file.name, [Finding(ASSEMBLY, str(damaged))])
        return self.beside(file, image, is_named)

    @staticmethod
    def identities(image: Image, embedded: Input) -> list[Finding]:
        """Whether the CodeView entry names the embedded debug file."""
        ids = [entry.pdb_id for entry in image.code_views if any(entry.guid)]
        own = identity(embedded)
        return [Finding(OTHER, f"the embedded one has the PDB ID {own.hex()}, the CodeView entry {' and '.join(it.hex() for it in ids)}")] \
            if ids and own not in ids else []

    def beside(self, file: Input, image: Image, is_named: bool) -> Report:
        """What is found in the debug file beside an assembly."""
        ids, others = {entry.pdb_id for entry in image.code_views}, []
        for place in neighbours(file.name, image):
            opened = opened_below(place, place.parent)
            if opened is None:
                continue
            with Input(str(place), opened) as found:
                own = stored_identity(opened)
                if own in ids:
                    return Report(file.name, [] if os.path.normpath(place) in self.targets else self.debug_file(found))
                others.append((place, own))
        if others:
            place, own = others[0]
            return Report(file.name, [Finding(OTHER, f"{printable(place.name)} has the PDB ID {own.hex() if own else 'of no Portable PDB'}")])
        if is_named:
            return Report(file.name, [Finding(LOST, RULES[LOST])])
        return Report(file.name, [], True)

    def debug_file(self, file: Input) -> list[Finding]:
        """What is found in a debug file."""
        answer = program.answer("verify", file)
        if answer.status == program.REFUSED:
            fault = program.fault(answer)
            return [Finding(code_of(fault), sentence(fault), fault)]
        if answer.status != 0:
            return [Finding(ANSWER, program.reason(answer))]
        return [] if self.is_format_only else self.sources(file)

    def sources(self, file: Input) -> list[Finding]:
        """What is found of the sources of an accepted debug file."""
        told, said = links(file), described(file)
        found = [Finding(LINKS, told.fault)] if told.fault else []
        for verdict in verdicts(said, file.size, Folders(self.folders), told):
            rule = rule_of(verdict)
            if rule:
                other = f" ({printable(verdict.place)} has another hash)" if verdict.where == "disk" else ""
                found.append(Finding(rule, f"{RULES[rule]}: {printable(text_of(verdict.document.name))}{other}", document=verdict.document.name))
        return found


def rule_of(it: Verdict) -> str | None:
    """The rule that the source of a document breaks."""
    if it.is_found:
        return None
    if it.where == "embedded":
        return OTHER_SOURCE if it.state == DIFFERS else DAMAGED_SOURCE if it.state == DAMAGED else SOURCE
    return SOURCE


class Allowed:
    """An allow list: findings that are known. Each line is RULE FILE [DOCUMENT], the last two patterns with * and ? for names as `ppdb`
    prints them; FILE also fits a name by its end after a slash."""

    def __init__(self, name: str, text: str) -> None:
        self.name = name
        self.lines: list[tuple[int, str, re.Pattern[str], re.Pattern[str]]] = []
        self.used: set[int] = set()
        for number, line in enumerate(text.splitlines(), 1):
            words = line.split("#", 1)[0].split()
            if not words:
                continue
            if words[0] not in RULES and words[0] != "*" or len(words) not in (2, 3):
                raise ValueError(number)
            file, document = (re.compile(fnmatch.translate(word)) for word in (words[1], words[2] if len(words) > 2 else "*"))
            self.lines.append((number, words[0], file, document))

    def allows(self, name: str, finding: Finding) -> bool:
        """Whether a finding in a file, by its printed name, is known."""
        names = {name, name.rpartition("/")[2]}
        for number, rule, file, document in self.lines:
            if rule in ("*", finding.rule) and any(map(file.match, names)) and document.match(finding.document):
                self.used.add(number)
                return True
        return False

    @property
    def unused(self) -> list[int]:
        """The lines that no finding needed."""
        return [number for number, *_ in self.lines if number not in self.used]
