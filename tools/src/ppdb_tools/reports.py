"""How `ppdb-tools check` prints what it found: for people, as JSON lines, as SARIF, and as annotations of a workflow."""
import json
import os
from collections import Counter
from urllib.parse import quote

from ppdb_tools import __version__
from ppdb_tools.checking import RULES, Finding, Report
from ppdb_tools.names import escaped, shown
from ppdb_tools.output import BOLD, RED, coloured, put

# How many findings of one rule in one file people read.
MOST = 10


def line_of(finding: Finding) -> str:
    """A finding for people: its rule or fault with the place, and the sentence."""
    return f"{finding.place or finding.rule}: {finding.says}"


def shortened(findings: list[Finding]) -> list[Finding]:
    """The first findings of each rule, and for more of them one that says how many."""
    counts: Counter[str] = Counter()
    kept = []
    for finding in findings:
        counts[finding.rule] += 1
        if counts[finding.rule] <= MOST:
            kept.append(finding)
    return kept + [Finding(rule, f"{count - MOST} more") for rule, count in counts.items() if count > MOST]


class Text:
    """Lines for people: one for each finding."""

    def begin(self) -> None:
        pass

    def report(self, report: Report) -> None:
        name = coloured(shown(report.name), BOLD)
        lines = (f"{name}: {coloured(line_of(finding), RED)}\n" for finding in shortened(report.findings))
        text = "".join(lines)
        if text:
            put(text)

    def end(self, summary: str) -> None:
        put(summary + "\n")


class Json(Text):
    """An object for each file."""

    def report(self, report: Report) -> None:
        findings = [{"rule": it.rule, "says": it.says, **({"place": it.place} if it.place else {}), **({"document": it.document} if it.document else {})}
                    for it in report.findings]
        put(json.dumps({"file": escaped(report.name), "findings": findings, "is_left_out": report.is_left_out}, sort_keys=True) + "\n")

    def end(self, summary: str) -> None:
        pass


class Annotations(Text):
    """Commands of a workflow that put each finding at its file."""

    def report(self, report: Report) -> None:
        for it in shortened(report.findings):
            put(f"::error file={command_property(shown(report.name))},title={command_property('ppdb ' + it.rule)}::{command_data(line_of(it))}\n")

    def end(self, summary: str) -> None:
        put(command_data(summary) + "\n")


class Sarif(Text):
    """One SARIF log (version 2.1.0) of all findings."""

    def __init__(self) -> None:
        self.is_first = True

    def begin(self) -> None:
        rules = [{"id": rule, "shortDescription": {"text": text}} for rule, text in RULES.items()]
        driver = {"name": "ppdb-tools", "version": __version__, "rules": rules}
        put('{"$schema":"https://json.schemastore.org/sarif-2.1.0.json","version":"2.1.0","runs":[{"tool":'
            + json.dumps({"driver": driver}) + ',"columnKind":"utf16CodeUnits","results":[')

    def report(self, report: Report) -> None:
        for it in report.findings:
            place: dict[str, object] = {"physicalLocation": {"artifactLocation": {"uri": quote(os.fsencode(report.name), safe="/")}}}
            if it.document or it.place:
                place["logicalLocations"] = [{"fullyQualifiedName": it.document or it.place}]
            put(("\n" if self.is_first else ",\n") + json.dumps({"ruleId": it.rule, "level": "error", "message": {"text": line_of(it)}, "locations": [place]}))
            self.is_first = False

    def end(self, summary: str) -> None:
        put("\n]}]}\n")


def command_data(text: str) -> str:
    """The text of a workflow command, in which these characters are escaped."""
    return text.replace("%", "%25").replace("\r", "%0D").replace("\n", "%0A")


def command_property(text: str) -> str:
    """A property of a workflow command, in which two more are escaped."""
    return command_data(text).replace(":", "%3A").replace(",", "%2C")


FORMATS: dict[str, type[Text]] = {"text": Text, "json": Json, "sarif": Sarif, "annotations": Annotations}
