"""Takes out the lemmas that nothing names."""
import re
from collections import Counter
from collections.abc import Iterator
from pathlib import Path

from .lemmas import Lemma, answer_files, has_mutual, lemma_files, lemmas, read_lines, write_lines

WORD = re.compile(r"[^\s()\[\]{},;.:]+")


def sources_of(crates: Path) -> Iterator[tuple[Path, str]]:
    """The sources in a folder of crates, and what each says."""
    for folder in sorted(it for crate in crates.iterdir() if crate.is_dir() for it in crate.iterdir() if it.is_dir() and it.name != "out"):
        for path in folder.rglob("*"):
            if path.suffix in (".antt", ".rt", ".edit") and path.is_file():
                yield path, path.read_text(encoding="utf-8")


class Words:
    """How often each word stands in the sources, in all and by file, and which ones other checkouts have in other places."""

    def __init__(self, crates: Path, beside: list[Path]) -> None:
        self.by_file: dict[Path, Counter[str]] = {}
        self.all: Counter[str] = Counter()
        texts = dict(sources_of(crates))
        for path, text in texts.items():
            self.by_file[path] = Counter(WORD.findall(text))
            self.all.update(self.by_file[path])
        self.elsewhere: set[str] = set()
        for checkout in beside:
            for path, text in sources_of(checkout / "crates"):
                here = crates / path.relative_to(checkout / "crates")
                if text != texts.get(here):
                    known = self.by_file.get(here, Counter())
                    self.elsewhere.update(it for it, count in Counter(WORD.findall(text)).items() if count > known[it])

    def take_out(self, path: Path, text: str) -> None:
        words = Counter(WORD.findall(text))
        self.all.subtract(words)
        self.by_file[path].subtract(words)

    def is_named(self, path: Path, lemma: Lemma, text: str) -> bool:
        """Whether anything but the lemma's own text names it."""
        own = Counter(WORD.findall(text))[lemma.name]
        if lemma.is_public() and lemma.name in self.elsewhere:
            return True
        return (self.all if lemma.is_public() else self.by_file[path])[lemma.name] > own


def with_comment(lines: list[str], lemma: Lemma) -> tuple[int, int]:
    """The lines of a lemma with its comment above and the blank lines below."""
    first, end = lemma.signature.first, lemma.end
    while first and lines[first - 1].lstrip().startswith("--"):
        first -= 1
    while end < len(lines) and not lines[end].strip():
        end += 1
    return first, end


def sweep_file(path: Path, words: Words) -> int:
    lines, gone = read_lines(path), 0
    for lemma in reversed(lemmas(lines)):
        text = "\n".join(lines[lemma.signature.first:lemma.end])
        if words.is_named(path, lemma, text) or path.name == "Answers.antt" and lemma.is_public():
            continue
        first, end = with_comment(lines, lemma)
        words.take_out(path, text)
        lines[first:end] = []
        gone += 1
    if gone:
        write_lines(path, lines)
    return gone


def sweep(crate: Path, beside: list[Path]) -> int:
    """Takes out what nothing names, here or by what is new in other checkouts, and then what only that named; answers how many lemmas."""
    words, gone = Words(crate.parent, beside), 0
    files = [it for it in lemma_files(crate) + answer_files(crate) if not has_mutual(read_lines(it))]
    while True:
        now = sum(sweep_file(it, words) for it in files)
        if not now:
            return gone
        gone += now
