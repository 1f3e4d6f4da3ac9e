"""Which words of a definition or of a clause are free in it: words that it does not bind, and that are no labels, texts or comments."""
import re
from collections.abc import Callable
from typing import NamedTuple

TOKEN = re.compile(r'"(?:\\.|[^"\\])*"|--[^\n]*|\n *|[(){}\[\];,.]|[^\s(){}\[\];,."]+')
CLOSES = {"(": ")", "{": "}", "[": "]"}
NO_WORDS = {*'(){}[];,."', "λ", "let", "in", "do", "record", "data", "elim", "as", "where", "=", ":", "→", "×", "←", "↦", "|"}


class Token(NamedTuple):
    """A word or a sign; `of` is what a field, or a name of a module, is asked of."""

    text: str
    of: str | None


def tokens_of(text: str) -> list[Token]:
    found: list[Token] = []
    places = [it for it in TOKEN.finditer(text) if not it[0].startswith("--")]
    for at, it in enumerate(places):
        if at > 1 and places[at - 1][0] == "." and places[at - 2].end() + 1 == it.start() and it[0][0] not in "\n ":
            found[-1] = Token(it[0], places[at - 2][0])
        else:
            found.append(Token(it[0], None))
    return found


class Scopes:
    """A reader of tokens that knows which words are bound where it reads. `is_case` says which words stand for cases in patterns."""

    def __init__(self, tokens: list[Token], is_case: Callable[[str], bool]) -> None:
        self.tokens, self.is_case = tokens, is_case
        self.words: set[str] = set()
        self.members: set[tuple[str, str]] = set()
        self.ends: dict[int, int] = {}
        opened: list[int] = []
        for at, it in enumerate(tokens):
            if it.text in CLOSES:
                opened.append(at)
            elif it.text in CLOSES.values():
                self.ends[opened.pop()] = at

    def find(self, at: int, end: int, *signs: str) -> int | None:
        """The first of these signs that is in no brackets of its own."""
        while at < end:
            if self.tokens[at].text in signs:
                return at
            at = self.ends.get(at, at) + 1
        return None

    def use(self, it: Token, bound: set[str]) -> None:
        if it.of is not None:
            self.members |= {(it.of, it.text)} - {(name, it.text) for name in bound}
        elif it.text not in NO_WORDS | bound and it.text[0] not in '\n"':
            self.words.add(it.text)

    def pattern(self, at: int, end: int, bound: set[str]) -> set[str]:
        """The words that a pattern, or a list of binders, binds; those of its types and cases are used."""
        names: set[str] = set()
        while at < end:
            it = self.tokens[at]
            if it.text == ":":
                close = self.find(at, end, *CLOSES.values()) or end
                self.scan(at + 1, close, bound | names)
                at = close
            elif it.of is not None or self.is_case(it.text):
                self.use(it, bound)
            elif self.tokens[at + 1].text != "=" or at + 1 == end:
                names.add(it.text)
            at += 1
        return names - NO_WORDS

    def is_label(self, at: int, end: int) -> bool:
        """A word between `{` or `;` and `=` or `:`."""
        before = next((it.text for it in reversed(self.tokens[:at]) if it.text[0] != "\n"), "")
        return at + 1 < end and before in ("{", ";") and self.tokens[at + 1].text in ("=", ":")

    def case(self, at: int, end: int, bound: set[str]) -> tuple[int, set[str]]:
        """Where the term begins that may follow a pattern and `↦`, and what is bound there."""
        arrow = self.find(at, self.find(at, end, "|") or end, "↦")
        return (arrow + 1, bound | self.pattern(at, arrow, bound)) if arrow else (at, bound)

    def scan(self, at: int, end: int, bound: set[str]) -> set[str]:
        """Reads a term, in which each binding reaches to the next sign between terms, or to the end of its brackets. Says what is bound
        at the end."""
        lets, steps = [], []
        at, now = self.case(at, end, bound)
        while at < end:
            it = self.tokens[at]
            if it.text in (";", ","):
                now = bound
            elif it.text == "|":
                at, now = self.case(at + 1, end, bound)
                continue
            elif it.text == "λ":
                dot = self.find(at, end, ".") or end
                now, at = now | self.pattern(at + 1, dot, now), dot
            elif it.text == "let":
                stop = self.find(at, end, "=", ":") or end
                lets.append(self.pattern(at + 1, stop, now))
                at = stop
            elif it.text == "in" and lets:
                now = now | lets.pop()
            elif it.text == "do":
                steps.append([len(self.tokens[at + 1].text), now])
            elif it.text[0] == "\n" and steps:
                at, now = self.step(at, end, steps, now)
            elif it.text in CLOSES:
                now = self.brackets(at, now)
                at = self.ends[at]
            elif self.is_label(at, end):
                bound = bound | ({it.text} if self.tokens[at + 1].text == ":" else set())
            else:
                self.use(it, now)
            at += 1
        return now

    def step(self, at: int, end: int, steps: list, now: set[str]) -> tuple[int, set[str]]:
        """A new line in steps of `do`: a step that begins there binds by `←` what holds from the next step on."""
        indent = len(self.tokens[at].text)
        while steps and indent < steps[-1][0]:
            steps.pop()
        if not steps or indent > steps[-1][0]:
            return at, now
        now = steps[-1][1]
        line = next((it for it in range(at + 1, end) if self.tokens[it].text[0] == "\n"), end)
        arrow = self.find(at + 1, line, "←")
        if arrow is None:
            return at, now
        steps[-1][1] = now | self.pattern(at + 1, arrow, now)
        return arrow, now

    def brackets(self, at: int, now: set[str]) -> set[str]:
        """Reads what is in brackets; `(x y : A)` and `{x : A}` bind x and y for what follows."""
        close, colon = self.ends[at], self.find(at + 1, self.ends[at], ":")
        if colon and self.tokens[at - 1].text != "record":
            self.scan(colon + 1, close, now)
            return now | {it.text for it in self.tokens[at + 1:colon]}
        self.scan(at + 1, close, now)
        return now


def free_words(text: str, is_case: Callable[[str], bool]) -> tuple[set[str], set[tuple[str, str]]]:
    """The free words of a definition or clause, and the names that it asks of a word that is free."""
    words: set[str] = set()
    members: set[tuple[str, str]] = set()

    def read(part: str, bound: set[str]) -> set[str]:
        reader = Scopes(tokens_of(part), is_case)
        at, end = 0, len(reader.tokens)
        equals, colon = reader.find(at, end, "="), reader.find(at, end, ":")
        if equals and (colon is None or equals < colon):
            at, bound = equals, bound | reader.pattern(1, equals, bound)
        now = reader.scan(at, end, bound)
        words.update(reader.words)
        members.update(reader.members)
        return now

    for part in re.split(r"\n(?=[^\s)}\]])", text):
        kind = re.match(r"(?:pub )?(record|data) ", part)
        head, *fields = re.split(r"\n  (?=[^\s)}\]])", part) if kind else [part]
        bound = read(head, set())
        for field in fields:
            name = re.match(r"(?:pub )?(\S+) (?=:)", field)
            read(field[name.end():] if name else field, bound)
            bound = bound | ({name[1]} if name and kind[1] == "record" else set())
    return words, members
