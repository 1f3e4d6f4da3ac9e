"""What a lemma's statement and clauses are made of, by their brackets."""
import re
from collections.abc import Iterator
from typing import NamedTuple

from .lemmas import Kind, Lemma, items

PLAIN = re.compile(r"[a-zα-ω][\w']*$")
CASES = frozenset(("refl", "true", "false", "zero", "suc", "tt", "inl", "inr"))
# Words of proofs that are no lemmas to be cited.
KNOWN = frozenset(
    "refl sym ap subst absurd tt arith rules cc omega grind search simp rw record let in elim unfold length take drop map filter append "
    "concat reverse true false zero suc inl inr get_or set nth head tail fst snd id const and or not cond common_steps at λ where as depth".split()
)
OPENS, CLOSES = "([{", ")]}"
WORD = re.compile(r"[^\s()\[\]{},;.]+")


class Part(NamedTuple):
    """A place in a text, from its first letter up to its end."""

    first: int
    end: int


def depth_after(depth: int, letter: str) -> int:
    return depth + (letter in OPENS) - (letter in CLOSES)


def split_outside(text: str, sign: str) -> list[str]:
    """What stands before each sign that is outside of brackets."""
    depth, begun, found = 0, 0, []
    for at, letter in enumerate(text):
        depth = depth_after(depth, letter)
        if letter == sign and depth == 0:
            found.append(text[begun:at].strip())
            begun = at + 1
    return found


def groups(text: str) -> Iterator[str]:
    """The bracketed groups of a list of binders."""
    depth, begun = 0, 0
    for at, letter in enumerate(text):
        depth = depth_after(depth, letter)
        if depth == 0 and letter in CLOSES:
            yield text[begun:at + 1].strip()
            begun = at + 1


def premise_names(signature: str) -> list[str]:
    """Names for the explicit premises of a statement: those of its binders, and hyp1, hyp2 .. for the others."""
    names: list[str] = []
    count = 0
    for premise in split_outside(signature[signature.index(" :") + 2:], "→"):
        if premise.startswith("{") or re.match(r"\([^():]+ : ", premise):
            for group in groups(premise):
                if group[0] == "(" and " : " in group:
                    names += group[1:group.index(" : ")].split()
        else:
            count += 1
            names.append(f"hyp{count}")
    return names


def right_side(clause: str) -> int | None:
    """Where the right side of a clause begins, behind its `=`."""
    depth = 0
    for it in re.finditer(r"[(\[{]|[)\]}]|(?<=\s)=(?=\s|$)", clause):
        if it[0] != "=":
            depth = depth_after(depth, it[0])
        elif depth == 0:
            return it.end()
    return None


def atoms(text: str) -> list[str]:
    """The words and bracketed groups of a text."""
    found, depth, now = [], 0, ""
    for letter in text:
        depth = depth_after(depth, letter)
        if letter.isspace() and depth == 0:
            found += [now] if now else []
            now = ""
        else:
            now += letter
    return found + ([now] if now else [])


def is_plain(atom: str) -> bool:
    return bool(PLAIN.match(atom)) and atom not in CASES


def clause_variables(lines: list[str], lemma: Lemma) -> list[str]:
    """Variables for one clause with no case: those of its clauses where they are plain, else those of the statement."""
    names = premise_names(lemma.signature.text(lines))
    heads = []
    for clause in lemma.clauses:
        text = clause.text(lines)
        behind = right_side(text)
        if behind is not None:
            heads.append(atoms(text[:behind - 1])[1:])
    if len(heads) == 1 and all(is_plain(it) or it.startswith("{") for it in heads[0]):
        return heads[0]
    for head in heads:
        for at, atom in enumerate(it for it in head if not it.startswith("{")):
            if at < len(names) and names[at].startswith("hyp") and is_plain(atom) and atom not in names:
                names[at] = atom
    return names


def known_lemmas(lines: list[str]) -> set[str]:
    """The names in a file that a tactic may be given: its own lemmas, and imported ones."""
    found: set[str] = set()
    for item in items(lines):
        if item.kind is Kind.SIGNATURE and item.visibility.strip() in ("", "pub") and item.name[0].islower():
            found.add(item.name)
        text = " ".join(item.lines.of(lines))
        if item.kind is not Kind.IMPORT or ".proofs." not in text or re.search(r"proofs\.Math\.ListN", text):
            continue
        names = text[text.index("{") + 1:] if "{" in text else text
        for word in re.split(r"[,{}\s]+", names):
            name = word.split(".")[-1]
            if name and name[0].islower() and ("-" in name or "_" in name or ".std." not in text):
                found.add(name)
    return found


def argument_end(body: str, at: int) -> int | None:
    """The end of the argument that begins here, or none."""
    if at >= len(body) or body[at] in ")]},;\n":
        return None
    if body[at] not in OPENS:
        return at + len(re.match(r"[^ )\]},;\n(]*", body[at:])[0])  # type: ignore[index]
    depth = 0
    for end in range(at, len(body)):
        depth = depth_after(depth, body[end])
        if depth == 0:
            return end + 1
    return len(body)


def recursive_calls(body: str, name: str, arity: int) -> list[str]:
    """The calls by which a proof cites the lemma itself, written out."""
    found: list[str] = []
    for it in re.finditer(r"(?<![^\s(])" + re.escape(name) + r"(?=\s)", body):
        end, count = it.end(), 0
        while count < arity:
            at = end + len(body[end:]) - len(body[end:].lstrip(" "))
            after = argument_end(body, at)
            if after is None:
                break
            end, count = after, count + 1
        call = " ".join(body[it.start():end].split())
        if count and call not in found:
            found.append(call)
    return found


def cited(body: str, known: set[str], name: str) -> list[str]:
    """The lemmas that a proof cites, each once, in their order."""
    return list(dict.fromkeys(it for it in WORD.findall(body) if it in known and it not in KNOWN and it != name))


class Reader:
    """Reads on from where an inner part of a right side begins, to where it ends."""

    def __init__(self, text: str, at: int, indent: int, is_group: bool) -> None:
        self.text, self.at, self.indent, self.is_group = text, at, indent, is_group
        self.depth = self.lets = 0

    def goes_on_below(self) -> bool:
        line = self.text[self.at + 1:].split("\n", 1)[0]
        if re.match(r"\s*where\b", line):
            return False
        return not line.strip() or len(line) - len(line.lstrip(" ")) > self.indent or line.strip().startswith("in")

    def ends_here(self) -> bool:
        letter, before = self.text[self.at], self.text[self.at - 1]
        self.depth = depth_after(self.depth, letter)
        if self.depth < 0:
            return True
        if self.depth > 0 or letter in CLOSES:
            return False
        if before in " \n" and self.text.startswith("let ", self.at):
            self.lets += 1
        elif before in " \n" and re.match(r"in\s", self.text[self.at:self.at + 3]):
            self.lets -= 1
        if self.lets < 0 or letter == ";" or letter == "|" and before in " \n" and not self.is_group:
            return True
        return letter == "\n" and not self.goes_on_below()

    def end(self) -> int:
        while self.at < len(self.text) and not self.ends_here():
            self.at += 1
        return self.at


def inner_parts(clause: str, start: int) -> list[Part]:
    """The parts of two lines and more inside a right side: arms, fields, what is let, what stands in brackets; the outer first."""
    found: set[Part] = set()
    for it in re.finditer(r"↦\s|(?<=\s)=\s|\(|\bin\s", clause[start:]):
        first = start + it.end()
        line = clause[clause.rfind("\n", 0, first) + 1:]
        indent = -1 if it[0] == "(" or it[0].startswith("in") else len(line) - len(line.lstrip(" "))
        body = clause[first:Reader(clause, first, indent, it[0] == "(").end()].rstrip()
        if "\n" in body.strip():
            found.add(Part(first + len(body) - len(body.lstrip()), first + len(body)))
    return sorted(found, key=lambda it: (it.first, -it.end))
