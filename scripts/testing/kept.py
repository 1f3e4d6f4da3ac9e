"""The group of the files of attacks that are kept (corpus/hostile, corpus/refused): each command answers as the README beside them and the
independent reader say, in bounded time and memory."""
import re
import resource
import shutil
import subprocess
import tempfile
from collections.abc import Iterator
from pathlib import Path

from independent.judge import first_fault
from independent.making import made_map
from independent.maps import UNMOVED, Map
from independent.meaning import differences
from independent.shown import guid, shown
from independent.values import value_of
from readers import judged
from result import CORPUS, SECONDS, Answer, Result

HOSTILE = CORPUS / "hostile"
MOST_SECONDS, MOST_BYTES = 10, 1 << 30


def bounded() -> None:
    resource.setrlimit(resource.RLIMIT_CPU, (MOST_SECONDS, MOST_SECONDS))
    resource.setrlimit(resource.RLIMIT_AS, (MOST_BYTES, MOST_BYTES))


class Kept:
    """A folder with the files, the program, and the README."""

    def __init__(self, program: Path, folder: Path, result: Result) -> None:
        self.program, self.folder, self.result = program, folder, result
        for file in (*HOSTILE.iterdir(), *(CORPUS / "refused").glob("*.pdb")):
            shutil.copy(file, folder)
        self.readme = (folder / "README.md").read_text()

    def answer(self, *words: str) -> Answer:
        ended = subprocess.run([self.program, *words], cwd=self.folder, stdin=subprocess.DEVNULL, stdout=subprocess.PIPE, check=False,
                               stderr=subprocess.DEVNULL, timeout=SECONDS, preexec_fn=bounded)
        return ended.returncode, ended.stdout

    def told(self) -> dict[str, str]:
        """What `verify` must print of each file."""
        return dict(re.findall(r"^\| `([^` ]+\.pdb)` \| .* \| `([^`]+)` \|$", self.readme, re.M))

    def words(self) -> Iterator[tuple[list[str], Answer]]:
        """The words of commands, and how they must end."""
        for words, status, lines in re.findall(r"^\| `([^`]+)` \| (\d+) \| (.*) \|$", self.readme, re.M):
            yield words.split(" "), (int(status), "".join(f"{line}\n" for line in re.findall("`([^`]+)`", lines)).encode())

    def judge(self, name: str, line: str) -> bool:
        """Whether a file is accepted, by all who say."""
        want = (0 if line == "accepted" else 1, f"{line}\n".encode())
        self.result.expect(f"{name}: the independent judge", judged(name, (self.folder / name).read_bytes()), want)
        return self.result.expect(f"verify {name}", self.answer("verify", name), want) and line == "accepted"

    def written(self, what: str, words: tuple[str, ...], name: str, by: Map) -> None:
        """A command writes a file that says what the file before says, by the map."""
        (self.folder / "O").unlink(missing_ok=True)
        if self.result.expect(what, self.answer(*words), (0, b"")):
            data = (self.folder / "O").read_bytes()
            self.result.expect(f"{what}: fault", first_fault(data), None)
            found = next(differences(value_of((self.folder / name).read_bytes()), by, value_of(data)), None)
            self.result.expect(f"{what}: what differs", found, None)

    def rewrite(self, name: str) -> None:
        """Rebuilds a file, and moves it by a map that is made for it and by its own. Records of unknown kinds are set free."""
        value = value_of((self.folder / name).read_bytes())
        kinds = dict.fromkeys(custom.kind for custom in value.customs) if name == "kinds-unknown.pdb" else {}
        free = [word for kind in kinds for word in ("--free", guid(kind))]
        self.written(f"rebuild {name}", ("rebuild", name, "O", *free), name, UNMOVED)
        text = made_map(value, name)
        own = self.folder / name.replace(".pdb", ".map")
        for number, text in enumerate([text, *([own.read_text()] if own.exists() else [])]):
            (self.folder / "M").write_text(text)
            self.written(f"remap {name}, map {number}", ("remap", name, "M", "O", *free), name, Map(text))


def kept(program: Path, result: Result) -> None:
    with tempfile.TemporaryDirectory() as name:
        files = Kept(program, Path(name), result)
        told = files.told()
        result.expect("the files of corpus/hostile/README.md", sorted(told), sorted(file.name for file in HOSTILE.glob("*.pdb")))
        for file, line in told.items():
            if files.judge(file, line):
                want = (0, shown(value_of((files.folder / file).read_bytes())))
                result.expect(f"show {file}", files.answer("show", file), want)
                files.rewrite(file)
        for refused in (CORPUS / "refused").glob("*.pdb"):
            result.expect(f"verify {refused.name}", files.answer("verify", refused.name), judged(refused.name, refused.read_bytes()))
        for words, want in files.words():
            result.expect(" ".join(words), files.answer(*words), want)


