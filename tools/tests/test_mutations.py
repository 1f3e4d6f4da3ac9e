"""Inputs of every kind with some bytes changed: each run ends with a status and at most lines that can be printed. A failure names the
seed. PPDB_TOOLS_LONG=N runs N rounds of each; without it there are few."""
import os
import random
import time
import unittest
from collections.abc import Callable
from pathlib import Path

from made import Type, assembly, code_view, embedded
from support import ASYNC, HOSTILE, ROOT, THROW, Doc, InFolder, debug_file, run

ROUNDS = int(os.environ.get("PPDB_TOOLS_LONG") or 12)
IDENTITY = bytes(range(20))
# What is put into inputs beside random bytes: ends of ranges, names that control a terminal, bytes that are not UTF-8.
PIECES = (b"\0", b"\xff", b"\xff\xff\xff\xff", b"\x7f\xff\xff\xff", b"\n", b"\r\n", b"\x1b[31m", "\u202e".encode(), b"\xc0\x80", b"MPDB",
          b"RSDS", b"../", b"\t")


def mutated(data: bytes, choose: random.Random) -> bytes:
    """Bytes with a few changes: replaced, put in, taken out, repeated, cut off."""
    out = bytearray(data)
    for _ in range(choose.randrange(1, 6)):
        at = choose.randrange(len(out) + 1)
        kind = choose.randrange(6)
        if kind == 0:
            out[at:at + 1] = bytes([choose.randrange(256)])
        elif kind == 1:
            out[at:at] = choose.choice(PIECES)
        elif kind == 2:
            piece = choose.choice(PIECES)
            out[at:at + len(piece)] = piece
        elif kind == 3:
            del out[at:at + choose.randrange(1, 9)]
        elif kind == 4:
            out[at:at] = out[choose.randrange(len(out) + 1):][:choose.randrange(1, 40)]
        elif choose.randrange(4) == 0:
            del out[at:]
    return bytes(out)


class Mutations(InFolder):
    def tried(self, seed: int, *words: object, stdin: bytes = b"", raw: bool = False) -> None:
        """A run that must end well, whatever it is given."""
        start = time.process_time()
        ended = run(*words, stdin=stdin)
        self.assertIn(ended.status, (0, 1, 2, 3), (seed, words))
        self.assertLess(time.process_time() - start, 5, (seed, words))
        said = ended.err if raw else ended.err + ended.text
        for line in said.split("\n"):
            self.assertTrue(line.replace("\t", "").isprintable(), (seed, words, line))

    def rounds(self, data: bytes, work: Callable[[int, bytes], object], seed: int = 0, count: int = ROUNDS) -> None:
        for number in range(count):
            work(number, mutated(data, random.Random(1000 * seed + number)))

    def app(self) -> bytes:
        order = Type(b"Shop", b"Order", [(b"Div", b"\0\1\1\x08"), (b"Div", b"\x20\1\1\x1d\x0e")])
        types = [Type(b"", b"<Module>", []), order, Type(b"", b"In", [(b"M", b"\0\0\1")], 2)]
        data = debug_file([Doc(b"/a.cs", bytes(32), bytes(4) + b"text"), Doc(b"/b.cs"), Doc(b"/c.cs")], IDENTITY)
        return assembly([code_view(IDENTITY), embedded(data)], types)

    def test_assemblies(self) -> None:
        pdb = self.file("sym/App.pdb", debug_file([Doc(b"/a.cs"), Doc(b"/b.cs"), Doc(b"/c.cs")], IDENTITY))
        trace = b"  at Shop.Order.Div (System.Int32 x) [0x00000] in <030201000504070608090a0b0c0d0e0f>:0 \n"

        def work(seed: int, data: bytes) -> None:
            place = self.file("sym/App.dll", data)
            self.tried(seed, "extract", place, self.folder / "out.pdb")
            self.tried(seed, "check", place)
            self.tried(seed, "page", pdb, "--assembly", place, raw=True)
            self.tried(seed, "stacktrace", place.parent, stdin=trace, raw=True)
            self.tried(seed, "store", self.folder / "store", place)
            self.tried(seed, "diff", place, pdb)
        self.rounds(self.app(), work, 1)
        self.rounds((THROW / "Throw.exe").read_bytes(), work, 2)

    def test_debug_files(self) -> None:
        def work(seed: int, data: bytes) -> None:
            place = self.file("a.pdb", data)
            self.tried(seed, "check", place, "--source", self.folder)
            self.tried(seed, "stats", place)
            self.tried(seed, "sources", place, "--extract", self.folder / "out")
            self.tried(seed, "diff", place, ASYNC)
            self.tried(seed, "frames", place, self.file("list", b"1 0\n39 9\n6 94\n"))
            self.tried(seed, "repair", place, self.folder / "out.pdb")
            self.tried(seed, "repair", "--row", random.Random(seed).randrange(30, 38), 1, place)
            self.tried(seed, "stack-maps", self.folder / "maps", place)
            self.tried(seed, "store", self.folder / "store", place)
            self.tried(seed, "page", place, raw=True)
        self.rounds((ROOT / "examples/embed_link.pdb").read_bytes(), work, 3)
        self.rounds(debug_file([Doc(HOSTILE, bytes(32), bytes(4) + HOSTILE), Doc(b"/b.cs")], link=b'{"documents":{"*":"https://e/*"}}'), work, 4)
        self.rounds((ROOT / "corpus/refused/cecil-null.pdb").read_bytes(), work, 5)

    def test_traces(self) -> None:
        self.file("App.pdb", debug_file([Doc(HOSTILE)], IDENTITY))
        trace = (THROW / "trace").read_bytes() + b"  at A.M () <0x1 + 0x2> in <0>:0 \n" \
            b"   at A.M() in C:\\x\\App.dll:token 0x6000001+0x0 <00010203-0405-0607-0809-0a0b0c0d0e0f>\n"

        def work(seed: int, data: bytes) -> None:
            for folder in (THROW, self.folder):
                self.tried(seed, "stacktrace", folder, "--why", stdin=data, raw=True)
        self.rounds(trace, work, 6, 4 * ROUNDS)

    def test_lists_and_maps(self) -> None:
        allow = b"F39 *.pdb\nno-source a.pdb /src/*\n# known\n* x?.dll\n"
        names = b"1 23 3 lib2\n2 20 1 lib2\n1 01 17 [lib2]Lib.Class\n2 02 2 [lib2]Lib.Class\n"

        def work(seed: int, data: bytes) -> None:
            self.tried(seed, "page", THROW / "before.pdb", "--map", self.file("m.map", data), THROW / "Throw.pdb", raw=True)
        self.rounds((THROW / "throw.map").read_bytes(), work, 7, ROUNDS // 2)
        self.rounds(b"# list\n0x06000027 0x9\n6 94\n24 47\n", lambda seed, data: self.tried(seed, "frames", ASYNC, self.file("list", data)), 8)
        self.rounds(allow, lambda seed, data: self.tried(seed, "check", ASYNC, "--allow", self.file("allow", data)), 9)
        self.rounds(names, lambda seed, data: self.tried(seed, "stack-maps", self.folder / "maps", ROOT / "corpus/aliases.pdb", ROOT / "corpus/lib2.pdb",
                                                         "--names", self.file("names", data)), 10)

    def test_modules_before_and_after(self) -> None:
        """A damaged module, before or after a rewrite, and damaged maps."""
        place = THROW / "Throw.exe"
        map_of_itself = self.folder / "Throw.map"
        run("map", place, place, "--output", map_of_itself)

        def work(seed: int, data: bytes) -> None:
            damaged = self.file("damaged.exe", data)
            for words in ((damaged, place), (place, damaged)):
                self.tried(seed, "map", *words, "--output", self.folder / "damaged.map")
                self.tried(seed, "map", *words, "--explain", "Main")
                self.tried(seed, "check-map", *words, map_of_itself)
            self.tried(seed, "map", place, damaged, "--into", place, "--output", self.folder / "two.map")

        self.rounds(place.read_bytes(), work, 11)
        self.rounds(map_of_itself.read_bytes(), lambda seed, data: self.tried(seed, "check-map", place, place, self.file("m.map", data)), 12)

    def test_stores(self) -> None:
        """A store whose folders are files, links, pipes and other names."""
        place = self.file("App.pdb", debug_file([Doc(b"/a.cs")], IDENTITY))
        key = "03020100050407060809" + "0a0b0c0d0e0fffffffff"
        for number in range(ROUNDS):
            choose, store = random.Random(number), self.folder / f"store{number}"
            names = ["app.pdb", key, "app.pdb"][:choose.randrange(1, 4)]
            odd = store.joinpath(*names)
            odd.parent.mkdir(parents=True)
            kind = choose.randrange(4)
            if kind == 0:
                odd.write_bytes(b"x")
            elif kind == 1:
                odd.symlink_to(choose.choice(["/", "..", "none", str(odd)]))
            elif kind == 2:
                os.mkfifo(odd)
            else:
                odd.mkdir()
            self.tried(number, "store", store, place)
            self.tried(number, "stacktrace", store, stdin=b"   at A.M() in App.dll:token 0x6000001+0x0\n", raw=True)
            self.tried(number, "check", store)

    def test_names_of_files(self) -> None:
        data = debug_file([Doc(b"/a.cs")], IDENTITY)
        for number in range(ROUNDS):
            name = mutated(b"App \xe6\x97\xa5.pdb", random.Random(number)).replace(b"/", b"_").replace(b"\0", b"_")[:200]
            if name in (b"", b".", b".."):
                continue
            place = self.folder / "names" / os.fsdecode(name)
            place.parent.mkdir(exist_ok=True)
            place.write_bytes(data)
            for words in (("check",), ("check", "--format", "lines"), ("stats",), ("sources",), ("store", self.folder / "store")):
                self.tried(number, *words, place)
            self.tried(number, "page", place, raw=True)
        for form in ("text", "json", "annotations", "sarif"):
            self.tried(0, "check", self.folder / "names", "--format", form)

    def test_options_are_not_taken_from_names(self) -> None:
        here = Path.cwd()
        os.chdir(self.folder)
        self.addCleanup(os.chdir, here)
        for name in ("--help", "--json", "-n", "--x.pdb"):
            Path(name).write_bytes(debug_file([Doc(b"/a.cs")]))
            self.assertEqual(run("check", "--format", "lines", "--", name).rows, [["0", name, "accepted"]])
            self.assertEqual(run("stats", "--", name).status, 0)


if __name__ == "__main__":
    unittest.main()
