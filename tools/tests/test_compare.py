"""`ppdb-tools diff` and `stats`."""
import json
import subprocess
import os
import unittest

from made import Type, assembly, code_view
from support import ASYNC, HOSTILE, ROOT, THROW, TINY, Doc, InFolder, debug_file, pdbfile, run

from ppdb_tools.commands.stats import KINDS


def points(*lines: int) -> bytes:
    """Points on these lines, four offsets apart: columns 1 to 9."""
    out = bytearray(pdbfile.unsigned(1))
    for number, line in enumerate(lines):
        out += pdbfile.unsigned(4 if number else 0) + b"\0" + pdbfile.unsigned(8)
        out += pdbfile.unsigned(line) + pdbfile.unsigned(1) if number == 0 else pdbfile.signed(line - lines[number - 1], 7) + pdbfile.signed(0, 7)
    return bytes(out)


def of_methods(*methods: tuple[bytes, bytes], pdb_id: bytes = bytes(20)) -> bytes:
    """A debug file with these methods: the blob of points and the name of a local."""
    pdb, texts, blobs = pdbfile.Pdb(), pdbfile.Heap(), pdbfile.Heap()
    pdb.id = pdb_id
    pdb.counts[0x00] = pdb.counts[0x11] = 1
    pdb.counts[0x06] = len(methods)
    pdb.tables[0x30] = [(blobs.blob(b"\0" + pdbfile.unsigned(blobs.blob(b"/a.cs"))), 0, 0, 0)]
    for row, (blob, local) in enumerate(methods, 1):
        pdb.tables[0x31].append((1, blobs.blob(blob)))
        pdb.tables[0x32].append((row, 1, row, 1, 0, 20))
        pdb.tables[0x33].append((0, 0, texts.text(local)))
    pdb.tables[0x35] = [(0, blobs.blob(b"\x01" + pdbfile.unsigned(blobs.blob(b"System"))))]
    pdb.texts, pdb.blobs = bytes(texts.data), bytes(blobs.data)
    return pdbfile.write(pdb)


class Diff(InFolder):
    def differences(self, *words: object) -> tuple[int, list[list[str]]]:
        ended = run("diff", *words)
        return ended.status, ended.rows

    def test_equal_files(self) -> None:
        self.assertEqual(self.differences(ASYNC, ASYNC), (0, []))
        rebuilt = self.folder / "rebuilt.pdb"
        subprocess.run([os.environ["PPDB"], "rebuild", ASYNC, rebuilt], check=True)
        self.assertEqual(self.differences(ASYNC, rebuilt), (0, []))

    def test_a_line_that_was_added(self) -> None:
        """A line in the first method changes it alone: the methods below have moved."""
        before = self.file("a.pdb", of_methods((points(3, 4, 5), b"x"), (points(10, 11), b"y"), (points(20), b"z")))
        after = self.file("b.pdb", of_methods((points(3, 5, 6), b"x"), (points(11, 12), b"y"), (points(21), b"w")))
        self.assertEqual(self.differences(before, after), (1, [["method", "changed", "1", "points"], ["method", "moved", "2", "+1 lines"],
                                                              ["method", "changed", "3", "locals, -z, +w"]]))
        moved = self.file("c.pdb", of_methods((points(4, 5, 6), b"x"), (points(10, 11), b"y"), (points(20), b"z")))
        self.assertEqual(self.differences("--ignore-moved", before, moved), (0, []))
        ended = run("diff", "--json", before, after)
        self.assertEqual([json.loads(line)["how"] for line in ended.text.splitlines()], ["changed", "moved", "changed"])

    def test_by_name_if_the_assemblies_are_there(self) -> None:
        old, new = bytes(range(20)), bytes(range(20, 40))
        self.file("a/App.pdb", of_methods((points(3), b"x"), (points(10), b"y"), pdb_id=old))
        self.file("b/App.pdb", of_methods((points(3), b"x"), (points(6), b"n"), (points(10), b"y"), pdb_id=new))
        first = [Type(b"N", b"A", [(b"M", b"\0\0\1"), (b"P", b"\0\1\1\x08")])]
        second = [Type(b"N", b"A", [(b"M", b"\0\0\1"), (b"P", b"\0\0\1"), (b"P", b"\0\1\1\x08")])]
        one, two = self.file("a/App.dll", assembly([code_view(old)], first)), self.file("b/App.dll", assembly([code_view(new)], second))
        for words in ((one, two), (self.folder / "a/App.pdb", self.folder / "b/App.pdb"),
                      (self.folder / "a/App.pdb", self.folder / "b/App.pdb", "--assemblies", one, two)):
            self.assertEqual(self.differences(*words), (1, [["method", "added", "N.A.P()", ""]]))
        self.assertEqual(run("diff", self.folder / "a/App.pdb", self.folder / "b/App.pdb", "--assemblies", two, one).status, 3)

    def test_documents(self) -> None:
        before = self.file("a.pdb", debug_file([Doc(b"/a.cs", bytes(32)), Doc(b"/b.cs")]))
        after = self.file("b.pdb", debug_file([Doc(b"/a.cs", bytes(31) + b"x"), Doc(b"/c.cs")]))
        self.assertEqual(self.differences(before, after)[1][:3], [["document", "changed", "/a.cs", "hash"], ["document", "lost", "/b.cs", ""],
                                                                 ["document", "added", "/c.cs", ""]])

    def test_real_builds(self) -> None:
        status, rows = self.differences(ASYNC, ROOT / "corpus/async_iter-release.pdb")
        self.assertEqual(status, 1)
        self.assertIn(["method", "changed", "14", "offsets, points 2 to 1, scopes"], rows)
        self.assertEqual(run("diff", ASYNC, THROW / "trace").status, 1)
        self.assertEqual(run("diff", ASYNC, self.folder / "gone.pdb").status, 3)

    def test_hostile_names(self) -> None:
        before, after = self.file("a.pdb", debug_file([Doc(HOSTILE)])), self.file("b.pdb", debug_file([Doc(b"/b.cs")], local=b"\x1b[31m"))
        ended = run("diff", before, after)
        self.assertTrue(all(line.replace(b"\t", b"").decode("ascii").isprintable() for line in ended.out.splitlines()))


class Stats(InFolder):
    def test_the_parts_are_the_file(self) -> None:
        for file in (ASYNC, TINY, ROOT / "examples/embed_link.pdb", ROOT / "corpus/refused/cecil-null.pdb"):
            rows = run("stats", file).rows
            self.assertEqual(sum(int(row[3]) for row in rows if row[0] in ("part", "table")), file.stat().st_size)

    def test_what_the_bytes_are(self) -> None:
        source = bytes(4) + b"x" * 1000
        place = self.file("s.pdb", debug_file([Doc(b"/a.cs", b"", source), Doc(b"/b.cs")]))
        rows = {(row[0], row[1]): (int(row[2]), int(row[3])) for row in run("stats", place).rows}
        self.assertEqual(rows["records", "embedded source"], (1, 1006))
        self.assertEqual(rows["table", "31 MethodDebugInformation"][0], 2)
        # The name's blob of 3 bytes and its part of 6, the source, and the points of the method; the second names the same kind of things.
        self.assertEqual(rows["document", "/a.cs"][1] - rows["document", "/b.cs"][1] >= 1006, True)
        first = run("stats", place, "--sort", "bytes").rows[0]
        self.assertEqual(first[:2], ["part", "#Blob"])
        self.assertEqual(len(run("stats", place, "--json").text.splitlines()), len(rows))

    def test_hostile_names(self) -> None:
        ended = run("stats", self.file("h.pdb", debug_file([Doc(HOSTILE)])))
        self.assertTrue(all(line.replace(b"\t", b"").decode("ascii").isprintable() for line in ended.out.splitlines()))

    def test_kinds_are_those_of_the_format(self) -> None:
        text = (ROOT / "docs/FORMAT.md").read_text(encoding="utf-8")
        for guid, name in KINDS.items():
            self.assertIn(f"| {name} | {guid} |", text)


if __name__ == "__main__":
    unittest.main()
