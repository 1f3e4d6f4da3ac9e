"""`ppdb-tools repair` and `stack-maps`."""
import time
import unittest

from support import ASYNC, HOSTILE, ROOT, THROW, Doc, InFolder, debug_file, pdbfile, run

from ppdb_tools.cells import DebugFile
from ppdb_tools.commands.repair import blob_references
from ppdb_tools.errors import Damaged

CECIL = ROOT / "corpus/refused/cecil-null.pdb"


class Repair(InFolder):
    def test_what_cecil_wrote(self) -> None:
        out = self.folder / "out.pdb"
        ended = run("repair", CECIL, out)
        self.assertEqual((ended.status, ended.text), (0, "byte 3577 from 05 to 01: table 34 row 1 column 1 signature 1c00000000 to 1c\n"))
        data = CECIL.read_bytes()
        self.assertEqual(out.read_bytes(), data[:3577] + b"\1" + data[3578:])
        self.assertEqual(run("check", "--format-only", out).status, 0)
        self.assertEqual(run("repair", "--row", 34, 1, CECIL).text.splitlines()[2], "column 1 Signature blob 2213 1c00000000")

    def test_wrong_words(self) -> None:
        for words in ((CECIL,), (CECIL, CECIL, CECIL), ("--row", "38", "1", CECIL), ("--row", "34", "x", CECIL)):
            self.assertEqual(run("repair", *words).status, 2)
        self.assertEqual(run("repair", "--row", "34", "0", CECIL).status, 1)
        self.assertEqual(run("repair", self.folder / "gone.pdb", self.folder / "out.pdb").status, 3)

    def test_hostile_names(self) -> None:
        ended = run("repair", "--row", "30", "1", self.file("h.pdb", debug_file([Doc(HOSTILE)])))
        self.assertTrue(all(line.decode("ascii").isprintable() for line in ended.out.splitlines()))

    def test_shared_imports_are_read_once(self) -> None:
        """4,000 import scopes with one blob of 30,000 imports."""
        pdb, blobs = pdbfile.Pdb(), pdbfile.Heap()
        part = blobs.blob(b"System")
        index = blobs.blob(b"".join(b"\x01" + pdbfile.unsigned(part) for _ in range(7000)))
        pdb.tables[0x35] = [(0, index)] * 4000
        pdb.blobs = bytes(blobs.data)
        start = time.process_time()
        self.assertEqual(sum(1 for _ in blob_references(DebugFile(pdbfile.write(pdb)))), 4000 + 7000)
        self.assertLess(time.process_time() - start, 1)

    def test_blobs_that_overlap_are_limited(self) -> None:
        """Each of many names is a long blob that overlaps the others."""
        pdb = pdbfile.Pdb()
        pdb.blobs = b"\0" + b"\xc0\x07\xff\xff" * 300000
        pdb.tables[0x30] = [(1 + 4 * row, 0, 0, 0) for row in range(20000)]
        place = self.file("o.pdb", pdbfile.write(pdb))
        start = time.process_time()
        with self.assertRaises(Damaged):
            list(blob_references(DebugFile(place.read_bytes())))
        self.assertEqual(run("stats", place).status, 3)
        self.assertLess(time.process_time() - start, 3)


class StackMaps(InFolder):
    def maps(self, *words: object) -> list[str]:
        ended = run("stack-maps", self.folder / "maps", *words)
        self.assertEqual(ended.status, 0, ended.err)
        return [file.read_text() for file in sorted((self.folder / "maps").iterdir())]

    def test_rows_follow_each_other(self) -> None:
        """What docs/RECIPES.md says: the first input has 71 methods."""
        first, second = self.maps(ASYNC, THROW / "Throw.pdb")
        self.assertIn("rows 06 104\nrow 06 1 72\n", second)
        self.assertIn("rows 00 1\nrow 00 1 1\n", first)
        self.assertIn("rows 00 1\nrow 00 1 1\n", second)

    def test_names(self) -> None:
        """What docs/WEAVING.md says."""
        names = self.file("names", b"1 23 3 lib2\n2 20 1 lib2\n1 01 17 [lib2]Lib.Class\n2 02 2 [lib2]Lib.Class\n")
        first, _ = self.maps(ROOT / "corpus/aliases.pdb", ROOT / "corpus/lib2.pdb", "--names", names)
        self.assertEqual([line for line in first.splitlines() if line.startswith("row") and len(line.split(" ")) == 5], ["row 01 17 02 7", "row 23 3 20 1"])
        for text in (b"1 01 x A\n", b"1 01\n", b"\xff\n"):
            ended = run("stack-maps", self.folder / "maps", ASYNC, "--names", self.file("names", text))
            self.assertEqual(ended.status, 3)

    def test_renamed_documents(self) -> None:
        one, two = debug_file([Doc(b"/_/a.cs", bytes(32))]), debug_file([Doc(b"/_/a.cs", bytes(31) + b"x"), Doc(b"/_/b.cs")])
        _, second = self.maps(self.file("1.pdb", one), self.file("2.pdb", two), "--rename")
        self.assertIn("document /_/a.cs /input2/_/a.cs\n", second)

    def test_many_renamed_documents_are_linear(self) -> None:
        files = [debug_file([Doc(b"/%d.cs" % number, bytes(31) + digit) for number in range(8000)]) for digit in (b"a", b"b")]
        start = time.process_time()
        self.maps(*(self.file(f"{number}.pdb", data) for number, data in enumerate(files)), "--rename")
        self.assertLess(time.process_time() - start, 3)

    def test_a_small_file_that_counts_many_rows(self) -> None:
        pdb = pdbfile.Pdb()
        for table in (0x01, 0x02, 0x04):
            pdb.counts[table] = 16777215
        ended = run("stack-maps", self.folder / "maps", self.file("many.pdb", pdbfile.write(pdb)))
        self.assertEqual(ended.status, 3)
        self.assertIn("4000000", ended.err)

    def test_a_file_that_is_refused_names_repair(self) -> None:
        ended = run("stack-maps", self.folder / "maps", CECIL)
        self.assertEqual(ended.status, 1)
        self.assertIn("ppdb-tools repair", ended.err)

    def test_no_link_is_followed(self) -> None:
        target = self.file("target", b"before")
        (self.folder / "maps").mkdir()
        (self.folder / "maps/1.map").symlink_to(target)
        self.maps(ASYNC)
        self.assertEqual(target.read_bytes(), b"before")


if __name__ == "__main__":
    unittest.main()
