"""The reader of executables, and `ppdb-tools extract`: the embedded debug file is found by the debug directory alone."""
import struct
import time
import unittest

from made import Entry, Type, assembly, code_view, embedded
from support import ROOT, THROW, TINY, Doc, InFolder, debug_file, run

from ppdb_tools.assembly import Assembly, without_brackets
from ppdb_tools.errors import Damaged, NoAssembly
from ppdb_tools.pe import Image

OWN, OTHER = bytes(range(20)), bytes(range(20, 40))


class Extract(InFolder):
    def setUp(self) -> None:
        super().setUp()
        self.own = debug_file([Doc(b"/src/Own.cs")], OWN)
        self.other = debug_file([Doc(b"/src/Other.cs")], OTHER)

    def extracted(self, image: bytes, *words: str) -> tuple[int, bytes | None, str]:
        place, out = self.file("App.dll", image), self.folder / "out.pdb"
        out.unlink(missing_ok=True)
        ended = run("extract", *words, place, out)
        return ended.status, out.read_bytes() if out.exists() else None, ended.err

    def test_the_embedded_file_is_written(self) -> None:
        self.assertEqual(self.extracted(assembly([code_view(OWN), embedded(self.own)])), (0, self.own, ""))

    def test_a_resource_with_a_debug_file_is_not_taken(self) -> None:
        """An assembly that is carried as a resource has a debug file of its own, before or after the one that is asked for."""
        inner = assembly([code_view(OTHER), embedded(self.other)])
        self.assertEqual(self.extracted(assembly([code_view(OWN), embedded(self.own)], extra=inner))[:2], (0, self.own))
        status, out, said = self.extracted(assembly([code_view(OWN)], extra=inner))
        self.assertEqual((status, out), (1, None))
        self.assertIn("no embedded debug file", said)

    def test_another_identity_is_not_written(self) -> None:
        image = assembly([code_view(OWN), embedded(self.other)])
        status, out, said = self.extracted(image)
        self.assertEqual((status, out), (3, None))
        self.assertIn(OTHER.hex(), said)
        self.assertEqual(self.extracted(image, "--any-id")[:2], (0, self.other))

    def test_without_a_code_view_entry_that_is_said(self) -> None:
        status, out, said = self.extracted(assembly([embedded(self.own)]))
        self.assertEqual((status, out), (0, self.own))
        self.assertIn("no CodeView entry", said)

    def test_damaged_is_not_absent(self) -> None:
        whole = embedded(self.own)
        for what, entry in {"a length": embedded(self.own, len(self.own) + 1), "a huge length": embedded(self.own, 0xFFFFFFFF),
                            "a sign": whole._replace(data=b"MPDX" + whole.data[4:]), "a cut": whole._replace(data=whole.data[:60]),
                            "bytes": whole._replace(data=whole.data[:8] + b"\xff" * 40), "nothing": whole._replace(data=b"")}.items():
            with self.subTest(what):
                status, out, said = self.extracted(assembly([code_view(OWN), entry]))
                self.assertEqual((status, out), (3, None))
                self.assertNotIn("no embedded", said)
        self.assertEqual(self.extracted(assembly([code_view(OWN), whole, whole]))[0], 3)
        self.assertEqual(self.extracted(b"MZ")[0], 3)
        self.assertEqual(self.extracted(TINY.read_bytes())[0], 3)

    def test_many_markers_cost_no_more_than_their_bytes(self) -> None:
        image = assembly([code_view(OWN)], extra=b"MPDB\x10\0\0\0\0\0\0\0" * 200000)
        start = time.process_time()
        self.assertEqual(self.extracted(image)[0], 1)
        self.assertLess(time.process_time() - start, 1)

    def test_a_refused_debug_file_is_extracted_too(self) -> None:
        """A file that breaks a rule can be repaired only if it can be taken out."""
        data = (ROOT / "corpus/refused/cecil-null.pdb").read_bytes()
        at = data.index(b"#Pdb") - 8
        start, = struct.unpack_from("<I", data, at)
        image = assembly([code_view(data[start:start + 20]), embedded(data)])
        self.assertEqual(self.extracted(image)[:2], (0, data))

    def test_nothing_is_written_over(self) -> None:
        import os
        place = self.file("App.dll", assembly([code_view(OWN), embedded(self.own)]))
        before = os.getcwd()
        os.chdir(self.folder)
        self.addCleanup(os.chdir, before)
        self.assertEqual(run("extract", place).status, 0)
        self.assertEqual((self.folder / "App.pdb").read_bytes(), self.own)
        self.assertEqual(run("extract", place).status, 4)
        link, target = self.folder / "link.pdb", self.file("target", b"before")
        link.symlink_to(target)
        self.assertEqual(run("extract", place, link).status, 0)
        self.assertEqual((link.is_symlink(), target.read_bytes()), (True, self.own))


class Images(unittest.TestCase):
    def test_real_assemblies(self) -> None:
        """The names are those of the traces that Mono printed (examples/throw/trace)."""
        read = Assembly((THROW / "Throw.exe").read_bytes())
        self.assertEqual(read.identity, "6d0e5d1e9b6940e58f3b4e33c57c9836")
        self.assertEqual(read.names()[7], "Throw.G<T>.Run")
        self.assertIn("Throw+<>c__DisplayClass2_0.<Lam>b__0", read.printed)

    def test_what_is_no_assembly(self) -> None:
        whole = assembly()
        for data in (b"", b"MZ", b"BSJB" + bytes(100), whole[:0x50], whole[:64] + b"XX" + whole[66:]):
            with self.assertRaises((NoAssembly, Damaged)):
                _ = Assembly(data).debug_ids

    def test_a_debug_directory_that_is_too_long_is_damage_at_once(self) -> None:
        for size in (0xFFFFFFFF, 0xFFFFFFFF // 28 * 28, 27, 28 * 1000000):
            start = time.process_time()
            with self.assertRaises(Damaged):
                _ = Image(assembly([code_view(OWN)], directory_size=size)).debug_entries
            self.assertLess(time.process_time() - start, 0.5)

    def test_entries_of_other_kinds_are_passed_over(self) -> None:
        image = Image(assembly([Entry(16, 0, b""), code_view(OWN), Entry(19, 0, b"SHA256\0" + bytes(32))]))
        self.assertEqual([entry.pdb_id for entry in image.code_views], [OWN])
        self.assertEqual([(it.algorithm, len(it.digest)) for it in image.checksums], [("SHA256", 32)])
        self.assertIsNone(image.embedded())

    def test_types_that_are_in_themselves_end(self) -> None:
        types = [Type(b"", b"A", [(b"M", b"\0\0\1")], 2), Type(b"", b"B", [], 1)]
        with self.assertRaises(Damaged):
            Assembly(assembly(types=types)).names()

    def test_one_long_name_for_many_methods_is_damage(self) -> None:
        types = [Type(b"N" * 100000, b"A", [(b"M", b"\0\0\1")] * 2000)]
        with self.assertRaises(Damaged):
            Assembly(assembly(types=types)).names()

    def test_many_entries_of_one_long_path(self) -> None:
        start = time.process_time()
        with self.assertRaises(Damaged):
            _ = Image(assembly([code_view(OWN, b"x" * 60000)] * 2000)).code_views
        self.assertLess(time.process_time() - start, 2)

    def test_many_methods_of_one_name_with_long_signatures(self) -> None:
        types = [Type(b"", b"A", [(b"M", b"\0\x8f\xa0\1" + b"\x08" * 4000)] * 800)]
        read = Assembly(assembly(types=types))
        start = time.process_time()
        with self.assertRaises(Damaged):
            for kind, method in read.printed["A.M"]:
                read.parameters(kind, method)
        self.assertLess(time.process_time() - start, 5)

    def test_brackets(self) -> None:
        for name, less in {"A`1[T].M": "A`1.M", "a[b[c]]d": "ad", "a]b[c": "a]b[c", "a[b]c[": "ac[", "": ""}.items():
            self.assertEqual(without_brackets(name), less)
        start = time.process_time()
        without_brackets("[" * 100000 + "]" * 100000)
        self.assertLess(time.process_time() - start, 1)


if __name__ == "__main__":
    unittest.main()
