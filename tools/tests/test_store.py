"""`ppdb-tools store`: copies, keys and links."""
import os
import uuid

from made import assembly
from support import ASYNC, TINY, Doc, InFolder, below, command, debug_file, run

KEY = "021a19bb79774051996ba99d59115127ffffffff"


class Store(InFolder):
    def test_a_file_that_is_written_in_place_does_not_change_the_store(self) -> None:
        place = self.file("tiny.pdb", TINY.read_bytes())
        ended = run("store", self.folder / "store", place)
        self.assertEqual(ended.rows, [["copied", str(place), f"tiny.pdb/{KEY}/tiny.pdb"]])
        with open(place, "r+b") as file:
            file.write(b"other")
        self.assertEqual((self.folder / f"store/tiny.pdb/{KEY}/tiny.pdb").read_bytes(), TINY.read_bytes())

    def test_links_are_made_if_asked_for(self) -> None:
        place = self.file("tiny.pdb", TINY.read_bytes())
        self.assertEqual(run("store", "--link", self.folder / "store", place).rows[0][0], "linked")
        self.assertEqual(os.stat(place).st_nlink, 2)
        self.assertEqual(run("store", "--link", self.folder / "store", place).rows[0][0], "there")

    def test_no_link_in_the_store_is_followed(self) -> None:
        outside = self.folder / "outside"
        outside.mkdir()
        for name in ("tiny.pdb", f"deep/tiny.pdb/{KEY}", f"last/tiny.pdb/{KEY}/tiny.pdb"):
            link = self.folder / "store" / name
            store = self.folder / "store" / name.split("/")[0] if "/" in name else self.folder / "store"
            link.parent.mkdir(parents=True, exist_ok=True)
            link.symlink_to(outside if not name.startswith("last") else outside / "new")
            ended = run("store", store, TINY)
            self.assertEqual(ended.status, 1, name)
            self.assertIn(ended.rows[0][0], ("fault", "differs"))
            self.assertEqual(list(below(outside)), [])

    def test_assemblies_are_stored(self) -> None:
        """The key is the time stamp in eight digits and the size of the image (SSQP)."""
        place = self.file("Foo.DLL", assembly(stamp=0x542D5742))
        self.assertEqual(run("store", self.folder / "store", place).rows, [["copied", str(place), "foo.dll/542d57424000/foo.dll"]])
        ended = run("store", self.folder / "store", self.file("bad.exe", b"MZ" + bytes(100)))
        self.assertEqual((ended.status, ended.rows[0][0]), (1, "refused"))

    def test_both_spellings(self) -> None:
        place = self.file("Tiny.pdb", TINY.read_bytes())
        ended = run("store", "--both-spellings", self.folder / "store", place, self.file("Foo.dll", assembly(stamp=0xAB)))
        self.assertEqual([row[2] for row in ended.rows], [f"tiny.pdb/{KEY}/tiny.pdb", f"Tiny.pdb/{KEY.upper()}/Tiny.pdb",
                                                         "foo.dll/000000ab4000/foo.dll", "Foo.dll/000000AB4000/Foo.dll"])
        self.assertEqual(len(list(below(self.folder / "store"))), 4)

    def test_what_is_not_stored(self) -> None:
        cut, gone = self.file("cut.pdb", TINY.read_bytes()[:50]), self.folder / "gone.pdb"
        ended = run("store", self.folder / "store", cut, gone, self.folder, TINY)
        self.assertEqual(ended.status, 1)
        self.assertEqual([row[0] for row in ended.rows], ["refused", "refused", "refused", "copied"])
        self.assertEqual(ended.rows[0][2], f"refused {cut} F3 root byte 48")
        self.assertEqual(ended.rows[1][2], f"absent {gone}")
        other = self.file("other/tiny.pdb", TINY.read_bytes().replace(b"tiny.cs", b"tine.cs"))
        self.assertEqual(run("store", self.folder / "store", other).rows[0][0], "differs")
        os.mkfifo(self.folder / "pipe.pdb")
        self.assertEqual(run("store", self.folder / "store", self.folder / "pipe.pdb").rows[0][0], "refused")

    def test_names(self) -> None:
        for name in (b"a b\t.pdb", b"new\nline\x1b.pdb", b"\xff.pdb"):
            place = self.file(name, TINY.read_bytes())
            ended = run("store", self.folder / "store", os.fsencode(place))
            self.assertEqual((ended.status, ended.out.count(b"\n")), (0, 1), name)
            self.assertTrue(ended.out.decode("ascii").replace("\t", "").rstrip("\n").isprintable())

    def test_equal_runs_at_once(self) -> None:
        """Runs that lay the same file side by side leave one whole file."""
        from concurrent.futures import ThreadPoolExecutor
        with ThreadPoolExecutor(4) as pool:
            ended = list(pool.map(lambda _: command("store", self.folder / "store", ASYNC), range(4)))
        self.assertEqual({it.status for it in ended}, {0})
        self.assertEqual(len(list(below(self.folder / "store"))), 1)

    def test_the_guid_is_that_of_dotnet(self) -> None:
        data = bytes(range(20))
        place = self.file("g.pdb", debug_file([Doc(b"/a.cs")], data))
        self.assertEqual(run("store", self.folder / "store", place).rows[0][2].split("/")[1], uuid.UUID(bytes_le=data[:16]).hex + "ffffffff")
