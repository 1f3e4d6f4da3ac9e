"""Where sources are found: `ppdb-tools sources` and `page`. The debug file names its documents, and must not choose what is opened."""
import base64
import hashlib
import json
import os
import re
import unittest.mock
import zlib
from pathlib import Path

from made import Type, assembly, code_view, embedded
from support import ASYNC, HOSTILE, ROOT, THROW, Doc, InFolder, below, debug_file, embedded_source, run

IDENTITY = bytes(range(20))
OLD, NEW = b"class Old {}\n", b"class New {}\n"


def sha(data: bytes) -> bytes:
    return hashlib.sha256(data).digest()


class InPages(InFolder):
    def inside(self, *words: object) -> dict[str, bytes]:
        """The files in a page, by their names."""
        ended = run("page", *words)
        self.assertEqual(ended.status, 0, ended.err)
        self.said = json.loads(re.search(rb'id="files">([^<]*)<', ended.out)[1])
        return {it["name"]: zlib.decompress(base64.b64decode(it["data"])) for it in self.said["files"]}

    def sources(self, place: object, *words: object) -> dict[str, bytes]:
        """The files in a page beside the debug file."""
        files = self.inside(place, *words)
        self.assertEqual(files.pop(str(place)), place.read_bytes())
        return files


class Page(InPages):
    def test_the_source_whose_hash_agrees_comes_first(self) -> None:
        place = self.file("H.pdb", debug_file([Doc(b"/build/H.cs", sha(NEW))]))
        self.file("o1/H.cs", OLD)
        self.file("o2/H.cs", NEW)
        self.assertEqual(self.sources(place, "--source", self.folder / "o1", "--source", self.folder / "o2"), {"/build/H.cs": NEW})
        self.file("o1/build/H.cs", NEW)
        self.assertEqual(self.sources(place, "--source", self.folder / "o1"), {"/build/H.cs": NEW})
        self.assertEqual(self.sources(place, "--source", self.file("o3/H.cs", OLD).parent), {"/build/H.cs": OLD})

    def test_a_link_out_of_the_folder_is_not_followed(self) -> None:
        place = self.file("H.pdb", debug_file([Doc(b"/build/H.cs", sha(NEW))]))
        secret, folder = self.file("secret.txt", NEW), self.folder / "source"
        folder.mkdir()
        (folder / "H.cs").symlink_to(secret)
        self.assertEqual(self.sources(place, "--source", folder), {})
        (folder / "sub").symlink_to(self.folder)
        place = self.file("H.pdb", debug_file([Doc(b"/sub/secret.txt", sha(NEW))]))
        self.assertEqual(self.sources(place, "--source", folder), {})
        self.file("source/real.cs", NEW)
        (folder / "H.cs").unlink()
        (folder / "H.cs").symlink_to("real.cs")
        place = self.file("H.pdb", debug_file([Doc(b"/build/H.cs", sha(NEW))]))
        self.assertEqual(self.sources(place, "--source", folder), {"/build/H.cs": NEW})

    def test_only_named_folders_are_read(self) -> None:
        """A document's own name is not opened, whatever its hash; below a folder that contains it it is found."""
        own = self.file("own/H.cs", NEW)
        place = self.file("H.pdb", debug_file([Doc(os.fsencode(own), sha(NEW))]))
        self.assertEqual(self.sources(place), {})
        self.assertEqual(self.sources(place, "--source", self.folder / "own"), {str(own): NEW})
        for name in (b"../own/H.cs", b"/x/../../own/../own/H.cs"):
            place = self.file("H.pdb", debug_file([Doc(name, sha(NEW))]))
            self.file("inner/x", b"")
            self.assertEqual(self.sources(place, "--source", self.folder / "inner"), {})

    def test_pipes_devices_and_long_files_are_not_read(self) -> None:
        os.mkfifo(self.folder / "pipe.cs")
        (self.folder / "zero.cs").symlink_to("/dev/zero")
        with open(self.folder / "long.cs", "wb") as file:
            file.truncate(30 << 30)
        documents = [Doc(name, sha(NEW)) for name in (b"/pipe.cs", b"/zero.cs", b"/long.cs", b"/proc/kmsg", b"/dev/tty")]
        place = self.file("H.pdb", debug_file(documents))
        self.assertEqual(self.sources(place, "--source", self.folder), {})
        self.assertEqual([row[1] for row in run("sources", place, "--source", self.folder).rows], ["none"] * 5)

    def test_names_that_are_no_paths(self) -> None:
        self.file("a.cs", NEW)
        for name in (b"/" + b"x" * 300 + b"/a.cs", b"/a.cs/" + b"x" * 300, b"/" + b"d/" * 3000 + b"a.cs", b"/a\0b/a.cs", b"", b"\\\\?\\", HOSTILE,
                     b"\xff/a.cs"):
            place = self.file("H.pdb", debug_file([Doc(name, sha(NEW))]))
            self.inside(place, "--source", self.folder)
            run("sources", place, "--source", self.folder)

    def test_embedded_sources(self) -> None:
        """A file of a folder stands in for an embedded source that is damaged, and for no other."""
        self.file("none.cs", NEW)
        cases = {"plain": (bytes(4) + NEW, {}), "packed": (embedded_source(NEW), {}), "other": (bytes(4) + OLD, {}),
                 "damaged": (b"\x09\0\0\0\xff\xff", {"/none.cs": NEW}), "cut": (b"\1\2", {"/none.cs": NEW}),
                 "longer than it says": (embedded_source(NEW, 3), {"/none.cs": NEW}), "no source": (None, {"/none.cs": NEW})}
        for what, (value, files) in cases.items():
            with self.subTest(what):
                place = self.file("E.pdb", debug_file([Doc(b"/none.cs", sha(NEW), value)]))
                self.assertEqual(self.sources(place, "--source", self.folder), files)
                self.assertEqual(self.sources(place), {})

    def test_files_that_the_page_would_take_for_something_else(self) -> None:
        for data in (b"BSJB", b"MZ", b"ppdbmap 1\n", b"Microsoft C/C++ MSF 7.00"):
            self.file("x.cs", data)
            place = self.file("E.pdb", debug_file([Doc(b"/x.cs", sha(data))]))
            self.assertEqual(self.sources(place, "--source", self.folder), {})

    def test_names_of_methods(self) -> None:
        types = [Type(b"", b"<Module>", []), Type(b"Shop\xff\x1b[31m", "Or\u202eder".encode(), [(b"Div\n", b"\0\0\1")])]
        data = debug_file([Doc(b"/a.cs")], IDENTITY)
        place = self.file("App.dll", assembly([code_view(IDENTITY), embedded(data)], types))
        self.assertEqual(self.inside(place), {str(place): place.read_bytes(), str(place.with_suffix(".pdb")): data})
        self.assertEqual(self.said["shows"], [str(place.with_suffix(".pdb"))])
        other = self.file("Other.dll", assembly([code_view(bytes(20))], types))
        ended = run("page", self.file("App.pdb", data), "--assembly", other)
        self.assertEqual(ended.status, 3)
        self.assertIn("another debug file", ended.err)

    def test_a_rewrite(self) -> None:
        before, after, mapped = THROW / "before.pdb", THROW / "Throw.pdb", THROW / "throw.map"
        files = self.inside(before, "--map", mapped, after, "--assembly", THROW / "Throw.exe")
        self.assertEqual(files, {str(place): place.read_bytes() for place in (before, mapped, after, THROW / "Throw.exe")})
        self.assertEqual(self.said["shows"], [str(before), str(after)])
        ended = run("page", before, "--map", self.file("unfit.map", b"ppdbmap 1\nrows 06 9\nrow 06 9 1\nmethod 9999 1 1\n"), after)
        self.assertEqual((ended.status, ended.out), (3, b""))
        self.assertIn("status 8: unfit", ended.err)

    def test_the_empty_page(self) -> None:
        """Without ppdb.html, or with another file in its place, the command says so."""
        for name, why in (("/none/ppdb.html", "No such file"), (str(ROOT / "README.md"), "this is not ppdb.html")):
            with unittest.mock.patch.dict(os.environ, {"PPDB_PAGE": name}):
                ended = run("page", ASYNC)
                self.assertEqual((ended.status > 1, ended.out), (True, b""))
                self.assertIn(why, ended.err)
        with unittest.mock.patch.dict(os.environ, {"PPDB_PAGE": ""}), unittest.mock.patch("ppdb_tools.commands.page.PLACES", ()):
            ended = run("page", ASYNC)
            self.assertEqual(ended.status, 2)
            self.assertIn("there is no ppdb.html", ended.err)

    def test_a_page_of_an_assembly_says_what_to_do(self) -> None:
        ended = run("page", ROOT / "examples/throw/trace")
        self.assertEqual(ended.status, 1)
        self.assertIn("F1 root byte 0: this is no Portable PDB", ended.err)

    def test_names_of_files(self) -> None:
        """A name that is not UTF-8, has a newline or begins with dashes is a name."""
        for name in (b"\xff.pdb", b"a\nb\x1b.pdb", b"</title><script>.pdb"):
            place = self.file(name.replace(b"/", b"_"), debug_file([Doc(b"/a.cs")]))
            ended = run("page", os.fsencode(place))
            self.assertEqual(ended.status, 0)
            before, after = Path(os.environ["PPDB_PAGE"]).read_bytes().split(b"<!-- files -->")
            self.assertTrue(ended.out.startswith(before) and ended.out.endswith(after))
            inside = ended.out[len(before):len(ended.out) - len(after)]
            self.assertEqual(inside.count(b"<"), 2)
            self.assertNotIn(b"\x1b", inside)


class Sources(InFolder):
    def test_a_list(self) -> None:
        link = json.dumps({"documents": {"/src/*": "https://example.org/*"}}).encode()
        documents = [Doc(b"/src/a.cs", sha(NEW)), Doc(b"/gen/b.cs", sha(NEW)), Doc(b"/gen/c.cs", sha(NEW), bytes(4) + NEW)]
        place = self.file("S.pdb", debug_file(documents, link=link))
        ended = run("sources", place)
        self.assertEqual(ended.rows, [["1", "url", "-", "/src/a.cs", "https://example.org/a.cs"], ["2", "none", "-", "/gen/b.cs", "-"],
                                      ["3", "embedded", "agrees", "/gen/c.cs", "-"]])
        self.assertEqual(run("sources", place, "--check").status, 1)
        self.file("gen/b.cs", NEW)
        self.assertEqual(run("sources", place, "--check", "--source", self.folder).status, 0)
        self.assertEqual(run("sources", place, "--urls").rows, [["sha256", sha(NEW).hex(), "https://example.org/a.cs"]])
        self.assertEqual([json.loads(line)["found"] for line in run("sources", place, "--json").text.splitlines()], [True, False, True])

    def test_a_wrong_source_link_record_is_said(self) -> None:
        ended = run("sources", self.file("S.pdb", debug_file([Doc(b"/a.cs")], link=b"no json")))
        self.assertIn("not JSON", ended.err)

    def test_extract_stays_below_its_folder(self) -> None:
        names = [b"/src/a.cs", b"C:\\src\\b.cs", b"../../up.cs", b"/../x/../../up2.cs", b"", b"a\x1b[31m\n.cs", b"x" * 300, b"/src", b"n\0ul.cs", HOSTILE]
        place = self.file("S.pdb", debug_file([Doc(name, sha(NEW), bytes(4) + NEW) for name in names]))
        ended = run("sources", place, "--extract", self.folder / "out/deep")
        self.assertEqual(ended.status, 1)
        found = list(below(self.folder / "out/deep"))
        self.assertIn("src/a.cs", found)
        self.assertIn("C/src/b.cs", found)
        self.assertIn("__/__/up.cs", found)
        self.assertEqual(list(below(self.folder)), ["S.pdb", *(f"out/deep/{name}" for name in found)])
        self.assertTrue(all(name.isprintable() for name in found))
        self.assertTrue(ended.out.decode("ascii").replace("\t", "").replace("\n", "").isprintable())

    def test_extract_follows_no_link(self) -> None:
        outside, out = self.file("outside/x", b""), self.folder / "out"
        out.mkdir()
        (out / "src").symlink_to(outside.parent)
        (out / "b.cs").symlink_to(outside)
        place = self.file("S.pdb", debug_file([Doc(b"/src/a.cs", b"", bytes(4) + NEW), Doc(b"b.cs", b"", bytes(4) + NEW)]))
        ended = run("sources", place, "--extract", out)
        self.assertEqual(ended.status, 1)
        self.assertEqual((outside.read_bytes(), os.listdir(outside.parent)), (b"", ["x"]))
        self.assertEqual([row[2].split(":")[0] for row in ended.rows], ["fault", "differs"])

    def test_an_example(self) -> None:
        self.assertEqual(run("sources", ASYNC, "--source", ROOT / "examples", "--check").status, 0)
