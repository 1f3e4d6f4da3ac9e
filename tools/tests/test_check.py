"""`ppdb-tools check`: what is found, in which form it is printed, and the exit status."""
import hashlib
import json
import os
import re
import shutil
import unittest

from made import assembly, code_view, embedded
from support import HOSTILE, ROOT, TINY, Doc, InFolder, command, debug_file, run

from ppdb_tools.checking import RULES
from ppdb_tools.faults import FAULTS, sentence
from ppdb_tools.reports import command_data, command_property

IDENTITY, OTHER = bytes(range(20)), bytes(range(20, 40))
SOURCE = b"class A {}\n"
WHOLE = Doc(b"/src/a.cs", hashlib.sha256(SOURCE).digest(), bytes(4) + SOURCE)
CECIL = ROOT / "corpus/refused/cecil-null.pdb"


class Faults(unittest.TestCase):
    def test_each_code_of_the_format_has_a_sentence(self) -> None:
        codes = re.findall(r"^\| F(\d+) \|", (ROOT / "docs/FORMAT.md").read_text(encoding="utf-8"), re.M)
        self.assertEqual(sorted(set(map(int, codes))), sorted(FAULTS))

    def test_known_writers_are_named(self) -> None:
        self.assertIn("F#", sentence("F39 table 31 row 1 column 1 byte 0"))
        self.assertIn("ppdb-tools repair", sentence("F29 table 32 row 1 column 2 byte 0"))
        self.assertNotIn("repair", sentence("F39 table 35 row 1 column 1 byte 0"))
        self.assertEqual(sentence("F41 root byte 0"), "")

    def test_workflow_commands(self) -> None:
        self.assertEqual(command_property("a,b:c%\r\nd"), "a%2Cb%3Ac%25%0D%0Ad")
        self.assertEqual(command_data("a,b:c%\n"), "a,b:c%25%0A")


class Check(InFolder):
    def rules(self, *words: object) -> tuple[int, list[list[str]]]:
        """The status, and the rules of each file's findings."""
        ended = run("check", "--format", "json", *words)
        return ended.status, [[it["rule"] for it in json.loads(line)["findings"]] for line in ended.text.splitlines()]

    def test_debug_files(self) -> None:
        good, cut = self.file("good.pdb", debug_file([WHOLE])), self.file("cut.pdb", TINY.read_bytes()[:50])
        self.assertEqual(self.rules(good), (0, [[]]))
        self.assertEqual(self.rules(good, cut, CECIL), (1, [[], ["F3"], ["F39"]]))
        self.assertEqual(self.rules(TINY), (1, [["no-source"]]))
        self.assertEqual(self.rules(TINY, "--format-only"), (0, [[]]))
        self.assertEqual(self.rules(good, self.folder / "gone.pdb"), (3, [[], ["read"]]))
        self.assertEqual(self.rules(self.file("text.pdb", b"text")), (1, [["F1"]]))

    def test_assemblies(self) -> None:
        pdb, other = debug_file([WHOLE], IDENTITY), debug_file([WHOLE], OTHER)
        inside = self.file("a/App.dll", assembly([code_view(IDENTITY), embedded(pdb)]))
        beside, _ = self.file("b/App.dll", assembly([code_view(IDENTITY)])), self.file("b/App.pdb", pdb)
        renamed, _ = self.file("c/New.exe", assembly([code_view(IDENTITY, rb"C:\x\Old.pdb")])), self.file("c/Old.pdb", pdb)
        self.assertEqual(self.rules(inside, beside, renamed), (0, [[], [], []]))
        wrong, _ = self.file("d/App.dll", assembly([code_view(IDENTITY)])), self.file("d/App.pdb", other)
        mixed = self.file("e/App.dll", assembly([code_view(IDENTITY), embedded(other)]))
        alone, damaged = self.file("f/App.dll", assembly([code_view(IDENTITY)])), self.file("g/App.dll", assembly([code_view(IDENTITY), embedded(pdb, 7)]))
        self.assertEqual(self.rules(wrong, mixed, alone, damaged), (1, [["other-debug-file"], ["other-debug-file"], ["no-debug-file"], ["assembly"]]))
        self.assertEqual(self.rules(self.file("h/n.dll", b"MZ" + bytes(100))), (1, [["assembly"]]))
        refused = self.file("i/App.dll", assembly([code_view(CECIL.read_bytes()[0x2c:0x40]), embedded(CECIL.read_bytes())]))
        self.assertEqual(self.rules(refused)[1][0][-1], "F39")

    def test_folders(self) -> None:
        """In a folder what is not of .NET, and assemblies without debug file, are left out; links out of it are not followed."""
        pdb = debug_file([WHOLE], IDENTITY)
        self.file("bin/App.dll", assembly([code_view(IDENTITY)]))
        self.file("bin/App.pdb", pdb)
        self.file("bin/native.dll", b"MZ" + bytes(200))
        self.file("bin/sub/Library.DLL", assembly([code_view(OTHER)]))
        self.file("bin/readme.txt", b"text")
        os.mkfifo(self.folder / "bin/pipe.pdb")
        (self.folder / "bin/out.pdb").symlink_to(self.file("outside.pdb", b"secret"))
        (self.folder / "bin/loop").symlink_to(self.folder / "bin")
        ended = run("check", "--format", "json", self.folder / "bin")
        self.assertEqual([os.path.basename(json.loads(line)["file"]) for line in ended.text.splitlines()],
                         ["App.dll", "App.pdb", "native.dll", "Library.DLL"])
        self.assertEqual(ended.status, 0)
        self.assertIn("1 links", ended.err)
        with open(self.file("long/one.exe", b"MZ"), "r+b") as file:
            file.truncate(200 << 20)
        self.file("long/App.pdb", pdb)
        self.assertEqual(run("check", self.folder / "long").status, 0)
        self.assertEqual(run("check", self.folder / "long/one.exe").status, 3)
        shutil.rmtree(self.folder / "long")
        (self.folder / "empty").mkdir()
        self.assertEqual(run("check", self.folder / "empty").status, 3)
        self.assertEqual(len(run("check", "--format", "json", self.folder / "bin", self.folder / "bin/App.pdb", self.folder).text.splitlines()), 6)

    def test_sources(self) -> None:
        digest = hashlib.sha256(SOURCE).digest()
        link = b'{"documents":{"/src/*":"https://example.org/*"}}'
        self.assertEqual(self.rules(self.file("url.pdb", debug_file([Doc(b"/src/a.cs", digest)], link=link))), (0, [[]]))
        self.assertEqual(self.rules(self.file("link.pdb", debug_file([Doc(b"/src/a.cs", digest)], link=b"{"))), (1, [["source-link", "no-source"]]))
        self.assertEqual(self.rules(self.file("other.pdb", debug_file([WHOLE._replace(digest=bytes(32))]))), (1, [["other-source"]]))
        self.assertEqual(self.rules(self.file("damaged.pdb", debug_file([WHOLE._replace(source=b"\x09\0\0\0x")]))), (1, [["damaged-source"]]))
        disk = self.file("disk.pdb", debug_file([Doc(b"/src/a.cs", digest)]))
        self.file("src/a.cs", SOURCE)
        self.assertEqual(self.rules(disk, "--source", self.folder), (0, [[]]))
        self.file("src/a.cs", b"other")
        self.assertEqual(self.rules(disk, "--source", self.folder), (1, [["no-source"]]))

    def test_an_allow_list(self) -> None:
        listed = self.file("allow", b"# known\nF39 *cecil-null.pdb\nno-source tiny.pdb /src/*.cs # as well\nF1 never.pdb\n")
        ended = run("check", CECIL, TINY, "--allow", listed)
        self.assertEqual(ended.status, 0)
        self.assertIn("2 findings allowed", ended.text)
        self.assertIn("line 4 allows nothing", ended.err)
        self.assertEqual(run("check", TINY, "--allow", self.file("allow", b"no-source tiny.pdb /other/*\n")).status, 1)
        for text in (b"F41 x\n", b"F39\n", b"F39 a b c\n"):
            self.assertEqual(run("check", TINY, "--allow", self.file("allow", text)).status, 2)

    def test_a_name_makes_no_command_of_a_workflow(self) -> None:
        place = self.file(b"a\n::warning::injected,x:%.pdb", b"BSJB")
        ended = run("check", "--format", "annotations", place)
        self.assertEqual([line.split("::")[1].split(" ")[0] for line in ended.text.splitlines() if line.startswith("::")], ["error"])
        self.assertIn("%2C", ended.text)
        self.assertNotIn("::warning::", ended.text.replace("%3A", ":").split("::error", 1)[0])
        self.assertFalse(any(line.startswith("::warning") for line in ended.text.splitlines()))

    def test_sarif(self) -> None:
        ended = run("check", "--format", "sarif", CECIL, TINY, self.file("a b\xff.pdb".encode("latin-1"), b"x"))
        log = json.loads(ended.text)
        self.assertEqual(log["version"], "2.1.0")
        results = log["runs"][0]["results"]
        self.assertEqual([it["ruleId"] for it in results], ["F39", "no-source", "F1"])
        self.assertTrue({it["ruleId"] for it in results} <= {it["id"] for it in log["runs"][0]["tool"]["driver"]["rules"]} == set(RULES))
        self.assertTrue(results[2]["locations"][0]["physicalLocation"]["artifactLocation"]["uri"].endswith("a%20b%FF.pdb"))

    def test_hostile_names(self) -> None:
        place = self.file("h.pdb", debug_file([Doc(HOSTILE)] + [Doc(b"/%d.cs" % number) for number in range(30)]))
        for form in ("text", "json", "annotations", "sarif"):
            ended = run("check", "--format", form, place)
            for byte in (b"\x1b", b"\x07", "\u202e".encode(), b"\xff"):
                self.assertNotIn(byte, ended.out, form)
        self.assertEqual(run("check", place).text.count("no-source"), 11)

    def test_jobs_keep_the_order(self) -> None:
        files = [self.file(f"{number:02}.pdb", b"x" if number % 3 else debug_file([WHOLE])) for number in range(40)]
        self.assertEqual(run("check", "--jobs", 8, *files).text, run("check", "--jobs", 1, *files).text)
        self.assertEqual(run("check", "--jobs", 0, *files).status, 2)


class Lines(InFolder):
    def test_a_line_for_each_file(self) -> None:
        cut = self.file("cut file.pdb", TINY.read_bytes()[:50])
        ended = run("check", "--format", "lines", TINY, cut, self.folder / "gone.pdb", self.folder)
        shown = str(cut).replace(" ", r"\x20")
        self.assertEqual((ended.status, ended.rows), (1, [["0", str(TINY), "accepted"], ["1", shown, f"refused {shown} F3 root byte 48"],
                                                         ["6", f"{self.folder}/gone.pdb", f"absent {self.folder}/gone.pdb"],
                                                         ["3", str(self.folder), f"read fault {self.folder}"]]))

    def test_a_pipe_is_not_waited_for(self) -> None:
        os.mkfifo(self.folder / "pipe.pdb")
        self.assertEqual(command("check", "--format", "lines", self.folder / "pipe.pdb", timeout=20).status, 1)
        self.assertEqual(command("check", self.folder / "pipe.pdb", timeout=20).status, 3)

    def test_a_name_that_is_not_utf_8(self) -> None:
        place = self.file(b"\xff.pdb", TINY.read_bytes())
        self.assertEqual(run("check", "--format", "lines", os.fsencode(place)).rows, [["0", f"{self.folder}/\\xff.pdb", "accepted"]])

    def test_each_line_is_one_write(self) -> None:
        """With PYTHONUNBUFFERED each write is a system call: here a datagram, so that torn lines are seen."""
        import socket
        import subprocess
        from support import COMMAND
        for words in (("check", "--format", "lines"), ("store", self.folder / "store")):
            ours, theirs = socket.socketpair(socket.AF_UNIX, socket.SOCK_DGRAM)
            with ours, theirs:
                subprocess.run([COMMAND, *words, *[TINY] * 5], stdout=theirs, env={**os.environ, "PYTHONUNBUFFERED": "1"}, check=False)
                ours.setblocking(False)
                found = []
                try:
                    while True:
                        found.append(ours.recv(1 << 16))
                except BlockingIOError:
                    pass
            self.assertEqual([(it.count(b"\n"), it[-1:]) for it in found], [(1, b"\n")] * 5)
