"""`ppdb-tools stacktrace` and `frames`: traces of Mono and of .NET, hostile ones among them."""
import os
import shutil
import struct
import time
import unittest

from made import Type, assembly, code_view
from support import ASYNC, HOSTILE, ROOT, THROW, Doc, InFolder, debug_file, run

from ppdb_tools.places import Lines, Place
from ppdb_tools.traces import frame_of, no_offset
from ppdb_tools.inputs import Input

IDENTITY = bytes(range(20))
MVID = "030201000504070608090a0b0c0d0e0f"


class Traces(unittest.TestCase):
    def test_forms(self) -> None:
        """The parts of frames as Mono and .NET print them."""
        mono = frame_of(f"  at A+B`1[T].M (System.Int32 x, System.String y) [0x0000c] in <{MVID}>:0 ")
        self.assertEqual((mono.method, mono.parameters, mono.offset, mono.identity), ("A+B`1[T].M", "System.Int32 x, System.String y", 12, MVID))
        ahead = frame_of(f"  at A.M () [0x00001] in <{MVID}#0123456789abcdef>:0 ")
        self.assertEqual((ahead.identity, ahead.with_line("/a.cs", 3)), (MVID, "  at A.M () in /a.cs:3 "))
        dotnet = frame_of(r"   at A.<>c.M(String s) in C:\built in (x)\App.Core.DLL:token 0x6000027+0x9")
        self.assertEqual((dotnet.module, dotnet.token, dotnet.offset, dotnet.start), ("App.Core", 0x6000027, 9, "   at A.<>c.M(String s)"))
        named = frame_of(f"   at A.M() in App.dll:token 0x6000001+0x0 <{MVID[:8]}-{MVID[8:12]}-{MVID[12:16]}-{MVID[16:20]}-{MVID[20:]}>")
        self.assertEqual(named.identity, MVID)
        for other in ("", "at", "  at A.M()", "System.Exception: ) in x.dll:token 0x6+", "   at A.M() in /src/a.cs:line 3"):
            self.assertIsNone(frame_of(other), other)

    def test_frames_without_an_offset_say_why(self) -> None:
        self.assertIn("machine code", no_offset("  at A.M () <0x40d0b0 + 0x00013> in <0>:0 "))
        self.assertIn("module", no_offset("  at A.M () [0x00001] in <filename unknown>:0 "))
        self.assertIn("no file", no_offset("   at A.M() in RefEmit_InMemoryManifestModule:token 0x6000001+0x0"))
        self.assertIsNone(no_offset("System.Exception: text"))

    def test_long_lines_are_linear(self) -> None:
        for text in (") in x.dll" * 100000, ") in x.dll:token 0x6000001+0x1" * 30000, "at " + "(" * 1000000, "  at a (" + ") [0x1] in <" * 80000,
                     " " * 1000000 + "at x (", "at a (x) [0x" + "0" * 1000000, ") in " + "\t" * 1000000 + ".dll:token 0x1+0x1" + "-" * 1000000):
            start = time.process_time()
            frame_of(text)
            no_offset(text)
            self.assertLess(time.process_time() - start, 1, text[:20])


class Stacktrace(InFolder):
    def traced(self, trace: str | bytes, *words: str) -> tuple[int, str, str]:
        ended = run("stacktrace", *words, self.folder, stdin=trace.encode() if isinstance(trace, str) else trace)
        return ended.status, ended.text, ended.err

    def test_real_traces(self) -> None:
        for folder in (THROW, ROOT / "examples/overloads"):
            ended = run("stacktrace", folder, stdin=(folder / "trace").read_bytes())
            self.assertEqual((ended.status, ended.text), (0, (folder / "lines").read_text()))

    def test_hostile_names_are_escaped(self) -> None:
        """No escape reaches the terminal, and no name makes a frame of its own."""
        self.file("App.pdb", debug_file([Doc(HOSTILE)]))
        status, text, _ = self.traced("   at A.M() in App.dll:token 0x6000001+0x0\n")
        self.assertEqual(status, 0)
        self.assertEqual(text.count("\n"), 1)
        for letter in ("\x1b", "\x07", "\u202e", "\udcff"):
            self.assertNotIn(letter, text)
        self.assertIn(r"in /src/\x1b]0;x\x07\x1b[31m\x0a   at Fake.Frame() in /etc/shadow:line 1\xe2\x80\xae.cs\xff:line 5", text)

    def test_names_of_people_stay(self) -> None:
        self.file("App.pdb", debug_file([Doc("C:\\Qüelle\\日本 x.cs".encode())]))
        self.assertEqual(self.traced("   at A.M() in App.dll:token 0x6000001+0x0\n")[1],
                         "   at A.M() in C:\\Qüelle\\日本 x.cs:line 5\n")

    def test_other_bytes_of_a_trace_stay(self) -> None:
        self.file("App.pdb", debug_file([Doc(b"/a.cs")]))
        trace = b"\xff\xfe raw\r\n\tat \x00\n   at A.M() in App.dll:token 0x6000001+0x0\r\nlast"
        self.assertEqual(run("stacktrace", self.folder, stdin=trace).out,
                         b"\xff\xfe raw\r\n\tat \x00\n   at A.M() in /a.cs:line 5\r\nlast\n")

    def test_why_a_frame_has_no_line(self) -> None:
        self.file("App.pdb", debug_file([Doc(b"/a.cs")]))
        status, _, said = self.traced("   at A.M() in App.dll:token 0x6000001+0x0\n   at A.M() in Gone.dll:token 0x6000001+0x0\n"
                                      "   at A.M() in App.dll:token 0x6000009+0x0\n", "--why")
        self.assertEqual(status, 0)
        self.assertIn("there is no Gone.pdb", said)
        self.assertIn("App.pdb: there is no such method", said)
        self.assertIn("2 frames have no line", said)
        self.assertEqual(self.traced("text\n")[0], 1)

    def test_a_file_that_is_refused_names_repair(self) -> None:
        shutil.copy(ROOT / "corpus/refused/cecil-null.pdb", self.folder / "App.pdb")
        status, _, said = self.traced("   at A.M() in App.dll:token 0x6000001+0x0\n")
        self.assertEqual(status, 1)
        self.assertIn("ppdb-tools repair", said)

    def test_many_stream_headers_take_no_memory(self) -> None:
        """A debug file of 1 MB with 60,000 headers, each of a stream that is the whole file."""
        headers = struct.pack("<II", 0, 1200000) + b"#A\0\0"
        data = b"BSJB" + struct.pack("<HHII", 1, 1, 0, 4) + b"v\0\0\0" + struct.pack("<HH", 0, 60000) + headers * 60000
        self.file("App.pdb", data.ljust(1200100, b"\0"))
        start = time.process_time()
        status, _, _ = self.traced("   at A.M() in App.dll:token 0x6000001+0x0 <00010203-0405-0607-0809-0a0b0c0d0e0f>\n")
        self.assertEqual(status, 1)
        self.assertLess(time.process_time() - start, 1)

    def test_a_link_out_of_the_folder_is_not_opened(self) -> None:
        outside = self.file("outside/App.pdb", debug_file([Doc(b"/secret.cs")]))
        inside = self.folder / "symbols"
        inside.mkdir()
        (inside / "App.pdb").symlink_to(outside)
        ended = run("stacktrace", inside, stdin=b"   at A.M() in App.dll:token 0x6000001+0x0\n")
        self.assertEqual(ended.status, 1)
        self.assertNotIn("secret", ended.text)
        os.mkfifo(inside / "Pipe.pdb")
        self.assertEqual(run("stacktrace", inside, stdin=b"   at A.M() in Pipe.dll:token 0x6000001+0x0\n").status, 1)

    def test_a_name_in_a_trace_is_no_path(self) -> None:
        self.file("App.pdb", debug_file([Doc(b"/a.cs")]))
        (self.folder / "symbols").mkdir()
        ended = run("stacktrace", self.folder / "symbols", stdin=b"   at A.M() in ../App.dll:token 0x6000001+0x0\n")
        self.assertEqual(ended.status, 1)

    def test_overloads_by_their_parameters(self) -> None:
        types = [Type(b"", b"<Module>", []), Type(b"", b"A", [(b"M", b"\0\1\1\x08"), (b"M", b"\0\1\1\x0e")])]
        self.file("App.dll", assembly([code_view(IDENTITY)], types))
        self.file("App.pdb", debug_file([Doc(b"/int.cs"), Doc(b"/string.cs")], IDENTITY))
        _, text, _ = self.traced(f"  at A.M (System.String x) [0x00000] in <{MVID}>:0 \n")
        self.assertEqual(text, "  at A.M (System.String x) in /string.cs:5 \n")

    def test_what_is_in_scope_may_be_much_more_than_the_file(self) -> None:
        """Where `lookup` prints too much, `show` gives the same lines."""
        questions = [Place(39, 9), Place(6, 94), Place(24, 47), Place(1, 5), Place(12, 0), Place(50, 0)]
        with Input.open(str(ASYNC)) as file:
            usual, scanned = Lines(file), Lines(file)
            usual.ask(questions)
            scanned.scan(set(questions))
        self.assertEqual(usual.found, scanned.found)
        self.assertEqual(set(usual.why), set(scanned.why))


class Frames(InFolder):
    def test_frames(self) -> None:
        """What docs/RECIPES.md shows by hand."""
        listed = self.file("list", b"# frames\n0x06000027 0x9\n\n6 94\n24 47\n500 0\n")
        ended = run("frames", ASYNC, listed)
        self.assertEqual(ended.rows, [["39", "9", "20:119", "/src/async_iter.cs"], ["6", "94", "21:116", "/src/async_iter.cs"],
                                      ["24", "47", "8:23", "/src/async_iter.cs"], ["500", "0", "-", "there is no such method"]])
        self.assertEqual(ended.status, 1)

    def test_wrong_lists(self) -> None:
        for text in (b"1", b"1 2 3", b"abc 0", b"1 2147483648", b"16777216 0", b"1 -1", b"0x07000001 0", "１ ２".encode()):
            ended = run("frames", ASYNC, self.file("list", text))
            self.assertEqual(ended.status, 3, text)

    def test_hostile_names(self) -> None:
        place = self.file("App.pdb", debug_file([Doc(HOSTILE)]))
        ended = run("frames", place, self.file("list", b"1 0\n"))
        self.assertEqual(ended.out.count(b"\n"), 1)
        self.assertTrue(ended.out.decode("ascii").rstrip("\n").replace("\t", "").isprintable())


if __name__ == "__main__":
    unittest.main()
