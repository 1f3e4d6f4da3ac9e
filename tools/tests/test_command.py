"""The command itself: help, wrong words, names, the installation, and what it costs."""
import argparse
import os
import re
import shutil
import subprocess
import sys
import unittest
from pathlib import Path

from made import assembly, code_view
from support import ASYNC, COMMAND, ROOT, TINY, Doc, InFolder, command, debug_file, embedded_source, pdbfile, run

from ppdb_tools import main
from ppdb_tools.names import escaped, printable, text_of, unescaped

MEGABYTE = 1 << 20


class Names(unittest.TestCase):
    def test_escapes(self) -> None:
        for name, shown in {b"/a b": r"/a\x20b", b"": r"\-", b"\\": r"\x5c", b"\xc3\xa4\xff": r"\xc3\xa4\xff", b"a\x1b\n": r"a\x1b\x0a"}.items():
            self.assertEqual((escaped(name), unescaped(shown)), (shown, name))
        for text in ("ä日本 x", "C:\\a"):
            self.assertEqual(printable(text), text)
        for text, shown in {"\x1b[31m": r"\x1b[31m", "a\u202eb": r"a\xe2\x80\xaeb", "\u2066\u2028\x85\x7f": r"\xe2\x81\xa6\xe2\x80\xa8\xc2\x85\x7f",
                            text_of(r"\xff"): r"\xff", "\r\n\t": r"\x0d\x0a\x09"}.items():
            self.assertEqual(printable(text), shown)


class Words(unittest.TestCase):
    def test_help(self) -> None:
        overview = run("help").text
        for name in main.SUBCOMMANDS:
            self.assertIn(f"\n  {name} ", overview)
            said = run(name, "--help").text
            self.assertIn("example:\n  ", said)
            self.assertIn(f"ppdb-tools {name}", said)
            self.assertEqual(said, run("help", name).text)

    def test_the_manual_page_and_completions_have_all_words(self) -> None:
        """Each subcommand and each of its options, but for `--copy`, which is what `store` does anyway."""
        page = (ROOT / "tools/man/ppdb-tools.1").read_text().replace("\\-", "-")
        shells = [(ROOT / "tools/completions" / name).read_text() for name in ("ppdb-tools.bash", "_ppdb-tools", "ppdb-tools.fish")]
        for name in main.SUBCOMMANDS:
            self.assertIn(f".B {name}\n", page)
            for shell in shells:
                self.assertRegex(shell, rf"\b{name}\b")
            options = [word for action in main.parser_of(name)._actions if not isinstance(action, argparse._HelpAction)
                       for word in action.option_strings if word != "--copy"]
            synopsis = "".join(line for line in page.splitlines(True) if line.startswith(f"ppdb-tools {name} "))
            for option in options:
                self.assertIn(option, synopsis)
                self.assertTrue(all(option in shell for shell in shells[:2]) and f" -l {option[2:]} " in shells[2], option)
            self.assertLessEqual(set(re.findall(r"--[a-z][a-z-]*", synopsis)), set(options))

    def test_completions_are_read(self) -> None:
        said = 'cd /; . "$0"; COMP_WORDS=(ppdb-tools "$1" "$2"); COMP_CWORD=2; _ppdb_tools; echo "${COMPREPLY[@]}"'
        ended = subprocess.run(["bash", "-c", said, ROOT / "tools/completions/ppdb-tools.bash", "check", "--fo"], capture_output=True, text=True, check=True)
        self.assertEqual(ended.stdout, "--format-only --format\n")
        for shell, name in (("zsh", "_ppdb-tools"), ("fish", "ppdb-tools.fish")):
            if shutil.which(shell):
                subprocess.run([shell, "-n", ROOT / "tools/completions" / name], check=True)

    def test_wrong_words(self) -> None:
        self.assertEqual(run("none").status, 2)
        self.assertIn('"none"', run("none").err)
        for name in main.SUBCOMMANDS:
            self.assertEqual(run(name).status, 2, name)
            self.assertEqual(run(name, "--none").status, 2, name)
        self.assertEqual(run().status, 2)

    def test_no_program(self) -> None:
        ended = command("check", TINY, env={**os.environ, "PPDB": "/none"})
        self.assertEqual(ended.status, 2)
        self.assertEqual(ended.err.count("\n"), 1)

    def test_a_closed_pipe(self) -> None:
        ended = subprocess.run(["bash", "-c", '"$@" | head -n 1; exit ${PIPESTATUS[0]}', "-", COMMAND, "check", "--format", "lines", *[TINY] * 50],
                               capture_output=True, check=False)
        self.assertEqual((ended.stdout.count(b"\n"), ended.stderr), (1, b""))

    def test_a_full_disk(self) -> None:
        with open("/dev/full", "wb") as full:
            ended = subprocess.run([COMMAND, "stats", ASYNC], stdout=full, stderr=subprocess.PIPE, check=False)
        self.assertEqual(ended.returncode, 4)
        self.assertIn(b"No space", ended.stderr)

    def test_what_a_shell_opens(self) -> None:
        ended = subprocess.run(["bash", "-c", f'"{COMMAND}" stats <(cat "{ASYNC}") | head -n 1'], capture_output=True, check=False)
        self.assertEqual(ended.stdout, b"part\theaders\t1\t124\n")

    def test_old_names(self) -> None:
        for name in ("extract-embedded", "page", "repair", "stack-maps", "stacktrace", "symbol-store", "verify-each"):
            script = ROOT / "scripts" / name
            self.assertEqual(len(script.read_text().splitlines()), 2)
            self.assertIn("example:", subprocess.run([script, "--help"], capture_output=True, text=True, check=True).stdout)


class Terminals(InFolder):
    def on_terminal(self, *words: object, **more: str) -> str:
        """What a person sees: standard output and standard error are a terminal."""
        import pty
        ours, theirs = pty.openpty()
        env = {name: value for name, value in os.environ.items() if name != "NO_COLOR"} | {"TERM": "xterm"} | more
        with subprocess.Popen([COMMAND, *map(str, words)], stdin=subprocess.DEVNULL, stdout=theirs, stderr=theirs, env=env) as run:
            os.close(theirs)
            found = b""
            try:
                while data := os.read(ours, 1 << 16):
                    found += data
            except OSError:
                # The other side of a terminal is closed.
                pass
            run.wait()
        os.close(ours)
        return found.decode()

    def test_columns_and_colours(self) -> None:
        self.assertTrue(self.on_terminal("stats", TINY).startswith("\x1b[1mgroup     name"))
        self.assertTrue(self.on_terminal("stats", TINY, NO_COLOR="1").startswith("group     name"))
        self.assertNotIn("\t", self.on_terminal("stats", TINY))
        self.assertIn("\x1b[31m-\x1b[0m", self.on_terminal("sources", TINY))
        self.assertIn("\x1b[31mno-source", self.on_terminal("check", TINY))
        self.assertNotIn("\x1b", self.on_terminal("check", TINY, TERM="dumb"))

    def test_names_control_no_terminal(self) -> None:
        from support import HOSTILE
        place = self.file("h.pdb", debug_file([Doc(HOSTILE)]))
        for words in (("stats", place), ("sources", place), ("check", place), ("diff", place, TINY)):
            seen = re.sub("\x1b\\[[0-9]*m", "", self.on_terminal(*words, NO_COLOR="1"))
            self.assertTrue(all(line.expandtabs().isprintable() for line in seen.split("\r\n")), words)

    def test_progress_of_long_work(self) -> None:
        slow = self.file("slow", b"#!/bin/sh\nsleep 0.1\necho accepted\n")
        slow.chmod(0o755)
        seen = self.on_terminal("check", "--format", "lines", *[TINY] * 12, PPDB=str(slow))
        self.assertRegex(seen, r"\r\x1b\[K\d+ of 12 files ")
        self.assertEqual(command("check", "--format", "lines", *[TINY] * 12, env={**os.environ, "PPDB": str(slow)}).err, "")


class Installed(InFolder):
    def test_the_package_and_the_command_are_on_the_path(self) -> None:
        """Nothing that is needed lies below share/doc, which some systems leave out."""
        words = ["make", "-s", "-C", ROOT, "install-tools", f"prefix={self.folder}"]
        if subprocess.run(words, capture_output=True, check=False).returncode:
            self.skipTest("there is no make here")
        self.assertFalse((self.folder / "share/doc").exists())
        shutil.copy(os.environ["PPDB"], self.folder / "bin/ppdb")
        bare = {"PATH": f"{self.folder}/bin:/usr/bin:/bin:{os.path.dirname(sys.executable)}"}
        ended = subprocess.run(["ppdb-tools", "check", "--format", "lines", "tiny.pdb"], cwd=ROOT / "corpus", env=bare, capture_output=True, check=False)
        self.assertEqual(ended.stdout, b"0\ttiny.pdb\taccepted\n", ended.stderr)
        (self.folder / "share/ppdb/ppdb.html").unlink(missing_ok=True)
        page = subprocess.run(["ppdb-tools", "page", TINY], env=bare, capture_output=True, check=False)
        self.assertEqual((page.returncode, page.stdout), (2, b""))
        self.assertIn(b"there is no ppdb.html", page.stderr)
        shutil.copy(os.environ["PPDB_PAGE"], self.folder / "share/ppdb")
        page = subprocess.run(["ppdb-tools", "page", TINY], env=bare, capture_output=True, check=False)
        self.assertIn(b'"title": "tiny.pdb"', page.stdout)
        for place in ("share/man/man1/ppdb-tools.1", "share/bash-completion/completions/ppdb-tools", "share/zsh/site-functions/_ppdb-tools",
                      "share/fish/vendor_completions.d/ppdb-tools.fish"):
            self.assertTrue((self.folder / place).is_file(), place)
        subprocess.run([*words[:4], "uninstall-tools", words[5]], check=True, capture_output=True)
        self.assertEqual([file.name for file in self.folder.rglob("*") if file.is_file()], ["ppdb"])


class Costs(InFolder):
    def measured(self, *words: object, stdin: bytes = b"", allowed: float = 1) -> None:
        """Runs the command over input of about a megabyte: no traceback, no more than some seconds of the processor, and no more memory
        than ten times the input and 100 MB."""
        code = ("import resource, subprocess, sys\n"
                "ended = subprocess.run(sys.argv[1:], stdout=subprocess.DEVNULL, stderr=subprocess.PIPE)\n"
                "used = resource.getrusage(resource.RUSAGE_CHILDREN)\n"
                "sys.stderr.buffer.write(ended.stderr[-500:])\n"
                "print(used.ru_utime + used.ru_stime, used.ru_maxrss)")
        ended = subprocess.run([sys.executable, "-c", code, COMMAND, *map(str, words)], input=stdin, capture_output=True, timeout=120, check=True)
        seconds, kilobytes = map(float, ended.stdout.split())
        size = len(stdin) + sum(os.path.getsize(word) for word in words if isinstance(word, Path) and word.is_file())
        self.assertNotIn(b"Traceback", ended.stderr)
        # A start of Python takes a tenth of a second, ten on a busy machine.
        self.assertLess(seconds, 1 + 2 * allowed * max(1, size / MEGABYTE), f"{words[0]}: {seconds} s for {size} bytes")
        self.assertLess(kilobytes * 1024, 10 * size + 100 * MEGABYTE, f"{words[0]}: {kilobytes} KB for {size} bytes")

    def test_embedded_sources_that_unpack_to_much(self) -> None:
        bombs = [Doc(b"/%d.cs" % number, b"", embedded_source(b"\n" * (20 << 20))) for number in range(4)]
        place = self.file("bombs.pdb", debug_file(bombs))
        for words in (("page", place), ("sources", place), ("check", place), ("sources", place, "--extract", self.folder / "out")):
            self.measured(*words)

    def test_many_markers(self) -> None:
        self.measured("extract", self.file("m.dll", assembly([code_view(bytes(20))], extra=b"MPDB\x10\0\0\0" * 125000)), self.folder / "out")

    def test_long_trace_lines(self) -> None:
        self.measured("stacktrace", self.folder, stdin=b") in x.dll" * 100000)
        self.measured("stacktrace", self.folder, stdin=b"\n" * MEGABYTE)
        self.measured("stacktrace", self.folder, stdin=b"".join(b"at A.M() in x.dll:token 0x6000001+0x%x\n" % number for number in range(25000)))

    def test_what_is_in_scope_is_much_more_than_the_file(self) -> None:
        """2,000 scopes in one another, each with the last of a chain of 2,000 import scopes: one answer of lookup has 4 million lines."""
        pdb, blobs, count = pdbfile.Pdb(), pdbfile.Heap(), 2000
        pdb.counts[0x00] = pdb.counts[0x11] = pdb.counts[0x06] = 1
        pdb.tables[0x30] = [(blobs.blob(b"\0" + pdbfile.unsigned(blobs.blob(b"/a.cs"))), 0, 0, 0)]
        pdb.tables[0x31] = [(1, blobs.blob(pdbfile.points_blob(0, 3)))]
        pdb.tables[0x32] = [(1, count, 1, 1, 0, 2 * count - row) for row in range(count)]
        pdb.tables[0x35] = [(row, 0) for row in range(count)]
        pdb.blobs = bytes(blobs.data)
        place = self.file("Deep.pdb", pdbfile.write(pdb))
        self.measured("stacktrace", self.folder, stdin=b"   at A.M() in Deep.dll:token 0x6000001+0x8\n" * 3)
        self.measured("frames", place, self.file("list", b"1 8\n1 4\n"))

    def test_a_large_file(self) -> None:
        data = pdbfile.write(pdbfile.made(8000))
        place, other = self.file("a.pdb", data), self.file("b.pdb", data)
        for words in (("check", place), ("sources", place), ("stats", place), ("diff", place, other), ("repair", place, self.folder / "out.pdb")):
            self.measured(*words, allowed=2)


if __name__ == "__main__":
    unittest.main()
