"""Which files are opened: those that the words name, those below named folders, and those of Python and of the package; whatever names a
debug file, an assembly or a trace has."""
import hashlib
import os
import sys
import tempfile
from pathlib import Path

from made import Type, assembly, code_view
from support import ROOT, Doc, InFolder, debug_file, run

IDENTITY = bytes(range(20))
OPENED: list[str] = []
IS_WATCHING = False


def watch(event: str, words: tuple) -> None:
    """Notes each name that is opened. A hook stays as long as the process."""
    if IS_WATCHING and event == "open" and isinstance(words[0], (str, bytes, os.PathLike)):
        OPENED.append(os.fsdecode(words[0]))


sys.addaudithook(watch)


class Opened(InFolder):
    def opened(self, *words: object, stdin: bytes = b"") -> list[str]:
        """What a run opens outside of the folder `named`."""
        global IS_WATCHING
        OPENED.clear()
        IS_WATCHING = True
        try:
            run(*words, stdin=stdin)
        finally:
            IS_WATCHING = False
        mine = (self.folder / "named", ROOT / "tools/src", ROOT / "share/ppdb", sys.prefix, sys.base_prefix, "/usr/lib")
        allowed = [os.path.realpath(place) for place in mine]
        # A file without a name is made in the folder of temporary files; the program and the empty page have names of their own.
        own = (os.path.realpath(os.environ[name]) for name in ("PPDB", "PPDB_PAGE"))
        free = {"/dev/null", "/dev/stdin", os.path.realpath(tempfile.gettempdir()), *own}
        # A name without a slash is opened in a folder that is open already: no word here is one.
        found = [os.path.realpath(name) for name in OPENED if "/" in name]
        return [name for name in found if name not in free and not any(Path(name).is_relative_to(place) for place in allowed)
                and not (os.path.dirname(name) == os.path.realpath(tempfile.gettempdir()) and os.path.basename(name).startswith("tmp"))]

    def test_a_debug_file_chooses_no_file(self) -> None:
        secret = self.file("outside/secret.cs", b"secret")
        digest = hashlib.sha256(b"secret").digest()
        names = [b"/etc/passwd", b"../outside/secret.cs", b"../../../../etc/passwd", b"/proc/self/environ", b"/dev/tty", os.fsencode(secret),
                 b"C:\\Windows\\secret.cs", b"linked/secret.cs", b"secret.cs"]
        place = self.file("named/App.pdb", debug_file([Doc(name, digest) for name in names], IDENTITY, link=b'{"documents":{"*":"file:///etc/*"}}'))
        types = [Type(b"", b"<Module>", []), Type(b"", b"A", [(b"M", b"\0\0\1")])]
        app = self.file("named/App.dll", assembly([code_view(IDENTITY, os.fsencode(secret))], types))
        other = self.file("named/Other.dll", assembly([code_view(IDENTITY, b"../outside/secret.cs")], types))
        (self.folder / "named/linked").symlink_to(secret.parent)
        (self.folder / "named/secret.cs").symlink_to(secret)
        (self.folder / "named/Linked.pdb").symlink_to(secret)
        named = self.folder / "named"
        trace = b"   at A.M() in ../outside/secret.dll:token 0x6000001+0x0\n   at A.M() in Linked.dll:token 0x6000001+0x0\n" \
            b"   at A.M() in App.dll:token 0x6000001+0x0\n   at A.M() in /etc/passwd.dll:token 0x6000001+0x0\n"
        for words in (("page", place, "--source", named), ("page", app, "--source", named), ("page", other), ("sources", place, "--source", named),
                      ("sources", place), ("check", named, "--source", named), ("check", other, app), ("stats", place), ("diff", app, place),
                      ("sources", place, "--extract", named / "out"), ("extract", app), ("store", named / "store", place, app),
                      ("repair", place, named / "repaired.pdb"), ("stack-maps", named / "maps", place)):
            self.assertEqual(self.opened(*words), [], words)
        self.assertEqual(self.opened("stacktrace", named, stdin=trace), [])

    def test_the_watch_sees_what_is_opened(self) -> None:
        """A test that cannot fail is none."""
        outside = self.file("outside/App.pdb", debug_file([Doc(b"/a.cs")]))
        self.assertEqual(self.opened("stats", outside), [os.path.realpath(outside)])
