"""Maps from two modules, and the judgement of maps: the comparison of sequences, code, signatures, map texts, and the commands."""
import itertools
import random
import time
import unittest

from coded import ADD, DUP, LOAD_0, LOAD_1, NOP, POP, RETURN, STORE_0, STORE_1, VOID, VOID_OF_TEXT, Kind, Method, Texts, call, constant, module, text
from support import THROW, InFolder, run

from ppdb_tools.errors import Damaged
from ppdb_tools.il import OPERATIONS, decode
from ppdb_tools.mapping import CodeMap, Map, read_map
from ppdb_tools.match.align import align, by_rare_items, longest
from ppdb_tools.match.module import Module
from ppdb_tools.match.signatures import Reader
from ppdb_tools.match.texts import name_of

TEXTS = Texts("one", "two", "log")
ONE, TWO, LOG = (text(TEXTS.places[each]) for each in ("one", "two", "log"))
LINE = 0x0A000001
# [System]Console.WriteLine of a text.
SYSTEM = {"assemblies": (b"mscorlib",), "references": ((1, b"System", b"Console"),), "members": ((1, b"WriteLine", VOID_OF_TEXT),), "texts": TEXTS}
LOCALS = b"\x07\x02\x08\x0e"
BODY = NOP + ONE + call(LINE) + NOP + TWO + call(LINE) + RETURN


def certain(old: list[int], new: list[int]) -> tuple[list[tuple[int, int]], set[int]]:
    """The pairs that all longest common subsequences have, and the old items that only some have or have with several others; by trying all."""
    best: list[frozenset] = []
    for size in range(min(len(old), len(new)), -1, -1):
        best = [frozenset(zip(first, second)) for first in itertools.combinations(range(len(old)), size)
                for second in itertools.combinations(range(len(new)), size) if all(old[at] == new[to] for at, to in zip(first, second))]
        if best:
            break
    all_of, some = frozenset.intersection(*best), frozenset.union(*best)
    return sorted(all_of), {at for at, _ in some} - {at for at, _ in all_of}


class Sequences(unittest.TestCase):
    def test_pairs_are_those_of_all_longest_common_subsequences(self) -> None:
        random.seed(1)
        for _ in range(600):
            letters = random.choice((2, 3, 4))
            old, new = ([random.randrange(letters) for _ in range(random.randrange(7))] for _ in range(2))
            pairs, unsure = certain(old, new)
            found = align(old, new)
            self.assertEqual(found.pairs, pairs, (old, new))
            self.assertLessEqual(unsure, set(found.unsure), (old, new))
            if old and new:
                self.assertEqual(longest(old, new).pairs, pairs, (old, new))

    def test_long_sequences(self) -> None:
        old = [at % 7 if at % 3 else at + 10 for at in range(3000)]
        new = [key for at, key in enumerate(old) for key in ((key, 5) if at % 11 == 0 else (key,))]
        began = time.process_time()
        pairs = longest(old, new).pairs
        self.assertLess(time.process_time() - began, 2)
        self.assertGreater(len(pairs), 2900)
        self.assertLessEqual(set(pairs), set(align(old, new).pairs))
        self.assertGreater(len(by_rare_items(old, new).pairs), 2000)


class Code(unittest.TestCase):
    def names(self, code: bytes) -> list[tuple[str, object]]:
        found = decode(code)
        return [(OPERATIONS[operation].name, operand) for operation, operand in zip(found.operations, found.operands)]

    def test_short_and_long_forms_are_one(self) -> None:
        for short, long in ((b"\x06", b"\xfe\x0c\0\0"), (b"\x11\x02", b"\xfe\x0c\x02\0"), (b"\x0c", b"\x13\x02"), (b"\x03", b"\x0e\x01"),
                            (b"\x15", b"\x20\xff\xff\xff\xff"), (b"\x1e", b"\x1f\x08"), (b"\x1f\xfe", b"\x20\xfe\xff\xff\xff")):
            self.assertEqual(self.names(short), self.names(long), (short, long))
        self.assertEqual(self.names(b"\x2b\0"), [("br", 2)])
        self.assertEqual(self.names(b"\x38\0\0\0\0"), [("br", 5)])
        self.assertEqual(self.names(b"\x2b\xfe"), [("br", 0)])

    def test_operands(self) -> None:
        self.assertEqual(self.names(b"\x45\x02\0\0\0\x01\0\0\0\xf3\xff\xff\xff"), [("switch", (14, 0))])
        self.assertEqual(self.names(b"\x28\x01\0\0\x06\xfe\x16\x02\0\0\x02"), [("call", 0x06000001), ("constrained.", 0x02000002)])
        self.assertEqual(self.names(b"\x37\x05"), [("blt.un", 7)])
        self.assertEqual(self.names(b"\x4a\x69"), [("ldind.i4", 0), ("conv.i4", 0)])

    def test_code_that_is_none(self) -> None:
        for code in (b"\x24", b"\xfe", b"\xfe\xff", b"\x28\0", b"\x45\xff\xff\xff\xff", b"\x45\x02\0\0\0\0", b"\xf0"):
            with self.assertRaises(Damaged, msg=code):
                decode(code)


class Signatures(unittest.TestCase):
    def reader(self, data: bytes) -> Reader:
        return Reader(data, lambda coded: 1000 + coded)

    def test_types(self) -> None:
        # List<int[,]> with a modifier, of a generic method.
        self.assertEqual(self.reader(b"\x15\x12\x09\x01\x14\x08\x02\0\0").type(), (0x15, 0x12, 1009, 1, 0x14, 8, 2, 0, 0))
        self.assertEqual(self.reader(b"\x30\x01\x02\x01\x1e\0\x1f\x05\x08").method(), (0x30, 1, (1,), ((0x1E, 0), (0x1F, 1005, 8))))
        self.assertEqual(self.reader(b"\x30\x01\x02\x01\x1e\0\x1f\x05\x08").method().pops, 3)
        self.assertEqual(self.reader(b"\x07\x02\x45\x1c\x10\x08").locals(), ((0x45, 0x1C), (0x10, 8)))
        self.assertEqual(self.reader(b"\x1b\0\x01\x01\x0e").type(), (0x1B, 0, 0, 1, 1, 0x0E))

    def test_damaged(self) -> None:
        for data in (b"", b"\x12", b"\x00\x05\x01", b"\x0f" * 300 + b"\x01", b"\x99", b"\x15\x12\x09\x7f\x01", b"\x00\xff"):
            with self.assertRaises(Damaged, msg=data):
                self.reader(data).method() if data[:1] == b"\0" else self.reader(data).type()


class Texts5(unittest.TestCase):
    """Map texts, also with the lines of version 5."""

    def map(self) -> Map:
        found = Map()
        found.counts = {0x01: 4, 0x06: 2}
        found.rows = {0x01: {1: (0x01, 2), 2: (0x02, 7), 3: None}, 0x06: {1: (0x06, 2)}}
        found.drops, found.slots, found.signatures = {2}, {1: {0: 1, 1: None}}, {1: 3}
        found.shares = found.shares_slots = True
        code = found.code[1] = CodeMap(9, 12)
        code.keep(0, 0, 1)
        code.keep(1, 1, 1)
        code.hide(2, 3)
        code.hide(5, 1)
        code.keep(5, 6, 4)
        return found

    def test_version_4(self) -> None:
        self.assertEqual(list(self.map().text(4)), [
            "ppdbmap 4", "shares", "rows 01 4", "row 01 1 2", "row 01 2 02 7", "gone 01 3", "rows 06 2", "row 06 1 2", "drop 2", "slots 1",
            "slot 1 0 1", "signature 1 3", "method 1 9 12", "run 0 0 2", "run 5 6 4"])

    def test_version_5(self) -> None:
        lines = list(self.map().text(5))
        self.assertEqual(lines[:3], ["ppdbmap 5", "shares", "shares slots"])
        self.assertIn("slot 1 1 gone", lines)
        self.assertEqual(lines[-4:], ["method 1 9 12", "run 0 0 2", "hide 2 4", "run 5 6 4"])

    def test_a_text_is_read_as_it_was_written(self) -> None:
        for version in (4, 5):
            text_of = "\n".join(self.map().text(version))
            self.assertEqual("\n".join(read_map(text_of.encode(), "m").text(version)), text_of)
        with_more = read_map(b"ppdbmap 4\r\n# a\r\n\r\nlink x\r\ndocument \\- /b\r\n", "m")
        self.assertEqual((with_more.link, with_more.documents), ("x", {"\\-": "/b"}))

    def test_what_is_no_map(self) -> None:
        for wrong in (b"", b"ppdbmap 9", *(b"ppdbmap 4\n" + line for line in (b"run 0 0 1", b"row 06 1 1", b"slot 1 0 0", b"rows x", b"hello"))):
            with self.assertRaises(Damaged, msg=wrong):
                read_map(wrong, "m")


class Commands(InFolder):
    def maps(self, old: bytes, new: bytes, *words: object) -> tuple[int, list[str], list[list[str]]]:
        """The status, the lines of the map, and what is printed."""
        first, second = self.file("old.dll", old), self.file("new.dll", new)
        ended = run("map", first, second, *words)
        place = self.folder / "new.dll.map"
        return ended.status, place.read_text().splitlines() if place.exists() else [], ended.rows

    def one(self, *methods: Method, name: bytes = b"Order") -> bytes:
        return module([Kind(b"Shop", name, list(methods))], **SYSTEM)

    def test_new_code_and_a_new_method(self) -> None:
        """The whole map, by hand: 10 bytes come before the code, and the method is in row 2."""
        new = self.one(Method(b"Log", RETURN, VOID_OF_TEXT), Method(b"Run", LOG + call(0x06000001) + BODY))
        status, lines, said = self.maps(self.one(Method(b"Run", BODY)), new)
        self.assertEqual(lines, ["ppdbmap 4", "rows 00 1", "row 00 1 1", "rows 01 1", "row 01 1 1", "rows 02 2", "row 02 1 1", "row 02 2 2", "rows 06 2",
                                 "row 06 1 2", "rows 0a 1", "rows 20 1", "row 20 1 1", "rows 23 1", "row 23 1 1", "method 1 23 33", "run 0 10 23"])
        self.assertEqual((status, said[-1][1:]), (0, ["kept", "1 of 1 methods, 7 of 7 instructions; not decided: 0 methods, 0 instructions"]))

    def test_removed_code_and_a_removed_method(self) -> None:
        status, lines, _ = self.maps(self.one(Method(b"Other", ONE + POP + RETURN), Method(b"Run", BODY)), self.one(Method(b"Run", ONE + call(LINE) + RETURN)))
        self.assertEqual(status, 0)
        self.assertLess({"rows 06 1", "row 06 2 1", "drop 1"}, set(lines))
        self.assertEqual(lines[-3:], ["method 2 23 11", "run 1 0 10", "run 22 10 1"])

    def test_what_has_several_partners_is_left_out_and_said(self) -> None:
        status, lines, said = self.maps(self.one(Method(b"Run", NOP + ONE + POP + RETURN)), self.one(Method(b"Run", NOP + NOP + ONE + POP + RETURN)))
        self.assertEqual((status, lines[-1]), (1, "run 1 2 7"))
        self.assertEqual(said[0][1:], ["Shop.Order::Run (method 1)", "is not decided at IL 0: it has several like it in the new code"])

    def test_values_go_to_the_same_place(self) -> None:
        """`ldloc 0; call Log` comes before `ldloc 0; pop`: by the order alone the first load could be either."""
        old, log = LOAD_0 + POP + RETURN, Method(b"Log", RETURN, b"\x00\x01\x01\x08")
        _, lines, _ = self.maps(self.one(log, Method(b"Run", old, VOID, LOCALS)), self.one(log, Method(b"Run", LOAD_0 + call(0x06000001) + old, VOID, LOCALS)))
        self.assertEqual(lines[-1], "run 0 6 3")

    def test_slots_by_their_use(self) -> None:
        old = constant(7) + STORE_0 + ONE + STORE_1 + LOAD_0 + POP + LOAD_1 + POP + RETURN
        new = ONE + POP + constant(7) + STORE_1 + ONE + STORE_0 + LOAD_1 + POP + LOAD_0 + POP + RETURN
        status, lines, _ = self.maps(self.one(Method(b"Run", old, VOID, LOCALS)), self.one(Method(b"Run", new, VOID, b"\x07\x02\x0e\x08")))
        self.assertEqual(status, 0)
        self.assertEqual(lines[-5:], ["slots 1", "slot 1 0 1", "slot 1 1 0", "method 1 17 23", "run 0 6 17"])

    def test_a_local_that_is_gone_is_said(self) -> None:
        old = constant(7) + STORE_0 + ONE + STORE_1 + LOAD_1 + POP + RETURN
        new = ONE + STORE_0 + LOAD_0 + POP + RETURN
        status, lines, said = self.maps(self.one(Method(b"Run", old, VOID, LOCALS)), self.one(Method(b"Run", new, VOID, b"\x07\x01\x0e")))
        self.assertEqual((status, lines[-4:]), (1, ["slots 1", "slot 1 1 0", "method 1 15 9", "run 6 0 9"]))
        self.assertIn("M10", said[0][2])

    def test_branches_by_where_they_lead(self) -> None:
        """`brtrue` to the second text; the same instruction to the first one is another."""
        def code(step: int) -> bytes:
            return constant(1) + b"\x2d" + bytes([step]) + ONE + POP + TWO + POP + RETURN

        status, lines, said = self.maps(self.one(Method(b"Run", code(6))), self.one(Method(b"Run", code(0))))
        self.assertEqual((status, lines[-2:]), (1, ["run 0 0 5", "run 7 7 13"]))
        self.assertEqual(said[0][2], "is not decided at IL 5: it leads elsewhere")
        longer = constant(1) + b"\x3a" + (6).to_bytes(4, "little") + ONE + POP + TWO + POP + RETURN
        self.assertEqual(self.maps(self.one(Method(b"Run", code(6))), self.one(Method(b"Run", longer)))[1][-3:], ["method 1 20 23", "run 0 0 7", "run 7 10 13"])

    def test_a_return_before_which_a_try_block_ends_is_not_decided(self) -> None:
        old = ONE + POP + RETURN
        new = ONE + POP + b"\xde\x07" + LOG + POP + b"\xdc" + RETURN
        clause = (2, 0, 8, 8, 7, 0)
        status, lines, said = self.maps(self.one(Method(b"Run", old)), self.one(Method(b"Run", new, VOID, b"", (clause,))))
        self.assertEqual((status, lines[-1]), (1, "run 0 0 6"))
        self.assertIn("try block", said[0][2])

    def test_renamed_methods_and_types(self) -> None:
        status, lines, _ = self.maps(self.one(Method(b"Run", BODY)), module([Kind(b"", b"a", [Method(b"b", NOP + BODY[1:])])], **SYSTEM))
        self.assertEqual(status, 0)
        self.assertLess({"row 02 2 2", "row 06 1 1", "run 0 0 23"}, set(lines))

    def test_renamed_methods_with_the_same_code_are_left_out(self) -> None:
        methods = [Method(name, BODY) for name in (b"A", b"B")]
        status, lines, said = self.maps(self.one(*methods), self.one(*(method._replace(name=b"x" + method.name) for method in methods)))
        self.assertEqual((status, {"drop 1", "drop 2"} < set(lines)), (1, True))
        self.assertEqual(said[0][2], "is left out: it has the same code as 2 new methods")

    def test_code_that_went_to_a_method_that_the_old_one_calls(self) -> None:
        new = self.one(Method(b"Moved", BODY), Method(b"Run", call(0x06000001) + RETURN))
        self.assertIn("row 06 1 1", self.maps(self.one(Method(b"Run", BODY)), new)[1])

    def merged(self) -> tuple[str, str, str]:
        """A program, a library that it uses, and the program with the library in it."""
        both = {"assemblies": (b"mscorlib", b"Lib"), "references": ((1, b"System", b"Console"), (2, b"L", b"Help")), "texts": TEXTS,
                "members": ((1, b"WriteLine", VOID_OF_TEXT), (2, b"Do", VOID))}
        helper, order = Kind(b"L", b"Help", [Method(b"Do", TWO + call(LINE) + RETURN)]), Method(b"Run", call(0x0A000002) + BODY)
        program = module([Kind(b"Shop", b"Order", [order])], **both)
        library = module([helper], b"Lib", **SYSTEM)
        joined = module([Kind(b"Shop", b"Order", [order._replace(code=call(0x06000002) + BODY)]), helper], **SYSTEM)
        return tuple(str(self.file(name, data)) for name, data in (("app.dll", program), ("lib.dll", library), ("all.dll", joined)))

    def test_a_merge(self) -> None:
        program, library, new = self.merged()
        self.assertEqual(run("map", program, library, "--into", new).status, 0)
        first, second = ((self.folder / f"all.dll.{number}.map").read_text().splitlines() for number in (1, 2))
        self.assertLess({"row 01 2 02 3", "row 23 2 20 1", "row 06 1 1", "run 0 0 28"}, set(first))
        self.assertLess({"row 02 2 3", "row 06 1 2", "row 20 1 1"}, set(second))
        for own, other, number in ((program, library, 1), (library, program, 2)):
            self.assertEqual(run("check-map", own, new, f"{new}.{number}.map", "--with", other).status, 0)

    def test_output(self) -> None:
        program, library, new = self.merged()
        self.assertEqual(run("map", program, library, "--into", new, "--output", "-").status, 2)
        ended = run("map", program, new, "--output", "-")
        self.assertTrue(ended.text.startswith("ppdbmap 4\n"))
        self.assertIn("methods", ended.err)
        self.assertEqual(run("map", program, library, new).status, 2)
        self.assertEqual(run("map", program, new, "--output", "/none/x").status, 4)
        self.assertEqual(run("map", program, self.folder / "none").status, 3)

    def test_explain(self) -> None:
        old = self.file("o.dll", self.one(Method(b"Run", NOP + ONE + POP + RETURN)))
        new = self.file("n.dll", self.one(Method(b"Run", NOP + NOP + DUP + ONE + POP + RETURN)))
        lines = [line.split() for line in run("map", old, new, "--explain", "Run").text.splitlines()]
        self.assertIn(["1", "ldstr", "'one'", "=", "3", "ldstr", "'one'"], lines)
        self.assertIn(["+", "2", "dup"], lines)
        self.assertTrue(any(line[:3] == ["0", "nop", "?"] for line in lines))
        for wanted in ("Shop.Order::Run", "1"):
            self.assertEqual(run("map", old, new, "--explain", wanted).text, run("map", old, new, "--explain", "Run").text)
        self.assertEqual(run("map", old, new, "--explain", "None").status, 2)
        self.assertFalse((self.folder / "n.dll.map").exists())

    def test_explain_tells_overloads_and_try_blocks(self) -> None:
        body, clause = ONE + call(LINE), (2, 0, 12, 12, 7, 0)
        old = self.file("o.dll", self.one(Method(b"Run", body + RETURN)))
        new = self.file("n.dll", self.one(Method(b"Run", body + b"\xde\x07" + LOG + POP + b"\xdc" + RETURN, VOID, b"", (clause,))))
        said = run("map", old, new, "--explain", "Run").text
        self.assertIn(" 5 call [mscorlib]System.Console::WriteLine(string) ", said)
        self.assertIn(" try 0 to 12 finally 12 to 19\n", said)

    def test_types_of_parameters(self) -> None:
        """Each kind of type of a signature (ECMA-335 II.23.2.12)."""
        wanted = {b"\x15\x12\x05\x02\x0e\x1d\x08": "System.Console<string, int32[]>", b"\x14\x08\x02\x01\x03\x01\x00": "int32[,]",
                  b"\x1b\x00\x01\x01\x0e": "void *(string)", b"\x10\x0f\x08": "int32*&", b"\x1e\x00": "!!0", b"\x13\x01": "!1",
                  b"\x20\x05\x08": "int32", b"\x11\x08": "Shop.Order", b"\x1c": "object", b"\x18": "native int"}
        signature = bytes((0x30, 1, len(wanted), 1)) + b"".join(wanted)
        made = Module(self.one(Method(b"Run", RETURN, signature)), "made")
        self.assertEqual(name_of(made, 0x06000001), f"Shop.Order::Run({', '.join(wanted.values())})")
        self.assertEqual(name_of(made, 0x06000009), "06000009")

    def checked(self, lines: list[str]) -> tuple[int, list[list[str]]]:
        ended = run("check-map", self.folder / "old.dll", self.folder / "new.dll", self.file("m", "\n".join(lines).encode()))
        return ended.status, ended.rows

    def test_check_map(self) -> None:
        """A true map; one without its rows of methods; one without its code; one for two unrelated modules."""
        log, other = Method(b"Log", RETURN, VOID_OF_TEXT), Method(b"Add", constant(1) + constant(2) + ADD + POP + RETURN)
        _, lines, _ = self.maps(self.one(Method(b"Run", BODY), other), self.one(log, Method(b"Run", LOG + call(0x06000001) + BODY), other))
        self.assertEqual(self.checked(lines)[0], 0)
        self.assertIn("2 compared, 0 of", self.checked(lines)[1][-1][0])
        for left_out in (("row 06", "rows 06"), ("method", "run")):
            status, said = self.checked([line for line in lines if not line.startswith(left_out)])
            self.assertEqual(status, 1, left_out)
            self.assertIn("Shop.Order::Run (method 1)", [row[0] for row in said], left_out)
        self.maps(self.one(Method(b"Run", BODY)), self.one(Method(b"Else", constant(3) + POP + RETURN), name=b"Thing"))
        self.assertEqual(self.checked(["ppdbmap 4"])[0], 1)
        self.assertEqual(self.checked(["ppdbmap 4", "drop 1"])[0], 1)
        self.assertEqual(self.checked(["no map"])[0], 3)

    def test_a_wrong_slot(self) -> None:
        old, new = constant(7) + STORE_0 + LOAD_0 + POP + RETURN, constant(7) + STORE_1 + LOAD_1 + POP + RETURN
        _, lines, _ = self.maps(self.one(Method(b"Run", old, VOID, LOCALS)), self.one(Method(b"Run", new, VOID, b"\x07\x02\x0e\x08")))
        self.assertEqual(self.checked(lines)[0], 0)
        self.assertEqual(self.checked([line for line in lines if not line.startswith("slot")])[0], 1)

    def test_many_methods_with_one_body(self) -> None:
        """Rows that share the bytes of a long body would cost their product."""
        code = NOP * 60000 + RETURN
        data = bytearray(self.one(*[Method(b"M%d" % number, RETURN if number else code) for number in range(3000)]))
        first = data.index(b"\x03\x30")
        address = (first - 0x200 + 0x2000).to_bytes(4, "little")
        for number in range(3000):
            place = data.find((first - 0x200 + 0x2000 + 12 + len(code) + (-len(code) % 4) + 16 * (number - 1)).to_bytes(4, "little")) if number else -1
            if place > 0:
                data[place:place + 4] = address
        began = time.process_time()
        ended = run("map", self.file("a.dll", bytes(data)), self.file("b.dll", bytes(data)))
        self.assertIn(ended.status, (0, 1, 3))
        self.assertLess(time.process_time() - began, 20)


if __name__ == "__main__":
    unittest.main()
