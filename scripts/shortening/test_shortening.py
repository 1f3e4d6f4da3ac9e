"""What scripts/shorten takes proofs apart into; the prover is not asked."""
import tempfile
import unittest
from pathlib import Path

from .lemmas import has_mutual, lemmas
from .places import Finder, Place, Round, with_tactic
from .probing import Found, Reach, fitting, missing_imports, probes_of, with_probes
from .sweeping import sweep
from .terms import Part, cited, clause_variables, inner_parts, known_lemmas, premise_names, recursive_calls, right_side
from .writing import chosen, write

PROOFS = """\
use Rattle.std.specs.Prelude.{◌≡◌, ℕ}
use Rattle.std.proofs.lemmas.Lists.{length-map, map_id}

-- a definition
abbrev pub twice : ℕ → ℕ
twice n = n + n

-- by cases
pub sums : (n m : ℕ) → {k : ℕ} → n ≡ m → twice n ≡ twice m
unfolding twice
sums zero m h = ap twice
  h
sums (suc n) m h =
  let below : n ≡ n = refl in
  sums n (f m) (trans
    (length-map n)
    h)

small : ℕ
small = zero
""".split("\n")
SUMS = lemmas(PROOFS)[0]


def file_of(text: str, name: str = "Sums.antt") -> Path:
    path = Path(tempfile.mkdtemp()) / name
    path.write_text(text, encoding="utf-8")
    return path


class Reading(unittest.TestCase):
    def test_lemmas(self) -> None:
        self.assertEqual([it.name for it in lemmas(PROOFS)], ["sums", "small"])
        self.assertEqual([it.count() for it in SUMS.clauses], [2, 5])
        self.assertTrue(SUMS.is_public())
        self.assertEqual(SUMS.unfolding.text(PROOFS) if SUMS.unfolding else "", "unfolding twice")

    def test_a_comment_between_clauses(self) -> None:
        lines = ["f : ℕ → ℕ", "f zero = zero", "-- then", "f (suc n) = n", "", "-- of g", "g : ℕ", "g = zero"]
        self.assertEqual([(it.name, len(it.clauses), it.end) for it in lemmas(lines)], [("f", 2, 4), ("g", 1, 8)])

    def test_lemmas_of_a_module(self) -> None:
        lines = [
            "module _ (n : ℕ)", "    (m : ℕ) where", "  pub f : ℕ → ℕ", "  f zero =", "    n", "  f (suc k) = k", "", "  module _ (l : ℕ) where",
            "    g : ℕ", "    g = l", "", "  -- of h", "  h : ℕ", "  h = n", "", "last : ℕ", "last = zero", "  where", "    a : ℕ", "", "    b : ℕ", "",
        ]
        found = lemmas(lines)
        self.assertEqual([(it.name, it.indent, it.signature.first, it.end) for it in found], [("f", 2, 2, 6), ("g", 4, 8, 10), ("h", 2, 12, 14), ("last", 0, 15, 21)])
        place = Place(found[0], None, None, ["T"], 2)
        self.assertEqual(with_tactic(lines, place, "T"), ["  f hyp1 = T"])
        self.assertEqual(probes_of(lines, 3, place), ["", "  f-probe3x0 : ℕ → ℕ", "  f-probe3x0 hyp1 = {! T !}"])
        clause = Place(found[0], 0, None, ["T"], 1)
        self.assertEqual(probes_of(lines, 4, clause)[2:], ["  f-probe4x0 zero = {! T !}", "  f-probe4x0 (suc k) = k"])

    def test_mutual(self) -> None:
        self.assertTrue(has_mutual(["mutual", "  f : ℕ"]))
        self.assertFalse(has_mutual(PROOFS))

    def test_names(self) -> None:
        self.assertEqual(premise_names(SUMS.signature.text(PROOFS)), ["n", "m", "hyp1"])
        self.assertEqual(clause_variables(PROOFS, SUMS), ["n", "m", "h"])
        self.assertEqual(known_lemmas(PROOFS), {"sums", "small", "length-map", "map_id"})

    def test_terms(self) -> None:
        text = SUMS.clauses[1].text(PROOFS)
        start = right_side(text)
        assert start is not None
        self.assertTrue(text[start:].lstrip().startswith("let below"))
        self.assertEqual(cited(text, known_lemmas(PROOFS), "sums"), ["length-map"])
        self.assertEqual(recursive_calls(text[start:], "sums", 3), ["sums n (f m) (trans (length-map n) h)"])
        self.assertEqual([text[it.first:it.end].split() for it in inner_parts(text, start)][0][:2], ["sums", "n"])
        self.assertIn("trans\n    (length-map n)\n    h", [text[it.first:it.end] for it in inner_parts(text, start)])

    def test_an_arm_ends_where_the_next_begins(self) -> None:
        text = "f x = elim x\n  | inl a ↦ g\n    a\n  | inr b ↦ h b"
        parts = inner_parts(text, right_side(text) or 0)
        self.assertIn(Part(text.index("g\n"), text.index("\n  | inr")), parts)


class Probing(unittest.TestCase):
    def test_each_place_is_tried(self) -> None:
        places = Finder(PROOFS, False).places(Round.WHOLE, None, False)
        self.assertEqual([(it.clause, it.saved) for it in places], [(None, 6)])
        inner = Finder(PROOFS, False).places(Round.PARTS, None, False)
        self.assertEqual([(it.clause, it.saved) for it in inner if it.part is None], [(0, 1), (1, 4)])
        self.assertEqual(places[0].tactics, ["omega arith", "search rules", "search (rules, length-map)", "grind (arith, common_steps, length-map)"])
        self.assertEqual(with_tactic(PROOFS, places[0], "T"), ["sums n m h = T"])

    def test_the_copies(self) -> None:
        place = Finder(PROOFS, False).places(Round.WHOLE, None, False)[0]
        probed = with_probes(PROOFS, [(7, place)])
        self.assertIn("sums-probe7x1 : (n m : ℕ) → {k : ℕ} → n ≡ m → twice n ≡ twice m", probed)
        self.assertIn("sums-probe7x1 n m h = {! search rules steps 150000 !}", probed)
        self.assertEqual(len(missing_imports(PROOFS)), 3)

    def test_the_first_that_fits(self) -> None:
        said = "\n".join([
            "./proofs/SumsProbe.antt:3:1: `sums-probe7x0` has-holes",
            "./proofs/SumsProbe.antt:3:9: goal of `sums-probe7x0`",
            "  the probe does not fit: n",
            "./proofs/SumsProbe.antt:5:9: goal of `sums-probe7x1`",
            "./proofs/SumsProbe.antt:7:9: goal of `sums-probe7x2`",
        ])
        self.assertEqual(fitting(said), {7: 1})


    def test_a_check_through_one_function(self) -> None:
        crate = file_of("").parent / "one"
        answers = crate / "proofs/laws/sums/Answers.antt"
        answers.parent.mkdir(parents=True)
        answers.write_text("use Rattle.low.proofs.Low.{low}\n", encoding="utf-8")
        with Reach(crate, "laws/sums").flags([crate / "proofs/inner/Sums.antt"]) as flags:
            self.assertEqual(flags, ["--only", "laws::sums"])
            self.assertEqual(answers.read_text(encoding="utf-8"), "use Rattle.one.proofs.inner.Sums as read0\nuse Rattle.low.proofs.Low.{low}\n")
        self.assertEqual(answers.read_text(encoding="utf-8"), "use Rattle.low.proofs.Low.{low}\n")


class Writing(unittest.TestCase):
    def test_what_overlaps_is_written_once(self) -> None:
        path = file_of("\n".join(PROOFS))
        [whole] = Finder(PROOFS, True).places(Round.WHOLE, None, False)
        first = Finder(PROOFS, True).places(Round.PARTS, None, False)[0]
        found = [Found(path, first, "search rules"), Found(path, whole, "search rules")]
        self.assertEqual([it.place for it in chosen(PROOFS, found)], [whole])
        write(found)
        lines = path.read_text(encoding="utf-8").split("\n")
        self.assertIn("sums n m h = search rules", lines)
        self.assertIn("use Rattle.std.proofs.Common.{rules}", lines)
        self.assertNotIn("  h", lines)

    def test_two_clauses(self) -> None:
        path = file_of("\n".join(PROOFS))
        first, second = Finder(PROOFS, True).places(Round.PARTS, None, False)[:2]
        write([Found(path, first, "A"), Found(path, second, "B")])
        lines = path.read_text(encoding="utf-8").split("\n")
        at = lines.index("sums zero m h = A")
        self.assertEqual(lines[at + 1], "sums (suc n) m h = B")

    def test_what_nothing_names_goes(self) -> None:
        crate = file_of("").parent / "crates" / "one"
        (crate / "proofs").mkdir(parents=True)
        kept = "pub used : ℕ\nused = zero\n"
        gone = "-- of its own\nalone : ℕ\nalone = low\n\nlow : ℕ\nlow = zero\n\n"
        (crate / "proofs/Sums.antt").write_text(gone + kept, encoding="utf-8")
        (crate / "proofs/Lib.antt").write_text("mod Sums\nuse Sums.{used}\n", encoding="utf-8")
        self.assertEqual(sweep(crate, []), 2)
        self.assertEqual((crate / "proofs/Sums.antt").read_text(encoding="utf-8"), kept)

    def test_what_another_checkout_names_stays(self) -> None:
        both = [file_of("").parent / "crates/one/proofs" for _ in range(2)]
        lemma, user = "pub alone : ℕ\nalone = zero\n", "use Rattle.one.proofs.Sums.{alone}\n"
        for proofs, others in zip(both, ("", user)):
            proofs.mkdir(parents=True)
            (proofs / "Sums.antt").write_text(lemma, encoding="utf-8")
            (proofs / "Other.antt").write_text(others, encoding="utf-8")
        here, there = both[0].parent, both[1].parents[2]
        self.assertEqual(sweep(here, [there]), 0)
        self.assertEqual(sweep(here, []), 1)


if __name__ == "__main__":
    unittest.main()
