"""Tests of tools/weave: run with python3 tools/test_weave.py."""
import contextlib
import io
import os
import pathlib
import sys
import tempfile
import unittest
import unittest.mock

sys.dont_write_bytecode = True
import scripts

weave = scripts.load("weave")

# what rt goals writes of a function with no loop: its places and its `spec`
LTS = """\
abbrev pub Claims : Type 1
Claims = Kinds.In 1 ps·0 × Kinds.Out 1 ps·0 r·0

module _ (claims· : Claims) where
      pub record Start : Type 0 where
        pub κs : Lifetimes.Lfts 1
        pub args : Args κs
        pub pre : Pre· κs (dens κs args)

      module _ (before· : Start) where
        pub record After-slice-known·own : Type 0 where
          pub given : s0 .gives (m0 before·)

      pub record After-slice-known : Type 0 where
        pub before : Start
        pub slice-known : After-slice-known·own before

      abbrev pub Need-put-row-requires : Type 0
      Need-put-row-requires =
          (c : After-slice-known) → s4 .asks (m3 (c .before) (c .slice-known .given))

      pub record After-put-row : Type 0 where
        pub before : After-slice-known
        pub put-row :
            After-put-row·own
            before

      abbrev pub Need-returns : Type 0
      Need-returns = (c : After-put-row) → Post· (c .before .before .κs)
"""
TIE = """\
module _ {M : Type 1} where
  pub spec :
      (answer : Need-put-row-requires) →
      (answer : Need-returns) →
      Lts.Closed (Reads'.Asked, Reads'.Learnt) Reads.Pre Reads.Post M
  spec =
      λ answer answer'. Lts.spec (answer : Need-other) answer'
"""
# the same of a function with a loop
LOOP_LTS = """\
abbrev pub InvT-loop : Type 1
InvT-loop =
    List.List (Referent.fInt Syntax.w16 .Denot) →
    Rows.sc-here (Row.sInt Syntax.w64) .Mod →
    Rows.sc-here (Row.sInt Syntax.w64) .Mod →
    Type 0

abbrev pub MeasureT-loop : Type 0
MeasureT-loop = Rows.whole .Mod → Nat.ℕ

      pub record Start : Type 0 where
        pub pre : Pre· κs

      Need-loop-holds = (c : Start) → Inv·0
"""
LOOP_TIE = """\
  pub spec :
      (Inv : InvT-loop) →
      (μ : MeasureT-loop) →
      (answer : Need-loop-holds Inv μ) →
      Lts.Closed Reads.Pre Reads.Post M
"""
PLACES = weave.records(LTS)
# what rt dev prints of a cycle without a proof
SKELETON = """\
use Prim.Native.Nat.{ℕ, _<_}
use Rattle·toy·proofs.proofs.pairs.even.Reads as even
use Rattle·toy·proofs.proofs.pairs.even.Kinds as even-kinds
use Rattle·toy·proofs.proofs.pairs.+even+odd_one.Lts-even as even-lts
use Rattle·toy·proofs.proofs.pairs.odd_one.Reads as odd-one′
use Rattle·words.proofs.next.Reads as next-reads

abbrev μ-even : Measures 0 even-kinds.ps ℕ
μ-even κs a = ?

abbrev μ-odd-one : Measures 1 odd-one-kinds.ps ℕ
μ-odd-one κs a = ?

-- src/pairs.rt:12:9
even-odd-one-requires :
    (t : ℕ) → even-lts.Need-odd-one-requires (odd-one-below t, odd-one′.Post) (even-at t) even.Post
even-odd-one-requires t c κs = ?

even-returns : (t : ℕ) → even-lts.Need-returns (
  odd-one-below t,
  odd-one′.Post,
) (even-at t) even.Post
even-returns t c = ?

abbrev odd-one-Inv-loop : odd-one-lts.InvT-loop
odd-one-Inv-loop n i = ?

abbrev odd-one-μ-loop :
    odd-one-lts.MeasureT-loop
odd-one-μ-loop n i = ?

odd-one-loop-holds :
    (t : ℕ) →
    odd-one-lts.Need-loop-holds
    (next-reads.Asked, next-reads.Learnt, even-below t, even.Post)
    (odd-one-at t)
odd-one-loop-holds t c = ?
"""
PLAN = """\
cycle +even+odd_one
reads even Rattle·toy·proofs.proofs.pairs.even
reads odd-one Rattle·toy·proofs.proofs.pairs.odd_one
reads next-reads Rattle·words.proofs.next
member even 0
member odd-one 1
loop odd-one InvT-loop
loop odd-one MeasureT-loop
claims even odd-one-below t; odd-one.Post
need even Need-odd-one-requires
need even Need-returns
claims odd-one next-reads.Asked; next-reads.Learnt; even-below t; even.Post
need odd-one Need-loop-holds
"""
EVEN_LTS = LTS.replace("Need-put-row-requires", "Need-odd-one-requires").replace("put-row", "odd-one")
PAIRS = """\
// Two functions that call one another.
pub fn even(n: usize, pool: &mut [u32]) -> usize
{
}

fn odd_one(
    tokens: &[u16],
    mut n: usize,
) -> usize
{
}
"""
BASE = "Rattle·toy·proofs.proofs.pairs.+even+odd_one"


class Case(unittest.TestCase):
    """A test over a repository of its own, with the crate `toy`."""

    def setUp(self):
        folder = tempfile.TemporaryDirectory()
        self.addCleanup(folder.cleanup)
        self.root = pathlib.Path(folder.name)
        patch = unittest.mock.patch.object(weave, "ROOT", folder.name)
        patch.start()
        self.addCleanup(patch.stop)
        self.goals = weave.goals_of("toy")

    def put(self, name, text):
        path = self.root / name
        path.parent.mkdir(parents=True, exist_ok=True)
        path.write_text(text, encoding="utf-8")
        return str(path)

    def answered(self, text):
        return weave.answers(self.put("f.ans", text))

    def refused(self, words, action, *arguments):
        with self.assertRaises(weave.Problem) as caught:
            action(*arguments)
        self.assertIn(words, str(caught.exception))

    def put_leaf(self, text):
        self.put(f"{self.goals}/part/leaf/Lts.antt", LTS)
        self.put(f"{self.goals}/part/leaf/Tie.antt", TIE)
        return self.put("crates/toy/answers/part/leaf.ans", text)

    def put_cycle(self):
        top, folder = f"{self.goals}/pairs/+even+odd_one", "crates/toy/answers/pairs/cycle"
        self.put(f"{top}/Lts-even.antt", EVEN_LTS)
        self.put(f"{top}/Lts-odd_one.antt", LOOP_LTS)
        self.put(f"{top}/Tie.antt", "")
        self.put("crates/toy/src/pairs.rt", PAIRS)
        self.put(f"{folder}/plan", PLAN)
        self.put(f"{folder}/measures", "-- What falls.\neven = @n\nodd-one = @n + 1\n")
        return folder

    def run_tool(self, *words):
        out, err = io.StringIO(), io.StringIO()
        with contextlib.redirect_stdout(out), contextlib.redirect_stderr(err):
            status = weave.main(words)
        return status, out.getvalue(), err.getvalue()


class Goals(Case):
    def test_records(self):
        self.assertEqual(list(PLACES), ["Start", "After-slice-known", "After-put-row"])
        self.assertEqual(PLACES["Start"], {"κs": "Lifetimes.Lfts", "args": "Args", "pre": "Pre·"})
        self.assertEqual(PLACES["After-put-row"], {"before": "After-slice-known", "put-row": "After-put-row·own"})

    def test_needs_with_their_places(self):
        asked = [("Need-put-row-requires", "After-slice-known"), ("Need-returns", "After-put-row")]
        self.assertEqual(weave.needs(LTS), asked)

    def test_arguments_of_spec(self):
        self.assertEqual(weave.arguments(TIE), ["Need-put-row-requires", "Need-returns"])
        self.assertEqual(weave.arguments(LOOP_TIE), ["InvT-loop", "MeasureT-loop", "Need-loop-holds"])
        self.refused("no `spec`", weave.arguments, LTS)

    def test_names_in_the_proof_file(self):
        kinds = ["InvT-loop-2", "MeasureT-loop", "Need-same-length-2"]
        self.assertEqual([weave.local(k) for k in kinds], ["Inv-loop-2", "μ-loop", "same-length-2"])

    def test_way_back(self):
        way = [("c", "After-put-row", ["put-row"]), ("c .before", "After-slice-known", ["slice-known"])]
        way += [("c .before .before", "Start", ["κs", "args", "pre"])]
        self.assertEqual(list(weave.back(PLACES, "After-put-row")), way)
        self.refused("no record of the place After-leaf", list, weave.back(PLACES, "After-leaf"))


class Answers(Case):
    def test_head_and_answers(self):
        text = "-- Comment.\nuse a.{b}\n----\n\nreturns c =\n    b\n    (c@pre)\n\nnext c = b\n"
        head, _, given = self.answered(text)
        self.assertEqual(head, "-- Comment.\nuse a.{b}")
        self.assertEqual(given, {"returns": ("", "returns c =\n    b\n    (c@pre)"), "next": ("", "next c = b")})

    def test_the_bar_is_a_line_of_its_own(self):
        self.refused("no line `----`", self.answered, "-- Comment ----\nreturns c = b\n")
        self.assertEqual(self.answered("-- One ----\n-- Two\n----\n")[0], "-- One ----\n-- Two")
        self.assertEqual(self.answered("-- One\n----"), ("-- One", {}, {}))

    def test_two_answers_are_refused(self):
        self.refused("two answers to returns", self.answered, "----\nreturns c = a\nreturns c = b\n")

    def test_unfolding_is_of_the_next_answer(self):
        given = self.answered("----\nunfolding f g\nreturns c = a\nnext c = b\n")[2]
        self.assertEqual(given, {"returns": ("unfolding f g", "returns c = a"), "next": ("", "next c = b")})

    def test_unfolding_of_nothing_is_refused(self):
        for below in "", "unfolding g\nreturns c = a\n", "%A = a\nreturns c = a\n", "fact f at x : A = a\n":
            self.refused("no answer below `unfolding f`", self.answered, "----\nunfolding f\n" + below)

    def test_macros(self):
        text = "----\n%I = c@iterate .ensures\nreturns c = on ($W) $I\n%W = within\n    _ ($I)\n"
        expected = "returns c = on (within\n    _ (c@iterate .ensures)) c@iterate .ensures"
        self.assertEqual(self.answered(text)[2], {"returns": ("", expected)})

    def test_macros_that_are_refused(self):
        self.refused("$J is nowhere defined", self.answered, "----\n%I = a\nreturns c = $J\n")
        self.refused("two lines `%I = ..`", self.answered, "----\n%I = a\n%I = b\n")
        self.refused("$A names itself", self.answered, "----\n%A = $B $B\n%B = $A\nreturns c = $A\n")

    def test_comments_between_and_in_answers_are_left_out(self):
        text = "----\n-- on both\nreturns c =\n-- on b\n    b\n-- the end\n"
        self.assertEqual(self.answered(text)[2], {"returns": ("", "returns c =\n    b")})

    def test_what_is_included(self):
        self.put("lends.inc", "-- Shared.\n%SAME = c@CALLEE .kept\nmul-CALLEE c = a\nCALLEE-requires c κs = $SAME $OWN\n")
        given = self.answered("----\n%OWN = b\ninclude lends.inc one-more\nreturns c = $SAME\n")[2]
        self.assertEqual(given["mul-one-more"], ("", "mul-one-more c = a"))
        self.assertEqual(given["one-more-requires"], ("", "one-more-requires c κs = c@one-more .kept b"))
        self.assertEqual(given["returns"], ("", "returns c = c@one-more .kept"))
        self.refused("there is no none.inc to include", self.answered, "----\ninclude none.inc a\n")

    def test_facts(self):
        text = "----\n%B = (b c@x)\nfact here at r : One = one (a) $B\nfact there at q : f a ≡ b =\n    c@here .eq\n"
        facts = self.answered(text)[1]
        shown = [(f.name, f.field, f.type, f.proof) for f in facts.values()]
        here = ("here", "r", "One (a) (b c@x)", "one (a) (b c@x)")
        self.assertEqual(shown, [here, ("there", "q", "f a ≡ b", "c@here .eq")])

    def test_facts_that_are_refused(self):
        self.refused("two facts f", self.answered, "----\nfact f at x : A = a\nfact f at y : A = a\n")
        self.refused("no `fact NAME at FIELD : TYPE = PROOF`", self.answered, "----\nfact f at x = a\n")


class Paths(Case):
    def path(self, text, place="After-put-row"):
        return weave.paths(text, PLACES, place, "here", {})

    def test_paths(self):
        self.assertEqual(self.path("f (c@put-row .ensures)"), "f (c .put-row .ensures)")
        self.assertEqual(self.path("(c@slice-known, c@pre.0)"), "(c .before .slice-known, c .before .before .pre.0)")
        self.assertEqual(self.path("c@κs c .pre", "Start"), "c .κs c .pre")

    def test_the_nearest_has_the_name(self):
        places = {"A": {"x": "X"}, "B": {"before": "A", "x": "X", "x2": "X"}}
        self.assertEqual(weave.paths("c@x c@x2", places, "B", "", {}), "c .x c .x2")

    def test_facts_are_applied_to_their_places(self):
        facts = self.answered("----\nfact near at put-row : A = a\nfact far at Start : A = a\n")[1]
        text = weave.paths("c@near .x (c@far) c@pre", PLACES, "After-put-row", "", facts)
        self.assertEqual(text, "near c .x (far (c .before .before)) c .before .before .pre")
        self.refused("no near on the way", weave.paths, "c@near", PLACES, "After-slice-known", "", facts)

    def test_unknown_names_are_refused(self):
        place = "After-slice-known"
        self.refused(f"here: no put-row on the way back from {place}", self.path, "c@put-row", place)
        self.refused("no before on the way", self.path, "c@before")


class Clauses(Case):
    def test_an_answer_that_is_given(self):
        given = {"returns": ("unfolding f", "returns c = a")}
        self.assertEqual(weave.clause("returns", given, "Start")[1], "returns c = a")

    def test_the_default(self):
        given = {"other": ("", "other c = a")}
        self.assertEqual(weave.clause("returns-2", given, "Start"), ("", "returns-2 c = search needs"))
        for name in "next-requires", "next-requires-12":
            self.assertEqual(weave.clause(name, given, "Start"), ("", f"{name} c κs = search needs"))
        self.assertEqual(weave.clause("requires-x", given, "Start"), ("", "requires-x c = search needs"))

    def test_what_a_match_tells(self):
        given, place = {"other": ("", "other c = a")}, "At-match2-keys14"
        self.assertEqual(weave.clause("enum-told-3", given, place), ("", "enum-told-3 c = c .match2 .keys14"))
        self.assertEqual(weave.clause("enum-told", given, "At-match-keys1"), ("", "enum-told c = c .match .keys1"))
        self.assertEqual(weave.clause("enum-told", given, "After-r"), ("", "enum-told c = search needs"))
        self.assertEqual(weave.clause("returns", given, place), ("", "returns c = search needs"))

    def test_holes_where_nothing_is_answered(self):
        self.assertEqual(weave.clause("next-requires", {}, "Start"), ("", "next-requires c κs = ?"))

    def test_loops(self):
        self.assertEqual(weave.loop_clause("InvT-loop", LOOP_LTS, {}), ("", "Inv-loop a0 a1 a2 = ?"))
        self.assertEqual(weave.loop_clause("MeasureT-loop", LOOP_LTS, {"x": ("", "")}), ("", "μ-loop a0 = ?"))
        given = {"μ-loop": ("", "μ-loop d = d")}
        self.assertEqual(weave.loop_clause("MeasureT-loop", LOOP_LTS, given), ("", "μ-loop d = d"))
        self.refused("InvT-loop-2", weave.loop_clause, "InvT-loop-2", LOOP_LTS, {})

    def test_answers_to_nothing(self):
        given = {"c": 0, "a": 0, "b": 0}
        weave.unused(given, ["d", "c", "b", "a"], "f.ans")
        self.refused("f.ans: answers to nothing that is asked: a, c", weave.unused, given, ["b"], "f.ans")


class Uses(Case):
    def test_names_in_a_text(self):
        for name in "ap", "_∙_", "[]", "x", "lit<", "«ap»":
            self.assertTrue(weave.named(name, "f (ap x) ∙ [],lit< .at"), name)
        for name in "a", "lit", "_<_", "x-1", "_∷_":
            self.assertFalse(weave.named(name, "f (ap x) ∙ [],lit< x-10"), name)
        self.assertTrue(weave.named("_<_", "falls _<_ t"))
        self.assertTrue(weave.named("_+_", "map (_+ 1)"))
        self.assertTrue(weave.named("if_then_else_", "if a then b else d"))
        self.assertFalse(weave.named("if_then_else_", "if a then b"))

    def test_use_lines(self):
        self.assertEqual(weave.trimmed("use m.P.{refl, sym, _∙_}", "a ∙ refl"), "use m.P.{refl, _∙_}")
        self.assertEqual(weave.trimmed("use m.P.{f as g, g as f}", "f"), "use m.P.{g as f}")
        self.assertEqual(weave.trimmed("use m.P.{refl}", "sym"), "")
        self.assertEqual(weave.trimmed("use m.P as p", "sym"), "use m.P as p")

    def test_the_line_of_the_default(self):
        line = "use borrow.Author.Needs.{needs}"
        self.assertEqual(weave.with_needs("-- C.\nuse m.{a}\nuse m.{b}", "f = b"), "-- C.\nuse m.{b}")
        self.assertEqual(weave.with_needs("-- C.", "f = search needs"), f"-- C.\n{line}")
        self.assertEqual(weave.with_needs(line, "f = search needs"), line)

    def test_head(self):
        uses = "-- C.\nuse a.{b}\n\nuse c"
        self.assertEqual(weave.split_head(f"{uses}\n\n-- L.\nl : A"), (uses, "\n-- L.\nl : A\n"))
        self.assertEqual(weave.split_head("-- C.\n\nl : A"), ("-- C.", "\nl : A\n"))
        self.assertEqual(weave.split_head("-- C."), ("-- C.", ""))


class Flat(Case):
    def test_layout_does_not_count(self):
        woven = "f c = g (record { a = b; d = (x, y) })\n"
        laid = "f c =\n    g (record {\n      a = b;\n      d = (\n        x,\n        y,\n      );\n    })\n\n"
        self.assertEqual(weave.flat(laid), weave.flat(woven))
        self.assertEqual(weave.flat("use m.{\n  a,\n  b,\n}"), weave.flat("use m.{a, b}"))

    def test_all_else_counts(self):
        pairs = ("a b", "ab"), ("h .x", "h.x"), ("(a, b)", "(a b)"), ("f (a) b", "f a b"), ("f c = a", "f c = b")
        for one, other in pairs:
            self.assertNotEqual(weave.flat(one), weave.flat(other))


LEAF = """\
-- `leaf` meets its contract.
use mathlib.Core.Path.{refl}
use borrow.Author.Needs.{needs}
use Rattle·toy·proofs.proofs.part.leaf.Statement.{statement}
use Rattle·toy·proofs.proofs.part.leaf.Tie as tie

-- A lemma.
own : A
own = refl

put-row-requires : tie.Need-put-row-requires
put-row-requires c κs = search needs

returns : tie.Need-returns
unfolding own
returns c =
    c .put-row .ensures (c .before .before .pre)

pub leaf-spec : {M : Type 1} → statement M
leaf-spec =
    tie.close
    (tie.spec
    put-row-requires
    returns)
"""
LEAF_ANSWERS = """\
-- `leaf` meets its contract.
use mathlib.Core.Path.{_≡_, refl}
use mathlib.Core.List.{[]}

-- A lemma.
own : A
own = refl
----
%P = c@pre
unfolding own
returns c =
    c@put-row .ensures ($P)
"""


class Singles(Case):
    def woven(self, name="part/leaf", text="----\n"):
        return weave.single("toy", name, self.put("f.ans", text), self.goals)

    def test_a_function(self):
        path = self.put_leaf(LEAF_ANSWERS)
        self.assertEqual(weave.single("toy", "part/leaf", path, self.goals), {"part/leaf/Proof.antt": LEAF})

    def test_a_function_with_a_loop(self):
        self.put(f"{self.goals}/for_each/Lts.antt", LOOP_LTS)
        self.put(f"{self.goals}/for_each/Tie.antt", LOOP_TIE)
        text = self.woven("for_each", "use a.{b}\n----\nunfolding b\nInv-loop t i n = b\n")["for_each/Proof.antt"]
        self.assertIn("\nabbrev Inv-loop : tie.InvT-loop\nunfolding b\nInv-loop t i n = b\n", text)
        self.assertIn("\nabbrev μ-loop : tie.MeasureT-loop\nμ-loop a0 = ?\n", text)
        self.assertIn("\nloop-holds : tie.Need-loop-holds Inv-loop μ-loop\nloop-holds c = search needs\n", text)
        self.assertIn("\npub for-each-spec : ", text)
        self.assertTrue(text.endswith("(tie.spec\n    Inv-loop\n    μ-loop\n    loop-holds)\n"))

    def test_a_function_with_a_fact(self):
        self.put_leaf("")
        given = "----\nfact far at slice-known : A c@pre = a c@pre\nreturns c = c@far\n"
        text = self.woven(text=given)["part/leaf/Proof.antt"]
        self.assertIn("\nfar : (c : tie.After-slice-known) → A c .before .pre\nfar c = a c .before .pre\n", text)
        self.assertIn("\nreturns c = far (c .before)\n", text)
        self.refused("0 places have row, and not one", self.woven, "part/leaf", "----\nfact f at row : A = a\n")

    def test_what_is_refused(self):
        self.put_leaf("")
        self.refused("answers to nothing that is asked: retruns", self.woven, "part/leaf", "----\nretruns c = a\n")
        self.refused("returns: no put-rwo on the way", self.woven, "part/leaf", "----\nreturns c = c@put-rwo\n")
        self.refused("part/laef: the goals have no such function", self.woven, "part/laef")
        os.remove(f"{self.goals}/part/leaf/Tie.antt")
        self.refused("part/leaf: no Tie of it", self.woven)


EVEN = f"""\
-- `even` meets its contract.
use borrow.Author.Needs.{{needs}}
use Prim.Native.Nat.{{ℕ}}
use Rattle·toy·proofs.proofs.pairs.even.Reads as even-reads
use Rattle·toy·proofs.proofs.pairs.odd_one.Reads as odd-one-reads
use {BASE}.Lts-even as lts
use {BASE}.Proof.Measures.{{even-at, odd-one-below}}

module _ (t : ℕ) where
  abbrev cs : lts.Claims
  cs = (odd-one-below t, odd-one-reads.Post)

  pub odd-one-requires : lts.Need-odd-one-requires cs (even-at t) even-reads.Post
  odd-one-requires c κs = search needs

  pub returns : lts.Need-returns cs (even-at t) even-reads.Post
  unfolding f
  returns c =
      c .before .slice-known
"""
WHOLE = f"""\
-- The one proof of the cycle of calls: each member's needs are answered in a file of its own.
mod Even
mod OddOne
mod Measures
use Rattle·toy·proofs.proofs.pairs.even.Reads as even-reads
use Rattle·words.proofs.next.Reads as next-reads
use Rattle·toy·proofs.proofs.pairs.odd_one.Reads as odd-one-reads
use {BASE}.Lts-even as even-lts
use {BASE}.Proof.Even as even-needs
use {BASE}.Proof.Measures.{{μ-even, even-at, even-below}}
use {BASE}.Lts-odd_one as odd-one-lts
use {BASE}.Proof.OddOne as odd-one-needs
use {BASE}.Proof.Measures.{{μ-odd-one, odd-one-at, odd-one-below}}
use {BASE}.{{statement}}
use {BASE}.Tie.{{close}}

pub +even+odd-one-spec : {{M : Type 1}} → statement M
+even+odd-one-spec =
    close μ-even μ-odd-one
    (λ t. even-lts.spec (odd-one-below t, odd-one-reads.Post) (even-at t) even-reads.Post
    (even-needs.odd-one-requires t)
    (even-needs.returns t))
    (λ t. odd-one-lts.spec (next-reads.Asked, next-reads.Learnt, even-below t, even-reads.Post) (odd-one-at t) \
odd-one-reads.Post odd-one-needs.Inv-loop odd-one-needs.μ-loop
    (odd-one-needs.loop-holds t))
"""
MEASURES = """\
-- The measures of the cycle, and what each member is given at a measure and asks below it.
use Prim.Native.Nat.{ℕ, _<_, _+_}
use borrow.Fn.Kinds.{In}
use borrow.Fn.PlainCycle.{Measures, is, falls, and}
use m.{least}
use Rattle·toy·proofs.proofs.pairs.even.Reads as even-reads
use Rattle·toy·proofs.proofs.pairs.even.Kinds as even-kinds
use Rattle·toy·proofs.proofs.pairs.odd_one.Reads as odd-one-reads
use Rattle·toy·proofs.proofs.pairs.odd_one.Kinds as odd-one-kinds

abbrev pub μ-even : Measures 0 even-kinds.ps ℕ
μ-even κs a = least (a .0 + 1)

abbrev pub even-at : ℕ → In 0 even-kinds.ps
even-at t = and 0 even-kinds.ps (is 0 even-kinds.ps μ-even t) even-reads.Pre

abbrev pub even-below : ℕ → In 0 even-kinds.ps
even-below t = and 0 even-kinds.ps (falls 0 even-kinds.ps _<_ μ-even t) even-reads.Pre

abbrev pub μ-odd-one : Measures 1 odd-one-kinds.ps ℕ
μ-odd-one κs a = ?

abbrev pub odd-one-at : ℕ → In 1 odd-one-kinds.ps
odd-one-at t = and 1 odd-one-kinds.ps (is 1 odd-one-kinds.ps μ-odd-one t) odd-one-reads.Pre

abbrev pub odd-one-below : ℕ → In 1 odd-one-kinds.ps
odd-one-below t = and 1 odd-one-kinds.ps (falls 1 odd-one-kinds.ps _<_ μ-odd-one t) odd-one-reads.Pre
"""


class Plans(Case):
    def plan(self, text=PLAN):
        return weave.Plan(self.put("plan", text))

    def test_condensed(self):
        self.assertEqual(weave.condensed("+even+odd_one", SKELETON), PLAN)

    def test_one_alias_of_two_modules_is_refused(self):
        text = SKELETON + "use Rattle·rows.proofs.next.Reads as next-reads′\n"
        self.refused("one alias, next-reads", weave.condensed, "+even+odd_one", text)

    def test_a_plan(self):
        plan = self.plan()
        self.assertEqual((plan.name, plan.arity), ("+even+odd_one", {"even": "0", "odd-one": "1"}))
        self.assertEqual(plan.needs["even"], ["Need-odd-one-requires", "Need-returns"])
        self.assertEqual(plan.loops, {"odd-one": ["InvT-loop", "MeasureT-loop"]})
        self.assertEqual(plan.handed("even"), "(odd-one-below t, odd-one-reads.Post)")
        self.assertEqual(plan.used("odd-one"), ["even-reads", "next-reads", "odd-one-reads"])
        self.assertEqual(plan.module("next-reads"), "Rattle·words.proofs.next")
        self.assertEqual(plan.module("even-reads"), "Rattle·toy·proofs.proofs.pairs.even")
        self.assertEqual(plan.claim("«even».Post"), "even-reads.Post")

    def test_names_that_clash_are_refused(self):
        self.refused("the member even has", self.plan, PLAN + "reads even-reads Rattle·words.proofs.even\n")
        self.refused("the member measures has", self.plan, PLAN + "member measures 0\n")
        self.refused("no plan of the cycle yet", weave.Plan, str(self.root / "none"))


class Cycles(Case):
    def setUp(self):
        super().setUp()
        self.folder = self.put_cycle()
        self.plan = weave.Plan(str(self.root / self.folder / "plan"))

    def member(self, text=None, name="even", lts=EVEN_LTS):
        path = str(self.root / "none.ans") if text is None else self.put("f.ans", text)
        return weave.member_file(self.plan, name, BASE, lts, path)

    def cycle(self):
        return weave.cycle("toy", "pairs", self.goals)

    def test_a_member(self):
        text = "-- `even` meets its contract.\n----\nunfolding f\nreturns c =\n    c@slice-known\n"
        self.assertEqual(self.member(text), EVEN)

    def test_a_member_that_names_numbers_itself(self):
        text = self.member("use Prim.Native.Nat.{_+_, ℕ}\n----\nreturns c = a + b\n")
        self.assertEqual(text.count("use Prim.Native.Nat"), 1)

    def test_a_member_with_a_loop(self):
        text = self.member("----\nInv-loop t i n = a\n", "odd-one", LOOP_LTS)
        self.assertIn("\nabbrev pub Inv-loop : lts.InvT-loop\nInv-loop t i n = a\n", text)
        self.assertIn("\nabbrev pub μ-loop : lts.MeasureT-loop\nμ-loop a0 = ?\n", text)
        over = "cs (odd-one-at t) odd-one-reads.Post Inv-loop μ-loop"
        self.assertIn(f"  pub loop-holds : lts.Need-loop-holds {over}\n  loop-holds c = search needs\n", text)
        self.assertIn("Measures.{odd-one-at, even-below}\n", text)

    def test_a_member_with_a_fact(self):
        text = self.member("----\nfact far at slice-known : A = a\nreturns c = c@far .x\n")
        over = "cs (even-at t) even-reads.Post"
        self.assertIn(f"\n  far : (c : lts.After-slice-known {over}) → A\n  far c = a\n", text)
        self.assertIn("\n  returns c = far (c .before) .x\n", text)

    def test_a_member_without_answers_has_holes(self):
        text = self.member()
        self.assertTrue(text.startswith("-- `even` meets its contract.\nuse "))
        self.assertIn("\n  odd-one-requires c κs = ?\n", text)
        self.assertNotIn("search", text)

    def test_what_a_member_refuses(self):
        self.refused("answers to nothing that is asked: x", self.member, "----\nx c = a\n")
        more = EVEN_LTS + "      Need-returns-2 = (c : Start) → A\n"
        self.refused("run --plan", self.member, "----\n", "even", more)

    def test_the_whole(self):
        self.assertEqual(weave.whole_file(self.plan, BASE), WHOLE)

    def test_measures(self):
        given = {"even": "least (a .0 + 1)"}
        self.assertEqual(weave.measures_file(self.plan, ["use m.{least, most}"], given), MEASURES)

    def test_parameters(self):
        self.assertEqual(weave.parameters("toy", "pairs"), {"even": ["n", "pool"], "odd-one": ["tokens", "n"]})

    def test_a_measure(self):
        self.assertEqual(weave.measured("2 * @b - @a", ["a", "b"], "m"), "2 * a .1 .0 - a .0")
        self.refused("m: no parameter x", weave.measured, "@x", ["a"], "m")

    def test_a_file_of_measures(self):
        def read(text):
            return weave.measures_of(self.put("measures", text), {"even": ["n"], "odd-one": ["k", "n"]})
        text = "-- C = D.\nuse m.{f}\n\nodd-one = f = @n\n"
        self.assertEqual(read(text), (["use m.{f}"], {"odd-one": "f = a .1 .0"}))
        self.refused("a member of the cycle: oddone = 1", read, "oddone = 1\n")
        self.refused("a member of the cycle: even=1", read, "even=1\n")
        self.refused("two measures of even", read, "even = 1\neven = 2\n")
        self.assertEqual(weave.measures_of("none", {}), ([], {}))

    def test_a_cycle(self):
        made = self.cycle()
        names = ["", "/Even", "/Measures", "/OddOne"]
        self.assertEqual(sorted(made), [f"pairs/+even+odd_one/Proof{n}.antt" for n in names])
        self.assertIn("μ-odd-one κs a = a .1 .0 + 1\n", made["pairs/+even+odd_one/Proof/Measures.antt"])

    def test_what_a_cycle_refuses(self):
        self.put(f"{self.folder}/even.ans~", "")
        self.cycle()
        stray = self.put(f"{self.folder}/odd.ans", "----\n")
        self.refused("answers of no member of the cycle: odd.ans", self.cycle)
        os.remove(stray)
        os.remove(f"{self.goals}/pairs/+even+odd_one/Tie.antt")
        self.refused("plan: no Tie of this cycle", self.cycle)


class Commands(Case):
    def setUp(self):
        super().setUp()
        self.put_leaf(LEAF_ANSWERS)
        self.put_cycle()
        self.leaf = self.root / "crates/toy/proofs/part/leaf/Proof.antt"

    def put_rt(self, lines):
        """Puts a stand-in for rt on the path."""
        os.chmod(self.put("bin/rt", f"#!/bin/sh\n{lines}\n"), 0o755)
        patch = unittest.mock.patch.dict(os.environ, PATH=f"{self.root}/bin:{os.environ['PATH']}")
        patch.start()
        self.addCleanup(patch.stop)

    def test_weave_and_check(self):
        status, out, _ = self.run_tool("--check", "--stale", "toy")
        self.assertEqual((status, out.splitlines()[-1], self.leaf.exists()), (1, "5 out of step", False))
        status, out, _ = self.run_tool("--stale", "toy")
        self.assertEqual((status, out.splitlines()[-1]), (0, "5 woven"))
        self.assertEqual(self.leaf.read_text(encoding="utf-8"), LEAF)
        self.assertEqual(self.run_tool("--check", "--stale", "toy"), (0, "0 out of step\n", ""))
        self.assertEqual(self.run_tool("--stale", "toy"), (0, "0 woven\n", ""))

    def test_an_edit_is_out_of_step(self):
        self.run_tool("--stale", "toy")
        self.put_leaf(LEAF_ANSWERS.replace("($P)", "($P .0)"))
        said = "out of step: part/leaf/Proof.antt\n1 out of step\n"
        self.assertEqual(self.run_tool("toy", "--check", "part/leaf", "--stale"), (1, said, ""))
        self.assertEqual(self.leaf.read_text(encoding="utf-8"), LEAF)
        self.assertEqual(self.run_tool("--stale", "toy"), (0, "wove part/leaf/Proof.antt\n1 woven\n", ""))
        self.assertIn("(c .before .before .pre .0)", self.leaf.read_text(encoding="utf-8"))

    def test_a_laid_out_file_stays(self):
        self.run_tool("--stale", "toy")
        laid = LEAF.replace("(tie.spec\n    put-row-requires\n    returns)", "(tie.spec put-row-requires returns)")
        self.leaf.write_text(laid, encoding="utf-8")
        self.assertEqual(self.run_tool("--stale", "toy")[1], "0 woven\n")
        self.assertEqual(self.leaf.read_text(encoding="utf-8"), laid)

    def test_some_functions_only(self):
        self.assertEqual(self.run_tool("--stale", "toy", "part/leaf")[1], "wove part/leaf/Proof.antt\n1 woven\n")
        out = self.run_tool("--check", "--stale", "toy", "pairs")[1]
        self.assertEqual(out.splitlines()[::4], ["out of step: pairs/+../Proof.antt", "4 out of step"])
        self.put("crates/toy/answers/pairs/cycle/odd_one.ans", "----\n")
        self.assertEqual(self.run_tool("--check", "--stale", "toy", "pairs/odd_one")[1], out)
        self.refused("no answers of part/laef", self.run_tool, "--stale", "toy", "part/laef")

    def test_one_problem_does_not_stop_the_rest(self):
        self.put("crates/toy/answers/part/gone.ans", "----\n")
        status, out, err = self.run_tool("--stale", "toy")
        self.assertEqual((status, out.splitlines()[-1]), (1, "5 woven"))
        self.assertEqual(err, "weave: part/gone: the goals have no such function\n")

    def test_problems_name_files_from_the_repository(self):
        self.put_leaf("returns c = a\n")
        err = self.run_tool("--stale", "toy")[2]
        self.assertTrue(err.startswith("weave: crates/toy/answers/part/leaf.ans: no line `----`"))

    def test_names(self):
        expected = "put-row-requires: slice-known κs args pre\nreturns: put-row slice-known κs args pre\n"
        self.assertEqual(self.run_tool("--names", "--stale", "toy", "part/leaf"), (0, expected, ""))
        self.assertEqual(self.run_tool("--names", "--stale", "toy", "pairs/odd_one")[1], "loop-holds: pre\n")
        self.refused("no goals of part/laef", self.run_tool, "--names", "--stale", "toy", "part/laef")
        self.refused("no goals of gone/leaf", self.run_tool, "--names", "--stale", "toy", "gone/leaf")

    def test_bad_usage(self):
        for words in "--chek toy", "--chec toy", "--names toy", "--plan toy", "--check --plan toy a", "":
            with self.assertRaises(SystemExit) as caught:
                self.run_tool(*words.split())
            self.assertEqual(caught.exception.code, 2, words)
        self.refused("no goals of tyo: run it without --stale", self.run_tool, "--stale", "tyo")
        os.makedirs(weave.goals_of("tyo"))
        self.refused("answers: no answers", self.run_tool, "--stale", "tyo")

    def test_new_goals(self):
        self.put_rt('[ "$*" = "goals toy" ] && touch ran; exit 1')
        self.assertEqual(self.run_tool("--check", "toy")[1].splitlines()[-1], "5 out of step")
        self.assertTrue((self.root / "ran").exists())
        self.put_rt("echo no crate; exit 2")
        self.refused("rt goals toy failed:\nno crate", self.run_tool, "toy")
        self.put_rt(f"rm -r '{self.root}/target/goals'; echo an error in the source; exit 1")
        self.refused("no goals of toy: an error in the source", self.run_tool, "toy")

    def skeletons(self, *cycles):
        help_line = f"help: write {self.root}/crates/toy/proofs/pairs/%s/Proof.antt with these lines"
        indented = "".join(f"    {line}\n" for line in SKELETON.splitlines())
        return "a note\n" + "".join(f"{help_line % c}\n{indented}" for c in cycles) + "logic=not-proved\n"

    def test_plan(self):
        self.run_tool("--stale", "toy")
        self.put("printed", self.skeletons("+even+odd_one"))
        plan = pathlib.Path(self.put("crates/toy/answers/pairs/cycle/plan", "old"))
        proof = self.root / "crates/toy/proofs/pairs/+even+odd_one/Proof.antt"
        before = proof.read_text(encoding="utf-8")
        self.put_rt(f'[ "$*" = "dev toy" ] && [ "$RT_CUT" = 0 ] && [ ! -e "{proof}" ] && cat printed; exit 1')
        self.assertEqual(self.run_tool("--plan", "toy", "pairs"), (0, "planned pairs\n", ""))
        self.assertEqual((plan.read_text(encoding="utf-8"), proof.read_text(encoding="utf-8")), (PLAN, before))
        self.assertEqual(os.listdir(self.root / "target"), ["goals"])

    def test_a_plan_that_fails_leaves_the_proofs(self):
        self.run_tool("--stale", "toy")
        proof = self.root / "crates/toy/proofs/pairs/+even+odd_one/Proof.antt"
        for lines, words in ("exit 2", "rt dev toy failed"), ("echo proved", "printed 0 skeletons of cycles of pairs"):
            self.put_rt(lines)
            self.refused(words, self.run_tool, "--plan", "toy", "pairs")
            self.assertEqual(proof.read_text(encoding="utf-8"), WHOLE)
        self.put("printed", self.skeletons("+even+odd_one", "+other"))
        self.put_rt("cat printed")
        self.refused("printed 2 skeletons", self.run_tool, "--plan", "toy", "pairs")

    def test_without_rt(self):
        with unittest.mock.patch.dict(os.environ, PATH=str(self.root)):
            self.refused("there is no command `rt`", self.run_tool, "toy")


if __name__ == "__main__":
    unittest.main()
