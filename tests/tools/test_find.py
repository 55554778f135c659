"""Tests of `tools/find`. `tools/lists` runs them, as `python3 -m unittest discover tests/tools` does."""
import ast
import itertools
import os
import re
import shutil
import subprocess
import sys
import tempfile
import unittest

# (the tools that are tested)
sys.path.insert(0, os.path.join(os.path.dirname(os.path.abspath(__file__)), "..", "..", "tools"))

import lookup
from repository import TOP, read_text
from vocabulary import definitions, libraries

# Names that `tools/find` knows, each with what its first lines have: how it is imported, and what it takes.
LOOKED_UP = {
    "told_counts": ("use Rattle.futures_lite.specs.Laws.Told.{told_counts}", "told_counts : {R : Type 0} {reads : Runs ReadMark R} {r : Ranks R} →"),
    "Runs": ("use Rattle.futures_lite.specs.Own.{Runs}", "Runs : Type 0 → Type 0 → Type 1", "Runs A S = S → List A → S → Type 0"),
    "MakesAlways": ("use Rattle.futures_lite.specs.Streams.{MakesAlways}", "MakesAlways {F X V : Type 0} (g : Mut F X V) (Fact : V → Type 0) (f : F)"),
    "ItemsAfter": ("use Rattle.futures_lite.specs.Own.{ItemsAfter}", "ItemsAfter : {S A : Type 0} → (S → List A → Type 0) → Answer A → S →"),
    "UnfoldsInto": ("use Rattle.futures_lite.specs.Lists.{UnfoldsInto}", "UnfoldsInto {F S V O B : Type 0} (call : Mut F (S × Unit {0}) V)"),
    "ComesBack": ("use Rattle.framed.specs.RoundTrip.{ComesBack}", "ComesBack {C D X V E : Type 0} (encodes : C → X → List ℕ → C → Type 0)"),
    "RoundTrip": ("framed::RoundTrip: trait", "ghost readable: { Self → List X → Self.Decoder → Type 0 };", "crates/framed/src/"),
    "gives_headed": ("use Rattle.framed.specs.Heads.{gives_headed}", "gives_headed {C : Type 0} (f : HeadForm C) : Gives C Filled FrameError"),
    "FrameStep": ("use Rattle.framed.specs.Frames.{FrameStep}", "FrameStep {T D X E : Type 0} (gives : Gives D X E)"),
    "taken_both": ("use Rattle.futures_lite.specs.Laws.Told.{taken_both}",),
    "WriteMark.closed": ("use Rattle.futures_lite.specs.Marks.{WriteMark}", "WriteMark.closed : WriteMark"),
    "RoundTripLaws.back": ("RoundTripLaws::back: field of RoundTripLaws", "The frame of an item comes back as the item, whatever follows it."),
    "CutOff": ("use Rattle.framed.specs.declared.FrameError.TheVariants.{CutOff}", "crates/framed/src/"),
    "EndsForEver": ("EndsForEver: word of contracts, of its file alone", "EndsForEver [] = ⊤"),
    "nth": ("futures_lite::stream::StreamExt::nth: method", "fn nth(&mut self, n: usize)", "crates/futures_lite/src/stream.rt:"),
    "IfOk": ("use Rattle.std.specs.Prelude.{IfOk}", "`IfOk r (λ v. B)`: B holds if `r` is `Ok(v)`."),
}
# Words that a newcomer asks for, and the page that answers.
ASKED = {
    "boxed": "docs/FROM-FUTURES-LITE.md",
    "cancel": "docs/FROM-FUTURES-LITE.md",
    "codec": "docs/guide/21-codec.md",
    "fair": "docs/RULES.md",
    "limit": "docs/RULES.md",
    "select": "docs/FROM-FUTURES-LITE.md",
    "spawn": "docs/FROM-FUTURES-LITE.md",
    "timeout": "docs/FROM-FUTURES-LITE.md",
}
# A page with all that begins a paragraph.
PAGE = """# Frames

Some words
go on. `code` is not one.

```rust
let words = 1;
```

## Limits

- A point,
  of two lines.
- Wordy: a limit.
| a | row |
"""
# A file of a crate's specs, whose blocks have parameters.
SPEC = """-- What is kept.
unfoldable pub use Rattle.other.specs.Words.{Twice}
pub mod Words
module _ {A : Type 0} (f : A → ℕ)
    (g : A) where
  module _ (h : A) where
    -- The second number is twice the first.
    abbrev pub IsTwice : ℕ → ℕ
        → Type 0
    IsTwice x y = y ≡ x + x

    hidden : ℕ
    hidden = 1

  -- It is so.
  pub twice_is : (x : ℕ) → IsTwice x (x + x)
  twice_is x = refl

-- Numbers.
pub record Numbers : Type 0 where
  -- One.
  pub one : ℕ

  pub two : ℕ

-- Of each other.
abbrev mutual
  pub even : ℕ → Type 0
  even n = odd n
"""


class LookUps(unittest.TestCase):
    def whole(self, name):
        """Returns the lines that an answer has before its first heading."""
        is_found, lines = lookup.answer([name])
        self.assertTrue(is_found)
        return list(itertools.takewhile(lambda it: not re.fullmatch(r"\S.*:", it), lines))

    def test_a_name_is_told_with_its_import_and_its_arguments(self):
        told = {name: " ".join(" ".join(self.whole(name)).split()) for name in LOOKED_UP}
        self.assertEqual([(name, it) for name, wanted in LOOKED_UP.items() for it in wanted if it not in told[name]], [])

    def test_each_definition_is_a_word(self):
        wanted = {(it.name, it.path) for crate in libraries() for it in definitions(crate)}
        told = {(it.names[0], it.places[0].partition(":")[0]) for it in lookup.definitions_and_lemmas(()) if it.kind == "word"}
        self.assertEqual(wanted - told, set())

    def test_each_place_of_a_name_has_it(self):
        for name in ("told_counts", "Runs", "ComesBack", "RoundTrip", "gives_headed", "nth", "EndsForEver"):
            places = re.findall(r"^  (crates/\S+):(\d+)$", "\n".join(self.whole(name)), re.M)
            self.assertTrue(places)
            for path, line in places:
                self.assertIn(name, read_text(f"{TOP}/{path}").splitlines()[int(line) - 1])

    def test_exact_names_come_first_and_then_those_of_other_case(self):
        text = "\n".join(lookup.answer(["Or"])[1])
        places = [text.index(it) for it in ("futures_lite::future::Or: struct", "  futures_lite::future::or  -- ", "specs.Streams.{Ors}")]
        self.assertEqual(places, sorted(places))
        self.assertEqual(self.whole("itemsafter")[0], "ItemsAfter: word of contracts")

    def test_words_fit_by_the_name_by_the_code_or_by_the_comment(self):
        entry = lookup.Entry("word", ("Kept", "Kept.inner"), "word of contracts", head="Kept : ℕ → Type 0", says="What `it` holds on to.")
        asked = ("Kept", "kept", "Ke", "ke", "ept", "EPT", ": ℕ", "holds on", "old", "to it")
        self.assertEqual([entry.fit(it.split()) for it in (*asked, "it", "other")], [*range(lookup.EACH_WORD + 1), lookup.CODE, None])

    def test_a_piece_of_a_clause_is_found(self):
        _, lines = lookup.answer(["UnfoldsInto", "F.FnMut"])
        self.assertIn("  futures_lite::stream::unfold  -- Returns a stream of the items that futures make.", lines)

    def test_pages_answer_what_is_no_name(self):
        for word, page in ASKED.items():
            is_found, lines = lookup.answer([word])
            told = list(itertools.takewhile(lambda it: it, lines[lines.index("Pages:") :]))
            self.assertTrue(is_found and any(it.startswith(f"  {page}:") for it in told), word)

    def test_a_page_is_cut_into_paragraphs_points_and_rows(self):
        wanted = [(1, "Frames"), (3, "Some words go on. `code` is not one."), (10, "Limits"), (12, "- A point, of two lines."), (14, "- Wordy: a limit.")]
        self.assertEqual([(number, it) for number, _, it in lookup.paragraphs(PAGE)], [*wanted, (15, "| a | row |")])

    def test_an_answer_is_bounded_and_says_how_many_more_there_are(self):
        _, lines = lookup.answer(["a"])
        self.assertLess(len(lines), 150)
        self.assertTrue([it for it in lines if re.fullmatch(r"  \(\d+ more\)", it)])

    def test_another_name_is_not_found_and_near_names_are_told(self):
        is_found, lines = lookup.answer(["told_cuonts"])
        self.assertFalse(is_found)
        self.assertIn("told_counts", lines[0])

    def test_declarations_have_the_parameters_of_the_blocks_around_them(self):
        twice, is_so, numbers, even = lookup.declarations(SPEC)
        head = "IsTwice {A : Type 0} (f : A → ℕ) (g : A) (h : A) : ℕ → ℕ → Type 0"
        self.assertEqual((twice.name, twice.head, twice.brief, twice.line), ("IsTwice", head, "IsTwice .. : ℕ → ℕ → Type 0", 8))
        self.assertEqual((twice.body, twice.says), (["IsTwice x y = y ≡ x + x"], "The second number is twice the first."))
        self.assertEqual((is_so.head, is_so.body), ("twice_is {A : Type 0} (f : A → ℕ) (g : A) : (x : ℕ) → IsTwice x (x + x)", []))
        self.assertEqual((numbers.head, numbers.body), ("Numbers : Type 0 where", ["-- One.", "pub one : ℕ", "pub two : ℕ"]))
        self.assertEqual((even.name, even.says), ("even", "Of each other."))
        self.assertEqual([it.is_definition for it in (twice, is_so, numbers, even)], [True, False, True, True])

    def test_a_copy_of_the_library_has_the_tool(self):
        tools = ast.literal_eval(re.search(r"^TOOLS = (\(.*?^\)|\(.*\))$", read_text(f"{TOP}/tools/vendor"), re.M | re.S)[1])
        with tempfile.TemporaryDirectory(prefix="find-") as other:
            for folder in ("tools", "crates/own/specs"):
                os.makedirs(f"{other}/{folder}")
            for tool in tools:
                shutil.copy(f"{TOP}/{tool}", f"{other}/tools")
            for path, text in (("crates.txt", "own: futures_lite\n"), ("crates/own/specs/Kept.antt", SPEC)):
                with open(f"{other}/{path}", "w", encoding="utf-8") as file:
                    file.write(text)
            ran = [subprocess.run([f"{other}/tools/find", it], capture_output=True, encoding="utf-8") for it in ("IsTwice", "IsTwcie", "NumberTwice")]
        self.assertEqual([it.returncode for it in ran], [0, 1, 1])
        self.assertIn("  use Rattle.own.specs.Kept.{IsTwice}\n", ran[0].stdout)
        self.assertIn("names like it are IsTwice", ran[1].stdout)
        self.assertIn("What has its parts, Number and Twice:\n  use Rattle.own.specs.Kept.{IsTwice}", ran[2].stdout)
