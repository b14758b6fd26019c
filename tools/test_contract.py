"""Tests contract_size.py over crates that are small enough to count by hand, and over those of the
repository.
"""
import contextlib
import io
import os
import unittest

from test_base import TOP, InFolder, put
import contract_size

# `computed` rests on IsSum, on Kind, Total and total, on the model of Box and Side, and on the
# trait with what its clause names.
SPECS = """-- a comment with a name: Unread
use Rattle.std.specs.Prelude.{ℕ, List, ◌≡◌}
use Rattle.cu_low.specs.Kinds.{Kind, Plain, twice as double}
use Rattle.cu_low.specs.declared.boxes.Box.{Box}
use Rattle.cu_low.specs.declared.boxes.Side.TheVariants as side
use Rattle.cu_low.specs.Shelves as shelves
use Rattle.cu_low.specs.Kinds.{other, ◌⊞◌}

-- the sum of a list
abbrev pub total : List ℕ → ℕ
total [] = 0
total (x ∷ xs) = x + total xs

abbrev pub Total : ℕ → List ℕ → Type 0
Total n xs = n ≡ total xs

pub record IsSum (b : Box) (unread : ℕ) : Type 0 where
  pub kind : Kind
  pub sum : Total unread b.items
  pub turned : (λ total. total) ≡ unread

abbrev pub Unread : Type 0
Unread = ℕ

abbrev pub unread : ℕ → ℕ
unread Plain = double 3

abbrev pub at_side : Box → Type 0
at_side b = b.side ≡ side.Left

abbrev pub Chosen : ℕ → Type 0
Chosen n = Unread × at_side n

-- bound names, labels and texts
abbrev pub Bound : ℕ → Type 0
Bound unread = unread ≡ record { total = "of Unread and"; Chosen = 1 } -- IsSum

pub record Fields : Type 0 where
  pub unread : ℕ
  pub same : unread ≡ 1

module _ (total : ℕ) where
  abbrev pub Inner : ℕ → Type 0
  Inner n = n ≡ total

-- names behind an alias, an operator and a constructor
abbrev pub Aliased : ℕ → Type 0
Aliased n = shelves.IsKept n

abbrev pub Added : ℕ → ℕ
Added n = n ⊞ 1

abbrev pub Chose : ℕ → ℕ
Chose other = 1

abbrev pub Turned : ℕ → Type 0
Turned n = n ≡ side.Left
"""
KINDS = """use Rattle.std.specs.Prelude.{ℕ}

pub data Kind : Type 0 where
  Plain : Kind
  other : Kind

infixl 5 ◌⊞◌
abbrev pub ◌⊞◌ : ℕ → ℕ → ℕ
n ⊞ m = n

abbrev pub twice : ℕ → ℕ
twice n = n + n
"""
BOXES = """//! Boxes.
ghost use Rattle.std.specs.Prelude.{ℕ, List};

/// A box.
pub struct Box {
    items: Vec<u64>,
    side: Side,
}

impl Model for Box {
    type Model = { items : List ℕ; side : Side };
}

pub enum Side {
    Left,
    Right,
}

pub trait Shelf {
    /// Takes a box.
    fn take(&mut self, b: Box) -> u64
        ensures { IsKept result };
}

ghost use Rattle.cu_low.specs.Shelves.{IsKept};
"""
SHELVES = """abbrev pub IsKept : ℕ → Type 0
IsKept n = n ≡ n
"""
CALL = """//! The call.
ghost use Rattle.cu_top.specs.Sums.{IsSum, Chosen, unread};

use cu_low::{Box, Shelf};

/// Adds.
pub fn top<S: Shelf>(shelf: &mut S, b: Box) -> u64
    // a premise
    requires { unread b }
    ensures computed { (n : ℕ) → IsSum b n }
    ensures other { Chosen result }
{
    add(b)
}

/// What of a choice is relied on.
pub fn choice_law()
    ensures { (n : ℕ) → Chosen n → Relied n }
{}

ghost use Rattle.cu_top.specs.Relied.{Relied};
"""
RELIED = """abbrev pub Relied : ℕ → Type 0
Relied n = n ≡ 0
"""


class ContractSize(InFolder):
    def setUp(self):
        super().setUp()
        for path, text in (("cu_top/specs/Sums.antt", SPECS), ("cu_low/specs/Kinds.antt", KINDS),
                           ("cu_low/src/boxes.rt", BOXES), ("cu_low/specs/Shelves.antt", SHELVES),
                           ("cu_top/src/call.rt", CALL), ("cu_top/specs/Relied.antt", RELIED)):
            put(f"{self.top}/{path}", text.encode())
        self.crates = contract_size.Crates(self.top)

    def found(self, names=(), closed=None):
        return self.crates.read_from(self.crates.clauses(contract_size.CALL, names), closed or {})

    def read(self, names=(), closed=None):
        return {made.name: made.lines() for made in self.found(names, closed)}

    def test_a_clause_rests_on_what_it_names_and_what_that_names(self):
        self.assertEqual(self.read(["computed"]), {
            "Shelf": 2, "IsKept": 2, "IsSum": 4, "Box": 3, "Side": 4, "Kind": 3, "Total": 2,
            "total": 3})

    def test_the_whole_contract_has_the_premises_and_each_clause(self):
        more = {"unread": 2, "twice": 2, "Chosen": 2, "Unread": 2, "at_side": 2}
        self.assertEqual(self.read(), {**self.read(["computed"]), **more})

    def test_only_names_of_definitions_are_followed(self):
        module = self.crates.module("Rattle.cu_top.specs.Sums")
        for name, names in (("Bound", set()), ("Fields", set()), ("Inner", set()),
                            ("Aliased", {"IsKept"}), ("Added", {"◌⊞◌"}), ("Chose", {"Kind"}),
                            ("Turned", {"Side"})):
            with self.subTest(name):
                named = self.crates.named(self.crates.look(module, name))
                self.assertEqual({made.name for made in named}, names)

    def test_the_law_of_a_closed_name_is_read_in_place_of_its_body(self):
        closed = {"cu_top.Sums.Chosen": ("cu_top", "call", "choice_law")}
        self.assertEqual(set(self.read(["other"], closed)), {"Shelf", "IsKept", "Chosen", "Relied"})
        self.assertEqual(set(self.read(["other"])),
                         {"Shelf", "IsKept", "Chosen", "Unread", "at_side", "Box", "Side"})

    def test_more_than_may_be_read_is_told(self):
        for most, status in ((8, 0), (7, 1)):
            rows = [("a row", self.found(["computed"]), most)]
            told = io.StringIO()
            with self.subTest(most), contextlib.redirect_stdout(told):
                self.assertEqual(contract_size.print_rows(rows, None), status)
            self.assertEqual("a row: more than may be read" in told.getvalue(), status == 1)


class Contract(unittest.TestCase):
    def test_the_contract_of_the_program_can_be_read(self):
        rows = list(contract_size.rows_of(contract_size.Crates(os.path.join(TOP, "crates"))))
        for name, read, most in rows:
            with self.subTest(name):
                self.assertLessEqual(len(read), most or len(read))
        names = {made.full_name for made in rows[0][1]}
        # no word of how a result is computed
        self.assertFalse(names & {"cu_top.Prepare.job_plan", "cu_op.PlanView.PlanView",
                                  "cu_table.Machine.Machine"})
        self.assertFalse({"cu_top.Result.HoldsResult", "cu_semantics.Meaning.meaning_of",
                          "cu_store.depot.Depot"} - names)


if __name__ == "__main__":
    unittest.main()
