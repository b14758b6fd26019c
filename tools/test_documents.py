"""Tests of the pages that scripts write or compare: the list of definitions, what one writes to add something, and the sizes of pages."""
import glob
import os
import re
import unittest

from test_base import TOP, InFolder, put as put_bytes
import adding
import contract_size
import crate_pages
import definitions

__all__ = ["Pages", "Definitions", "Adding"]
MOST_WORDS, MOST_OF_A_DECISION = 4000, 60


def put(path, text):
    put_bytes(path, text.encode())


def page_text(path):
    with open(f"{TOP}/{path}", encoding="utf-8") as file:
        return file.read()


class Pages(unittest.TestCase):
    def test_no_page_is_long(self):
        """But the list of definitions, in which one looks names up."""
        pages = [path for path in glob.glob(f"{TOP}/*.md") + glob.glob(f"{TOP}/docs/*.md") if os.path.basename(path) != "DEFINITIONS.md"]
        self.assertGreater(len(pages), 10)
        for path in pages:
            self.assertLessEqual(len(page_text(os.path.relpath(path, TOP)).split()), MOST_WORDS, path)

    def test_decisions_are_short(self):
        decisions = [line for line in page_text("docs/DECISIONS.md").split("\n") if line.startswith("- ")]
        self.assertGreater(len(decisions), 80)
        for line in decisions:
            self.assertLessEqual(len(line[2:].split()), MOST_OF_A_DECISION, line)

    def test_each_crate_has_a_row_and_a_page(self):
        self.assertEqual(list(crate_pages.wrong()), [])


class Definitions(InFolder):
    def test_the_page_is_what_the_script_writes(self):
        found = definitions.parted(contract_size.Crates(definitions.CRATES))
        self.assertEqual(page_text("docs/DEFINITIONS.md"), "\n".join(definitions.lines(found)), "tools/definitions.py writes it anew")
        names = {it.name for there in found.values() for it in there}
        self.assertLessEqual({"RunAnswered", "stored_element", "rule_of", "Contents", "Status", "Depot"}, names)

    def test_the_comment_right_above_is_told(self):
        """Its first sentence; of an operator behind its line of precedence, of a type before its derived traits."""
        put(f"{self.top}/One.antt", "-- The file. It is long.\nuse Rattle.std.specs.Prelude.{ℕ}\n\n-- The whole. And more.\nabbrev pub whole : ℕ → ℕ\nwhole n = n\n\n"
                                    "-- ---- operators\n\n-- how far\ninfixl 10 ◌≪◌\nabbrev pub ◌≪◌ : ℕ → ℕ\n\npub bare : ℕ\n")
        put(f"{self.top}/two.rt", "/// A colour of two,\n/// and no more. Else none.\n#[derive(Clone)]\npub enum Colour {\n    Red,\n}\n")
        old, definitions.CRATES = definitions.CRATES, str(self.top)
        self.addCleanup(setattr, definitions, "CRATES", old)
        self.assertEqual(definitions.comments("One.antt"), {"whole": (5, "the whole"), "◌≪◌": (12, "how far"), "bare": (14, "")})
        self.assertEqual(definitions.comments("two.rt"), {"Colour": (4, "a colour of two, and no more")})


class Adding(InFolder):
    PAGE = "## A colour: `Colour::Red`\n\n| file | what |\n|---|---|\n| {} | all |\n\n| file | what |\n|---|---|\n| `no.rt` | none |\n\n## Else\n"

    def test_the_lists_are_the_files(self):
        self.assertEqual(list(adding.wrong(page_text("docs/ADDING.md"))), [])
        named = re.findall(r"(\w+)::\w+`", " ".join(re.findall(r"(?m)^## .*", page_text("docs/ADDING.md"))))
        self.assertLessEqual({"Form", "Op", "FoldKind", "CommandName"}, set(named))

    def test_what_is_missing_or_too_much_is_told(self):
        put(f"{self.top}/crates/cu_a/src/colour.rt", "pub enum Colour {\n    Red,\n    Blue,\n}\n")
        put(f"{self.top}/crates/cu_a/src/other.rt", "fn red() -> Colour { Colour::Red }\n")
        put(f"{self.top}/crates/cu_a/src/blue.rt", "// Colour::Red\nfn blue() -> Colour { Colour::Blue }\n")
        for told, wanted in (("`cu_a/src/colour.rt`, `cu_a/src/other.rt`", []),
                             ("`cu_a/src/colour.rt`", ["Colour::Red: cu_a/src/other.rt names it and isn't in the list"]),
                             ("`cu_a/src/colour.rt`, `cu_a/src/other.rt`, `cu_a/src/blue.rt`",
                              ["Colour::Red: cu_a/src/blue.rt is in the list and doesn't name it"])):
            self.assertEqual(list(adding.wrong(self.PAGE.format(told), self.top)), wanted)
        self.assertEqual(list(adding.wrong("## Nothing\n", self.top)), ["no heading names a variant"])
