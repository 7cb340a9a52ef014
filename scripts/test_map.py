"""That documents have what the sources give, and that the sources are read as they stand."""

import os
import tempfile
import unittest
from importlib.machinery import SourceFileLoader
from importlib.util import module_from_spec, spec_from_loader

import sources
from calls import TOP


def script():
    loader = SourceFileLoader("map", os.path.join(TOP, "scripts", "map"))
    found = module_from_spec(spec_from_loader("map", loader))
    loader.exec_module(found)
    return found


CODE = """//! Tanks [of water](x). They hold
//! it.

/// A tank.
pub struct Tank {
    level: u64,
    ghost low: { level ≤ 7 },
}

impl<M: Machine<u8>> Tank<M> {
    /// Fills: [`Tank`] has all. Nothing is lost.
    pub fn fill(&mut self, by: u64) -> bool
        requires few { by ≤ 7 }
        ensures { result ≡ true }
        ensures level { self.new ≡ record self.old {
          level = by;
        } }
        ensures low { self.new.level ≤ 7 }
    {
        helped()
    }

    pub(crate) fn hidden(&self) {}
}

/// A law.
pub fn tanks_stay()
    ensures { TanksStay }
{}

pub fn unknown() {}
"""

SPECS = """-- Tanks.
use Rattle.lt_num.specs.Value.{value_of as value, raw_of}
use Rattle.lt_num.specs.Range as range

-- how full a tank is
abbrev pub level : Tank → ℕ
level t = value t.raw_of

mutual
  -- a row of tanks
  pub data Row (C : Type 0) : Type 0 where
    none : Row C
    more : Tank → Rows → Row C

abbrev pub last : ℕ
last = range.high (level none)
"""


class Sources(unittest.TestCase):
    def module(self, text):
        with tempfile.NamedTemporaryFile("w", encoding="utf-8", suffix=".antt") as file:
            file.write(text)
            file.flush()
            return sources.Module(file.name)

    def test_functions_have_their_clauses(self):
        with tempfile.NamedTemporaryFile("w", encoding="utf-8", suffix=".rt") as file:
            file.write(CODE)
            file.flush()
            wanted = lambda it: it in ("Tank", "tanks_stay")
            found = sources.items_of(file.name, "tank.rt", wanted)
        self.assertEqual(
            found,
            [
                ("Tank", "tank.rt", None, ["low"], "A tank"),
                ("Tank::fill", "tank.rt", ["few"], ["", "level", "low"], "Fills: `Tank` has all"),
                ("tanks_stay", "tank.rt", [], [""], "A law"),
            ],
        )

    def test_definitions_name_others(self):
        module = self.module(SPECS)
        names = [it.names for it in module.definitions]
        self.assertEqual(names, [["level"], ["Row", "none", "more"], ["last"]])
        level, _, last = module.definitions
        self.assertEqual(set(module.mentioned(level)), {(None, "level"), VALUE})
        wanted = {HIGH, *((None, it) for it in SAME)}
        self.assertEqual(set(module.mentioned(last)), wanted)
        self.assertEqual(module.slice(level)[0], "-- how full a tank is")

    def test_a_sentence_is_the_first(self):
        comment = ["A [`b`](c), and", "d. E.", "", "F."]
        self.assertEqual(sources.first_sentence(comment), "A `b`, and d")
        self.assertEqual(sources.first_sentence(["No end"]), "No end")

    def test_each_name_that_a_module_takes_is_found(self):
        paths = [
            os.path.join(sources.CRATES, crate.name, "specs", name)
            for crate in sources.crates()
            for name in sources.files_in(crate.name, "specs", ".antt")
        ]
        modules, count = {it: sources.Module(it) for it in paths}, 0
        for path, module in modules.items():
            for there, taken in module.uses.values():
                other = modules.get(sources.path_of(there))
                if other and taken:
                    count += 1
                    is_there = taken in other.by_name or taken in other.uses
                    self.assertTrue(is_there, f"{path}: {taken}")
        self.assertGreater(count, 1000)


VALUE, HIGH = ("Rattle.lt_num.specs.Value", "value_of"), ("Rattle.lt_num.specs.Range", "high")
SAME = ("last", "level", "none")


class Documents(unittest.TestCase):
    def test_documents_have_what_the_sources_give(self):
        self.assertEqual(script().stale(), [], "scripts/map --write writes them anew")

    def test_a_part_is_written_in_its_place_alone(self):
        module = script()
        module.PARTS["files"] = lambda: ["new", ""]
        text = "a\n<!-- scripts/map files -->\nold\n<!-- end of files -->\nb\n"
        wanted = text.replace("old", "\nnew\n")
        self.assertEqual(module.with_part(text, "files"), wanted)
        self.assertEqual(module.with_part(wanted, "files"), wanted)
        with self.assertRaises(SystemExit):
            module.with_part("a\n", "files")


if __name__ == "__main__":
    unittest.main()
