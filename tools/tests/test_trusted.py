"""Tests of tools/trusted on a small tree of crates: python3 -m unittest discover -s tools/tests"""
import importlib.machinery
import importlib.util
import os
import tempfile
import unittest

TOOLS = os.path.dirname(os.path.dirname(os.path.abspath(__file__)))

FILES = {
    "crates/top/src/run.rt": """ghost use Rattle.std.specs.Prelude.{List};
ghost use Rattle.low.specs.Sums.{IsSum, Other};

/// Adds.
pub fn run(words: &[u64]) -> u64
    // Other is named in this remark alone.
    ensures { IsSum words.now result }
{
    0
}
""",
    "crates/low/specs/Sums.antt": """-- Sums.
use Rattle.std.specs.Prelude.{List, ℕ}
use Rattle.deep.specs.Parts.{part as piece}
use Rattle.deep.specs.Names as names

-- the sum of a list
abbrev pub sum_of : List ℕ → ℕ
sum_of [] = 0
-- (a remark)
sum_of (x ∷ xs) = piece x + sum_of xs

pub record IsSum (xs : List ℕ) (n : ℕ) : Type 0 where
  pub is : n ≡ sum_of xs
  pub named : names.is_name n

abbrev pub Other : Type 0
Other = ⊥
""",
    "crates/deep/specs/Parts.antt": """abbrev pub part : ℕ → ℕ
part n = n

abbrev pub idle : ℕ → ℕ
idle n = n
""",
    "crates/deep/specs/Names.antt": """abbrev mutual
  pub is_name : ℕ → Bool
  is_name n = is_other n

  pub is_other : ℕ → Bool
  is_other n = true
""",
}


def load(top):
    loader = importlib.machinery.SourceFileLoader("trusted", f"{TOOLS}/trusted")
    module = importlib.util.module_from_spec(importlib.util.spec_from_loader("trusted", loader))
    loader.exec_module(module)
    module.TOP = top
    return module


class Trusted(unittest.TestCase):
    def test_follows_what_the_clauses_name(self):
        with tempfile.TemporaryDirectory() as top:
            for name, text in FILES.items():
                os.makedirs(os.path.dirname(f"{top}/{name}"), exist_ok=True)
                with open(f"{top}/{name}", "w", encoding="utf-8") as it:
                    it.write(text)
            trusted = load(top)
            walk = trusted.walk_of("crates/top/src/run.rt", "run")
            # IsSum with 3 lines and sum_of with 3, but not Other; part with 2, and the two names of 5 lines that are one
            self.assertEqual(trusted.sums_of(walk), {"low": (2, 6), "deep": (2, 7)})
            self.assertEqual(walk.missing, set())

    def test_finds_the_main_theorem(self):
        trusted = load(os.path.dirname(TOOLS))
        walk = trusted.walk_of()
        names = {name for path, number in walk.reached for name in walk.files[path].heads(number)}
        self.assertLessEqual({"IsRightRun", "SatisfiesWith", "Refutes", "trace_text"}, names)
        self.assertEqual(walk.missing, set())


if __name__ == "__main__":
    unittest.main()
