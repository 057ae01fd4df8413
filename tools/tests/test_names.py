"""Tests of docs/names: it finds words that stand twice, lemmas that nothing names, and functions that nothing calls."""
import os
import subprocess
import sys
import tempfile
import unittest

TOP = os.path.join(os.path.dirname(os.path.abspath(__file__)), "..", "..")
CODE = """// Doors.
ghost use Rattle.doors.specs.Doors.{is_open};

/// Whether a door is open.
pub fn open(door: u8) -> bool
    ensures { result ≡ is_open door }
{
    door == 1
}
"""
CALLER = """fn walk(door: u8) -> bool {
    doors::open(door)
}
"""
LAW = """/// A door that is open is not shut.
#[tactic(auto)]
pub fn open_is_not_shut(door: u8)
    ensures { is_open door ≡ not (is_shut door) }
{
    let _ = door;
}
"""
WORDS = """-- Doors.
use Rattle.std.specs.Prelude.{ℕ, Bool}

abbrev pub is_open : ℕ → Bool
is_open door = door == 1
"""
LEMMAS = """use Rattle.doors.specs.Doors.{is_open}

-- a door of number 1 is open
pub first_open : is_open 1 ≡ true
first_open = refl

second_open : is_open 1 ≡ true
second_open = first_open
"""


class Names(unittest.TestCase):
    def setUp(self) -> None:
        folder = tempfile.TemporaryDirectory(prefix="nesthv-names-")
        self.addCleanup(folder.cleanup)
        self.top = folder.name
        self.put("doors/src/doors.rt", CODE)
        self.put("halls/src/halls.rt", CALLER)
        self.put("doors/specs/Doors.antt", WORDS)

    def put(self, path: str, text: str) -> None:
        path = os.path.join(self.top, "crates", path)
        os.makedirs(os.path.dirname(path), exist_ok=True)
        with open(path, "w", encoding="utf-8") as file:
            file.write(text)

    def found(self, status: int) -> str:
        made = subprocess.run([sys.executable, os.path.join(TOP, "docs", "names"), "--top", self.top],
                              capture_output=True, text=True, check=False)
        self.assertEqual((made.returncode, made.stderr), (status, ""))
        return made.stdout

    def test_nothing(self) -> None:
        self.assertEqual(self.found(0), "")

    def test_a_word_in_two_modules(self) -> None:
        self.put("halls/specs/Halls.antt", WORDS)
        self.assertEqual(self.found(1), "is_open is defined in doors/Doors, halls/Halls\n")

    def test_a_record_in_two_modules(self) -> None:
        record = "pub record Door (n : ℕ) : Type 0 where\n  pub shut : n ≡ 0\n"
        self.put("halls/specs/Halls.antt", record)
        self.put("doors/specs/Shapes.antt", record.replace("(n : ℕ) ", "(n : ℕ)\n    "))
        self.assertEqual(self.found(1), "Door is defined in doors/Shapes, halls/Halls\n")

    def test_a_word_of_another_module_is_not_one_of_its_own(self) -> None:
        self.put("halls/specs/Halls.antt", "use Rattle.doors.specs.Doors.{is_open}\n\n-- is_open : a comment\n")
        self.assertEqual(self.found(0), "")

    def test_a_lemma_that_nothing_names(self) -> None:
        self.put("doors/proofs/Doors.antt", LEMMAS)
        self.assertEqual(self.found(1), "doors/Doors: nothing names the lemma second_open\n")

    def test_a_lemma_that_names_itself_alone(self) -> None:
        self.put("doors/proofs/Doors.antt", "down : (n : ℕ) → n ≡ n\ndown zero = refl\ndown (suc n) = ap suc (down n)\n")
        self.assertEqual(self.found(1), "doors/Doors: nothing names the lemma down\n")

    def test_a_lemma_that_code_names(self) -> None:
        self.put("doors/proofs/Doors.antt", LEMMAS)
        self.put("doors/src/laws.rt", "#[tactic(auto, using(crate::proofs::Doors::second_open))]\nfn f() {}\n")
        self.assertEqual(self.found(0), "")

    def test_a_function_that_nothing_calls(self) -> None:
        self.put("halls/src/halls.rt", "// open is not called\nuse doors::open;\n\nfn walk() {\n}\n")
        self.assertEqual(self.found(1), "doors: nothing calls the public function open\n")

    def test_a_function_that_a_test_alone_calls(self) -> None:
        os.rename(os.path.join(self.top, "crates", "halls"), os.path.join(self.top, "crates", "tests_halls"))
        self.assertEqual(self.found(1), "doors: nothing calls the public function open\n")

    def test_a_function_that_a_clause_alone_names(self) -> None:
        self.put("halls/src/halls.rt", "fn walk(door: u8) -> bool\n    ensures { result ≡ open door }\n{\n    true\n}\n")
        self.assertEqual(self.found(1), "doors: nothing calls the public function open\n")

    def test_a_law_is_not_called(self) -> None:
        self.put("doors/src/laws.rt", LAW)
        self.assertEqual(self.found(0), "")

    def test_the_repository(self) -> None:
        self.top = TOP
        self.assertEqual(self.found(0), "")


if __name__ == "__main__":
    unittest.main()
