"""Tests of docs/rows: it finds rows whose test or case is not there, and calls that no row runs."""
import os
import subprocess
import sys
import tempfile
import unittest

TOP = os.path.join(os.path.dirname(os.path.abspath(__file__)), "..", "..")
ROOT = "mod doors;\n\npub use doors::{Door, Jammed, open};\n"
CODE = """/// Why a door stays shut.
pub enum Jammed {
    NoMemory,
    Rusty(u8),
}

impl Door {
    /// A door.
    pub fn new(alloc: Global) -> Result<Door, NoMemory>
        ensures { IfOk result IsShut }
    {
        Ok(Door {})
    }

    fn hinge(&self) -> Result<u8, NoMemory> {
        Ok(1)
    }
}

/// Opens it.
pub fn open(
    door: &Door,
) -> Result<(), Jammed> {
    Ok(())
}

/// How wide it is.
pub fn width(door: &Door) -> u64 {
    1
}
"""
TESTS = """#[test]
fn a_door(rt: HostRuntime) {
    let door = Door::new(rt.alloc());
}
"""
CASES = "# Doors.\n\ncase a door that opens\nend\n\ntable widths\nend\n"
ROWS = """# Rows

| row | test or case |
|---|---|
| A door is shut | `tests_doors::doors::a_door` |
| It opens | `command/doors: a door that opens`, `command/doors: widths` |
| It is stored | `crates/doors/src/lib.rt` |

## Calls that may answer out of memory

| crate | calls | test or case |
|---|---|---|
| `doors` | `Door::new` | `tests_doors::doors::a_door` |
| `doors` | `open` | `command/doors: a door that opens` |
"""

OPENS = "| `doors` | `open` | `command/doors: a door that opens` |\n"


class Rows(unittest.TestCase):
    def setUp(self) -> None:
        folder = tempfile.TemporaryDirectory(prefix="nesthv-rows-")
        self.addCleanup(folder.cleanup)
        self.top = folder.name
        self.put("crates/doors/src/lib.rt", ROOT)
        self.put("crates/doors/src/doors.rt", CODE)
        self.put("crates/tests_doors/src/doors.rt", TESTS)
        self.put("tools/tests/cases/command/doors.cases", CASES)
        self.put("docs/rows.md", ROWS)

    def put(self, path: str, text: str) -> None:
        path = os.path.join(self.top, path)
        os.makedirs(os.path.dirname(path), exist_ok=True)
        with open(path, "w", encoding="utf-8") as file:
            file.write(text)

    def found(self, status: int) -> str:
        made = subprocess.run([sys.executable, os.path.join(TOP, "docs", "rows"), "--top", self.top],
                              capture_output=True, text=True, check=False)
        self.assertEqual((made.returncode, made.stderr), (status, ""))
        return made.stdout

    def test_nothing(self) -> None:
        self.assertEqual(self.found(0), "")

    def test_a_test_that_is_gone(self) -> None:
        self.put("crates/tests_doors/src/doors.rt", TESTS.replace("#[test]\n", "// no test\n"))
        shown = "crates/tests_doors/src/doors.rt has no test a_door"
        self.assertEqual(self.found(1), f"docs/rows.md: A door is shut: {shown}\ndocs/rows.md: `doors`: {shown}\n")

    def test_a_file_of_tests_that_is_gone(self) -> None:
        self.put("docs/rows.md", ROWS.replace("`tests_doors::doors::a_door`", "`tests_doors::halls::a_door`", 1))
        self.assertEqual(self.found(1), "docs/rows.md: A door is shut: crates/tests_doors/src/halls.rt is not there\n")

    def test_a_case_that_is_gone(self) -> None:
        self.put("tools/tests/cases/command/doors.cases", CASES.replace("case a door that opens", "case a door"))
        shown = "tools/tests/cases/command/doors.cases has no case a door that opens"
        self.assertEqual(self.found(1), f"docs/rows.md: It opens: {shown}\ndocs/rows.md: `doors`: {shown}\n")

    def test_a_file_of_cases_that_is_gone(self) -> None:
        self.put("docs/rows.md", ROWS.replace("`command/doors: widths`", "`gdb/doors: widths`"))
        self.assertEqual(self.found(1), "docs/rows.md: It opens: tools/tests/cases/gdb/doors.cases is not there\n")

    def test_a_file_that_is_gone(self) -> None:
        self.put("docs/rows.md", ROWS.replace("| `crates/doors/src/lib.rt` |", "| `crates/doors/stdout` |"))
        self.assertEqual(self.found(1), "docs/rows.md: It is stored: crates/doors/stdout is not there\n")

    def test_a_row_that_names_nothing(self) -> None:
        self.put("docs/rows.md", ROWS.replace("| `crates/doors/src/lib.rt` |", "| by hand |"))
        self.assertEqual(self.found(1), "docs/rows.md: It is stored: names no test and no case\n")

    def test_a_call_without_a_row(self) -> None:
        self.put("docs/rows.md", ROWS.replace(OPENS, ""))
        self.assertEqual(self.found(1), "docs/rows.md: doors: open may answer out of memory, and the page does not name "
                         "it\n")

    def test_a_call_that_is_none(self) -> None:
        self.put("docs/rows.md", ROWS.replace("`open`", "`open`, `width`"))
        self.assertEqual(self.found(1), "docs/rows.md: doors: width is no public call that may answer out of memory\n")

    def test_a_call_that_its_tests_do_not_make(self) -> None:
        self.put("docs/rows.md", ROWS.replace("| `open` | `command/doors: a door that opens` |",
                                              "| `open` | `tests_doors::doors::a_door` |"))
        self.assertEqual(self.found(1), "docs/rows.md: doors: tests_doors::doors::a_door does not call open\n")

    def test_a_private_call_needs_no_row(self) -> None:
        self.put("crates/doors/src/lib.rt", ROOT.replace(", open", ""))
        self.put("docs/rows.md", ROWS.replace(OPENS, ""))
        self.assertEqual(self.found(0), "")

    def test_no_page(self) -> None:
        os.remove(os.path.join(self.top, "docs", "rows.md"))
        self.assertEqual(self.found(1), "docs/rows.md: there is no such file\n")

    def test_the_repository(self) -> None:
        self.top = TOP
        self.assertEqual(self.found(0), "")


if __name__ == "__main__":
    unittest.main()
