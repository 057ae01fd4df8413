"""Tests of tools/controls on a small repository, with an `rt` that goes by words of the code."""
import os
import shutil
import subprocess
import sys
import tempfile
import unittest

from helper import LIMIT, TOOLS

# It tells of each function, but not where the code says `wrong`, `unknown` or `endless`.
RT = """#!/bin/sh
echo "$*" >> "$CHECKS"
if grep -q wrong src/*.rt; then echo "error: a goal is open"; exit 1; fi
if grep -q unknown src/*.rt; then echo "error[E0425]: there is no such value"; exit 1; fi
if grep -q endless src/*.rt; then echo "antt ran out of the steps that the check of one declaration may take"; exit 3; fi
find src -name '*.rt' -exec cat {} + | awk '
/^ *fn / { name = $2; sub(/[(].*/, "", name) }
/ refuted / { print "note: src/lib.rt:1:1: it is not proved; the facts known there allow values at which this goal is false" }
/ unproved / { print "note: src/lib.rt:1:1: it is not proved: `search` gave up" }
/ refuted | unproved / { print "fn one::" name ": no proof: expected answers in ./proofs/Answers.antt"; failed = 1; next }
/ uncovered / { print "fn one::" name ": no proof: the borrow checker does not cover this function yet"; failed = 1; next }
/ resting / { resting = name; next }
/^ *fn / { print "fn one::" name ": proved" }
END {
  if (resting && failed) { print "fn one::" resting ": no proof: it calls `one::sum`, which is not proved" }
  else if (resting) { print "fn one::" resting ": proved" }
  exit failed
}'
"""
SOURCE = "fn sum() { a + b }\nfn less() { a < b }\nfn both() { a && b }\n"
METHODS = """const MOST: u64 = 7;

impl<T: Drop> Store for Files<T> {
    fn read(&self) {
        if a { self.b } else { 0 }
    }
}

impl Files<u8> {
    pub(crate) fn count(&self) {
        self.counted
    }
}

impl<T: Drop> From<faults::Failed<T>> for Files<T> {
    fn from() {
        failed
    }
}

pub fn add() {
    a - b
}
"""
OLD = {"half": "a + b", "equal": "a < b", "either": "a && b"}
NEW = {"half": "b + a", "equal": "b > a", "either": "b && a"}


def edit(name, new):
    return f"file: src/lib.rt\nold: {OLD[name]}\nnew: {new}\n"


class ControlsTest(unittest.TestCase):
    """What tools/controls says of a crate with one edit, and with three."""

    def setUp(self):
        folder = tempfile.TemporaryDirectory()
        self.addCleanup(folder.cleanup)
        self.folder = os.path.realpath(folder.name)
        self.put("crates.txt", "one\n")
        self.put("HANDLES", "Handles allowed: none.\n")
        self.put("crates/one/src/lib.rt", SOURCE)
        self.put_edit("half")
        self.put("bin/rt", RT)
        os.chmod(os.path.join(self.folder, "bin", "rt"), 0o755)
        tools = os.path.join(self.folder, "tools")
        shutil.copytree(os.path.join(TOOLS, "nesthv_tools"), os.path.join(tools, "nesthv_tools"),
                        ignore=shutil.ignore_patterns("__pycache__"))
        shutil.copy(os.path.join(TOOLS, "controls"), tools)
        os.makedirs(os.path.join(self.folder, "examples"))

    def put(self, name, text):
        path = os.path.join(self.folder, name)
        os.makedirs(os.path.dirname(path), exist_ok=True)
        with open(path, "w", encoding="utf-8") as file:
            file.write(text)
        return path

    def put_edit(self, name, new="a", folder="must-fail"):
        return self.put(f"crates/one/{folder}/{name}.edit", edit(name, new))

    def put_control(self, name, new=None):
        return self.put(f"crates/one/controls/{name}.control", edit(name, new or NEW[name]))

    def check_said(self, status, out, error, *words):
        """Runs the tool, and gives the words of the checks that it made."""
        checks = self.put("checks", "")
        variables = {**os.environ, "CHECKS": checks,
                     "PATH": os.path.join(self.folder, "bin") + ":" + os.environ["PATH"]}
        tool = os.path.join(self.folder, "tools", "controls")
        ran = subprocess.run([sys.executable, tool, *words], text=True, stdin=subprocess.DEVNULL,
                             capture_output=True, timeout=LIMIT, env=variables)
        self.assertEqual((ran.returncode, ran.stdout), (status, out))
        self.assertEqual(ran.stderr, error if not error else "tools/controls: " + error + "\n")
        with open(checks, encoding="utf-8") as file:
            return file.read().splitlines()

    def test_proved(self):
        self.put_control("half")
        self.check_said(0, "one/half: proved\n", "")
        self.check_said(0, "one/half: proved\n", "", "one", "--jobs", "2")

    def test_refused(self):
        self.put_control("half", "wrong")
        self.check_said(1, "one/half: refused: error: a goal is open\n", "")

    def test_no_control(self):
        self.check_said(1, "one/half: no control\n", "", "one")

    def test_one_check_for_all(self):
        for name in OLD:
            self.put_edit(name)
            self.put_control(name)
        checks = self.check_said(0, "one/either: proved\none/equal: proved\none/half: proved\n", "")
        self.assertEqual(checks, ["check --jobs 1 --only both --only less --only sum"])

    def test_halves_of_a_round(self):
        for name in OLD:
            self.put_edit(name)
            self.put_control(name, "wrong" if name == "equal" else None)
        said = "one/either: proved\none/equal: refused: error: a goal is open\none/half: proved\n"
        self.check_said(1, said, "")

    def test_two_controls_of_a_line(self):
        self.put_control("half")
        self.put("crates/one/must-fail/nothing.edit", edit("half", "0"))
        self.put("crates/one/controls/nothing.control", edit("half", "a + b + 0"))
        self.assertEqual(len(self.check_said(0, "one/half: proved\none/nothing: proved\n", "")), 2)

    def test_control_that_writes_what_another_replaces(self):
        for name in "half", "equal":
            self.put_edit(name)
            self.put_control(name)
        self.put_control("half", "if a < b { b + a } else { b + a }")
        self.assertEqual(len(self.check_said(0, "one/equal: proved\none/half: proved\n", "")), 1)

    def test_functions_that_are_proved(self):
        self.put("crates/one/src/a/files.rt", METHODS)
        os.remove(self.put_edit("half"))
        for old, path in [("MOST: u64 = 7", "a::files"), ("{ self.b }", "FilesStore::read"),
                          ("self.counted", "Files::count"), ("        failed", "FilesFromFailed::from"),
                          ("a - b", "a::files::add")]:
            for kind, new in ("must-fail/x.edit", "0"), ("controls/x.control", "1"):
                self.put(f"crates/one/{kind}", f"file: src/a/files.rt\nold: {old}\nnew: {new}\n")
            self.assertEqual(self.check_said(0, "one/x: proved\n", ""), [f"check --jobs 1 --only {path}"])

    def test_crate_that_is_not_proved(self):
        self.put("crates/one/src/lib.rt", "wrong, a + b\n")
        self.put_control("half")
        self.check_said(2, "", "one: the crate itself is not proved: error: a goal is open")

    def test_files_that_are_wrong(self):
        right = edit("half", NEW["half"])
        path = self.put_control("half")
        for text, why in [
            (edit("half", "a"), f"{path}: it is the wrong body itself"),
            (right.replace("a + b", "a"), f"{path}: its `file:` and its `old:` are not those of half.edit"),
            ("new: b\n", f"{path}: it has not one line `file:` and pairs of lines `old:` and `new:`"),
            (right + "more\n", f"{path}:4: the line begins with none of `file:`, `old:`, `new:`"),
        ]:
            self.put("crates/one/controls/half.control", text)
            self.check_said(2, "", why)
        self.put_control("half")
        self.put("crates/one/src/lib.rt", "a - b\n")
        self.check_said(2, "", "src/lib.rt: 0 places are `a + b`")

    def test_control_of_no_edit(self):
        path = self.put("crates/one/controls/third.control", edit("half", NEW["half"]))
        self.check_said(2, "", f"{path}: there is no third.edit")

    def put_edits(self, **bodies):
        """Edits with their controls, half in must-fail and the others outside the gate."""
        for name, new in bodies.items():
            self.put_edit(name, new, "must-fail" if name == "half" else "controls")
            self.put_control(name)

    def test_edits_that_are_refused(self):
        self.put_edits(half="{ refuted }", equal="{ unproved }")
        checks = self.check_said(0, """\
one/equal: refused (open goal), control proved
one/half: refused (values), control proved
2 edits: 2 refused (1 by values, 1 by an open goal, 0 by a limit), 0 PROVED, 0 bad; \
controls: 2 proved, 0 refused, 0 none
""", "", "--edits")
        self.assertEqual(checks, ["check --jobs 1 --only less --only sum"] * 2)

    def test_edit_that_is_proved(self):
        self.put_edits(half="{ refuted }", equal="{ a }")
        checks = self.check_said(1, """\
one/equal: PROVED, control proved
one/half: refused (values), control proved
2 edits: 1 refused (1 by values, 0 by an open goal, 0 by a limit), 1 PROVED, 0 bad; \
controls: 2 proved, 0 refused, 0 none
""", "", "--edits", "one")
        self.assertEqual(len(checks), 2)

    def test_edit_of_a_function_that_calls_a_refused_one(self):
        self.put_edits(half="{ refuted }", equal="{ resting }", either="{ resting }")
        checks = self.check_said(1, """\
one/either: PROVED, control proved
one/equal: PROVED, control proved
one/half: refused (values), control proved
3 edits: 1 refused (1 by values, 0 by an open goal, 0 by a limit), 2 PROVED, 0 bad; \
controls: 3 proved, 0 refused, 0 none
""", "", "--edits")
        self.assertEqual(checks[1], "check --jobs 1 --only both --only less")

    def test_edits_without_a_verdict(self):
        self.put_edits(half="{ refuted }", equal="{ endless }", either="{ unknown }")
        checks = self.check_said(1, """\
one/either: bad (error[E0425]: there is no such value), control proved
one/equal: refused (limit), control proved
one/half: refused (values), control proved
3 edits: 2 refused (1 by values, 0 by an open goal, 1 by a limit), 0 PROVED, 1 bad; \
controls: 3 proved, 0 refused, 0 none
""", "", "--edits")
        self.assertEqual(checks[:5], [f"check --jobs 1 --only {functions}" for functions in (
            "both --only less --only sum", "both", "less --only sum", "less", "sum")])

    def test_edit_that_gets_no_goals(self):
        self.put_edits(half="{ uncovered }", equal="{ refuted }")
        checks = self.check_said(1, """\
one/equal: refused (values), control proved
one/half: bad (no proof: the borrow checker does not cover this function yet), control proved
2 edits: 1 refused (1 by values, 0 by an open goal, 0 by a limit), 0 PROVED, 1 bad; \
controls: 2 proved, 0 refused, 0 none
""", "", "--edits")
        self.assertEqual(len(checks), 2)

    def test_edits_of_one_function(self):
        self.put_edits(half="{ refuted }")
        self.put("crates/one/controls/zero.edit", edit("half", "{ unproved }"))
        checks = self.check_said(1, """\
one/half: refused (values), control proved
one/zero: refused (open goal), no control
2 edits: 2 refused (1 by values, 1 by an open goal, 0 by a limit), 0 PROVED, 0 bad; \
controls: 1 proved, 0 refused, 1 none
""", "", "--edits")
        self.assertEqual(checks, ["check --jobs 1 --only sum"] * 3)

    def test_edit_outside_functions_is_tried_alone(self):
        self.put("crates/one/src/lib.rt", "const A: u64 = 1;\n" + SOURCE)
        self.put_edits(half="{ refuted }")
        for folder, kind, new in ("must-fail", "edit", 2), ("controls", "control", "0 + 1"):
            self.put(f"crates/one/{folder}/const.{kind}", f"file: src/lib.rt\nold: u64 = 1\nnew: u64 = {new}\n")
        checks = self.check_said(1, """\
one/const: PROVED, control proved
one/half: refused (values), control proved
2 edits: 1 refused (1 by values, 0 by an open goal, 0 by a limit), 1 PROVED, 0 bad; \
controls: 2 proved, 0 refused, 0 none
""", "", "--edits")
        self.assertEqual(checks, ["check --jobs 1 --only sum", "check --jobs 1"] * 2)

    def test_control_of_an_edit_that_is_refused_too(self):
        self.put_edits(half="{ refuted }", equal="{ refuted }")
        self.put_control("half", "{ unproved }")
        self.check_said(1, """\
one/equal: refused (values), control proved
one/half: refused (values), control refused: note: src/lib.rt:1:1: it is not proved: `search` gave up
2 edits: 2 refused (2 by values, 0 by an open goal, 0 by a limit), 0 PROVED, 0 bad; \
controls: 1 proved, 1 refused, 0 none
""", "", "--edits")

    def test_edit_in_both_folders(self):
        self.put_edit("half", "0", "controls")
        self.check_said(2, "", "crates/one/controls/half.edit: it is in must-fail too", "--edits")

    def test_file_of_an_edit_that_there_is_not(self):
        self.put("crates/one/must-fail/half.edit", edit("half", "a").replace("lib", "none"))
        path = os.path.join(self.folder, "crates", "one", "src", "none.rt")
        self.check_said(2, "", f"{path}: No such file or directory", "--edits")

    def test_crate_that_there_is_not(self):
        self.check_said(2, "", "two is not a crate", "two")


if __name__ == "__main__":
    unittest.main()
