"""Tests of what hardware may do at any step: each guest of guests/explored has one fault, which its kind of
event finds."""
import json
import os
import subprocess
import unittest

from helper import PROGRAM, TOP, ToolTest
from nesthv_tools import explored_events, saves

EXPLORED = os.path.join(TOP, "tools", "tests", "guests", "explored")
SETTING = explored_events.Setting(1000, False)


class GuestsTest(ToolTest):
    """Each planted fault, by its kind alone. The places are those of the sources' instructions."""

    def explored(self, name, kind, *words, status=1):
        image = os.path.join(EXPLORED, f"{name}.bin")
        ran = self.tool("tools/explore", image, "--blocks", "1", "--try", kind, "--steps", "100000", *words)
        self.check_plain(ran, status)
        return ran.stdout.decode()

    def test_race(self):
        """A tick between load and store is lost: at the three instructions from behind the load to the
        store."""
        text = self.explored("race", "timer", "--from", "100", "--to", "125")
        self.assertRegex(text, r"(?m)^timer .*: exit 3 in place of 0 \(3 runs; the first at step 105\)$")
        self.assertRegex(text, r"the handler stores to 80001004, which the load at .* had read as 0")

    def test_lost_register(self):
        text = self.explored("register", "timer", "--from", "15", "--to", "30")
        self.assertIn(": exit 3 in place of 0 (", text)
        self.assertIn("the handler changes t2 from 7 to 1, and does not put it back", text)

    def test_conditional_that_gives_up(self):
        self.assertIn(": exit 3 in place of 0 (6 runs;", self.explored("conditional", "reservation"))

    def test_wait_without_loop(self):
        self.assertIn(": exit 3 in place of 0 (1 run;", self.explored("wait", "wake"))

    def test_handler_entered_again_at_its_end(self):
        text = self.explored("reentered", "timer", "--from", "45", "--to", "53")
        self.assertIn("it has not stopped after 4 times the steps", text)

    def test_late_sepc(self):
        self.put("x.inputs", (600).to_bytes(8, "little") + b"x")
        text = self.explored("latesepc", "input", "--input", "x.inputs")
        self.assertIn("it has not stopped after 4 times the steps", text)

    def test_lost_pending_interrupt(self):
        text = self.explored("lostpending", "timer", "--from", "15", "--to", "26")
        self.assertRegex(text, r"(?m)^timer in the guest's guest, .*: it has not stopped after 4 times the ")

    def test_time_read_twice(self):
        text = self.explored("twice", "late", "--from", "98", "--to", "110")
        self.assertIn("exit 3 in place of 0", text)

    def test_nothing_is_found(self):
        text = self.explored("race", "timer", "--from", "108", "--to", "112", status=0)
        self.assertTrue(text.startswith("# 0 found; trials: timer 4; "), text)


class FindingsTest(ToolTest):
    def explore(self, *words, name="conditional"):
        image = os.path.join(EXPLORED, f"{name}.bin")
        return self.tool("tools/explore", image, "--blocks", "1", "--steps", "100000", "--try", "reservation",
                         *words)

    def test_kept_findings(self):
        """What is kept is run by nesthv itself, and fails as it was said; it is found again."""
        ran = self.explore("--write", "kept")
        self.check_plain(ran, 1)
        self.assertIn(b"nesthv-look kept/reservation-11.toml last-trap", ran.stdout)
        ran = self.tool("tools/run", "--quiet", "--verdict", "kept/reservation-11.toml")
        self.assertEqual(ran.returncode, 3)
        self.assertIn(b"guest conditional stopped steps", ran.stdout)
        with open(os.path.join(self.folder, "kept", "reservation-11.json"), encoding="utf-8") as file:
            self.assertEqual(json.load(file)["failures"], ["exit 3 in place of 0"])
        again = self.explore("--again", "kept")
        self.check_plain(again, 1)
        self.assertIn(b"# 1 found; trials: reservation 6;", again.stdout)

    def test_folder_without_findings(self):
        self.check_said(self.explore("--again", "."), ". has no finding that `--write` has kept")
        self.put("x.json", b"[]")
        self.check_said(self.explore("--again", "."), "x.json is not a finding that `--write` has kept")

    def test_shards(self):
        """The parts make each trial once."""
        texts = [self.explore("--shard", f"{part}/2").stdout.decode() for part in (1, 2)]
        self.assertEqual(["reservation 3" in text for text in texts], [True, True])

    def test_forms(self):
        found = json.loads(self.explore("--json").stdout)
        self.assertEqual((found["found"][0]["kind"], found["found"][0]["runs"]), ("reservation", 6))
        text = self.explore("--tap", "--junit", "x.xml").stdout.decode()
        self.assertTrue(text.startswith("1..1\nnot ok 1 - reservation: FAIL 6 trials\n# reservation "), text)
        with open(os.path.join(self.folder, "x.xml"), encoding="utf-8") as file:
            self.assertIn('tests="1" failures="1"', file.read())

    def test_criteria(self):
        """The verdict isn't asked for where another criterion is given, and the console is."""
        self.check_plain(self.explore("--stops", "4"), 0)
        self.assertIn(b"the console does not hold 'well'", self.explore("--expect", "well").stdout)
        self.assertIn(b"in place of its end", self.explore("--console").stdout)

    def test_runs(self):
        """Places come first, then random steps, until there are as many trials as were asked for, or no step
        is left."""
        for most, count in (("3", 3), ("1000", 6)):
            ran = self.explore("--runs", most)
            self.assertIn(f"trials: reservation {count};".encode(), ran.stdout)

    def test_steps_out_of_the_run(self):
        ran = self.explore("--from", "50000")
        self.check_plain(ran, 2)
        self.check_said(ran, "step 50000 is not in the run, which goes from 0 to 49")

    def test_bad_words(self):
        for words, said in ((("--try", "timre"), "timre is not a kind: timer, input,"),
                            (("--shard", "3/2"), "3/2 is not I/N"),
                            (("--expect-regex", "("), "( is not a regular expression"),
                            (("--from", "3", "--to", "2"), "--to is 2, which is before --from, 3")):
            ran = self.explore(*words)
            self.assertEqual((ran.returncode, ran.stdout), (2, b""))
            self.assertIn(said, ran.stderr.decode())


class EventsTest(ToolTest):
    """What each event changes, and where it changes nothing, by the sections that docs/explore.md names."""

    def state(self, **numbers):
        self.configure()
        self.put("a.bin", (0x6F).to_bytes(4, "little"))  # jal zero, 0
        made = subprocess.run([PROGRAM, "save", "a.toml", "0"], cwd=self.folder, stdout=subprocess.PIPE,
                              check=True)
        return saves.Saved(made.stdout).changed(numbers)

    def change(self, kind, **numbers):
        return explored_events.KINDS[kind].change(self.state(**numbers), SETTING)

    def test_timer(self):
        on = {"sie": 0x20, "sstatus": 2 << 32 | 2}
        made = self.change("timer", timer=5000, **on)
        self.assertEqual(made.numbers["timer"], made.numbers["clock"])
        self.assertIsNone(saves.wrong(made.form()))
        moved = explored_events.fired(self.state(timer=5000, **on), SETTING._replace(reads_time=True))
        self.assertEqual((moved.numbers["timer"], moved.numbers["clock"]), (5000, 5000))
        for numbers in ({"timer": 5000, "sie": 0x20}, {"timer": 5000, "sstatus": 2 << 32 | 2},
                        {"timer": 1, **on}, {"timer": 2**64 - 1, **on}):
            self.assertIsNone(self.change("timer", **numbers), numbers)

    def test_timer_below_hs(self):
        """In U, VS and VU the interrupt is taken whatever SIE is."""
        self.assertIsNotNone(self.change("timer", timer=5000, sie=0x20, mode=1))

    def test_input(self):
        state = self.state(sie=0x200, sstatus=2 << 32 | 2)
        self.assertIsNone(explored_events.came(state, SETTING))
        state.inputs = [(5000, 65), (5000, 66)]
        made = explored_events.came(state, SETTING)
        self.assertEqual(made.inputs, [(state.numbers["clock"], 65), (5000, 66)])
        self.assertIsNone(saves.wrong(made.form()))

    def test_others(self):
        before = self.state()
        late = self.change("late")
        self.assertEqual(late.numbers["clock"] - before.numbers["clock"], 1000)
        self.assertIsNone(self.change("late", clock=2**62 + before.numbers["steps"]))
        woken = self.change("wake", status=1)
        self.assertEqual((woken.numbers["status"], woken.numbers["pc"]), (0, before.numbers["pc"] + 4))
        self.assertIsNone(self.change("wake", status=2))
        self.assertIsNone(self.change("reservation"))
        lost = self.change("reservation", **{"reservation width": 8, "reservation address": saves.RAM})
        self.assertEqual((lost.numbers["reservation width"], lost.numbers["reservation address"]), (0, 0))
        self.assertIsNone(self.change("translations"))


if __name__ == "__main__":
    unittest.main()
