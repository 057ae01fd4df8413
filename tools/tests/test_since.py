"""Tests of since when a timer or an interrupt's bit is what it is, by a run that is made by hand."""
import bisect
import contextlib
import io
from unittest import mock

from helper import ToolTest
from nesthv_tools import event_logs, logged_timer, registers_at

NEVER = 2**64 - 1
STIE = 1 << 5


class Runs:
    """A run in which the steps of `timers` are calls that set the timer, each to a moment, and those of `writes` write
    sie, each a value."""

    def __init__(self, timers=None, writes=None, tracer="nesthv-trace", first=0):
        self.timers, self.writes, self.tracer, self.first = timers or {}, writes or {}, tracer, first
        self.guest, self.asked, self.read = mock.Mock(blocks=1), [], []
        self.start = self.at(first)

    def at(self, step):
        self.asked.append(step)
        numbers = {"timer": self.last(self.timers, step, NEVER), "sie": self.last(self.writes, step, 0)}
        return mock.Mock(numbers=numbers)

    def last(self, values, step, other):
        """What the last of the steps before this one has set."""
        index = bisect.bisect_left(sorted(values), step)
        return values[sorted(values)[index - 1]] if index else other

    def log(self, lines, low, high):
        self.read.append((low, high))
        text = "".join(line for step, line in sorted(lines) if low <= step < high)
        return event_logs.Log(io.BytesIO(text.encode()), "the log")

    def logged(self, kinds, low, high):
        assert kinds == ["calls"]
        lines = [(step, f"call {step} HS {step:016x} number 0 a0 {moment:x} answer 0\n")
                 for step, moment in self.timers.items()]
        lines += [(step, f"call {step} HS {step:016x} number 1 a0 41 answer 0\nput {step} HS {step:016x} 41\n")
                  for step in range(7, 1000, 100)]
        return self.log(lines, low, high)

    def steps_of_form(self, form, low, high):
        lines = [(step, f"step {step} HS {step:016x} 1047a073\n") for step in self.writes]
        lines += [(step, f"step {step} HS {step:016x} 00000013\nstep {step + 1} HS {step:016x} 1057a073 stvec 104\n")
                  for step in range(8, 1000, 100)]
        return (int(each[1]) for each in self.log(lines, low, high).found(form))


class TimerTest(ToolTest):
    def test_last_call(self):
        for timers, since in (({500: 9000, 600: 9500}, 601), ({500: 9500, 600: 9500}, 501), ({500: 9000}, 501),
                              ({10: 5, 500: 9500, 600: 9500, 700: 9500}, 501)):
            timer = list(timers.values())[-1]
            self.assertEqual(logged_timer.changed_to(Runs(timers), timer, 900), since)

    def test_no_call(self):
        self.assertIsNone(logged_timer.changed_to(Runs(), NEVER, 900))
        self.assertIsNone(logged_timer.changed_to(Runs({600: NEVER}), NEVER, 900))

    def test_long_run(self):
        """The log is read from the end on, in parts that grow, and no more of it than is needed."""
        runs = Runs({5: 1, 10**6: 77, 10**6 + 9: 77})
        self.assertEqual(logged_timer.changed_to(runs, 77, 2 * 10**7), 10**6 + 1)
        places = [2 * 10**7, *(low for low, _ in runs.read)]
        self.assertEqual(runs.read, list(zip(places[1:], places)))
        runs = Runs({5: 1, 19999000: 76, 19999999: 77})
        self.assertEqual(logged_timer.changed_to(runs, 77, 2 * 10**7), 2 * 10**7)
        self.assertEqual(runs.read, [(2 * 10**7 - logged_timer.WINDOW, 2 * 10**7)])


class BitTest(ToolTest):
    def last_change(self, runs, step):
        @contextlib.contextmanager
        def shown(runs, start, end, names):
            yield lambda steps: list(map(runs.at, steps))
        with mock.patch.object(registers_at, "shown", shown):
            return registers_at.last_change(runs, lambda state: bool(state.numbers["sie"] & STIE), step, mock.Mock())

    def test_by_the_log(self):
        """A change and back within a few steps is seen, and a write that changes nothing is not one."""
        for writes, since in (({50: STIE, 400: 0, 402: STIE | 2}, 403), ({50: STIE, 400: STIE | 2}, 51),
                              ({50: STIE, 51: 0, 53: STIE, 54: STIE}, 54)):
            self.assertEqual(self.last_change(Runs(writes=writes), 900), since)

    def test_from_the_start_on(self):
        runs = Runs(writes={5: STIE}, first=100)
        self.assertIsNone(self.last_change(runs, 900))
        self.assertIsNone(self.last_change(Runs(writes={-5: STIE}), 10**8))

    def test_before_the_log(self):
        for tracer in ("nesthv-trace", None):
            for since in (3, 10**6, 9 * 10**6, 99 * 10**6 + 12345):
                runs = Runs(writes={since - 1: STIE, 10**9: 0}, tracer=tracer)
                self.assertEqual(self.last_change(runs, 10**8), since)
                self.assertEqual(sum(high - low for low, high in runs.read), (1 << 20) * bool(tracer))
                self.assertLess(len(runs.asked), 60)


class LogTest(ToolTest):
    def test_form_across_reads(self):
        """A line that is read in two parts is found once."""
        lines = [f"step {number} HS {number:016x} 1047a073 read 80000000 8 0\n" for number in range(1000)]
        with mock.patch.object(event_logs, "AT_ONCE", 77):
            log = event_logs.Log(io.BytesIO("".join(lines).encode()), "the log")
            self.assertEqual([int(each[1]) for each in log.found(registers_at.WRITES)], list(range(1000)))
