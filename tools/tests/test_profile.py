"""Tests of tools/profile, by logs that are made by hand, and by a script that stands for nesthv-trace. What is made is
judged by the programs that read it, where they are installed."""
import io
import json
import os
import re
import shutil
import subprocess
import sys
import tempfile
import traceback
import unittest
from unittest import mock
from xml.dom import minidom

from elf_files import RAM, elf
from helper import LETTER, PROGRAM, TOOLS, TOP, ToolTest
from nesthv_tools import (
    code_places, elf_images, event_logs, programs, start, symbols, timeline_drawing, tracers)
from nesthv_tools.commands import profile

FIRST, SECOND = "8000100000080004", "8000200000080008"  # hgatp of two guests
# A line of each kind and form, as the definitions have them.
FORMS = f"""fill 3 VS 0000000000000008 second hgatp {FIRST} atp - page 1000 frame 8000b000 rights rw-u level 0
fill 3 HS 0000000080000008 first hgatp - atp 8000000000080007 page 0 frame 0 rights r-xu level 2
stale 4 VS 0000000000000018 second hgatp {FIRST} atp - page 1000 frame 8000b000 rights rw-u level 0 now frame 80010000 \
rights rw-u level 0 since 3
stale 4 VU 0000000000000018 first hgatp {FIRST} atp 0 page 0 frame 0 rights r--- level 0 now nothing since before
step 24 HS 00000000800000a0 02ce3e03 t3 200028d7 read 800000c8 8 200028d7
step 30 HS 00000000800000b8 00733023 write 80009008 8 20002cd7
step 31 HS 00000000800000b8 -
call 40 HS 0000000080000064 number 1 a0 4d answer 0
call 40 HS 0000000080000064 number 8 a0 0 answer -
put 40 HS 0000000080000064 4d
got 41 HS 0000000080000068 0
wait 855 VS 0000000000000048 until 1264
wait 855 HS 0000000000000048 until never
fence 931 HS 00000000800000bc hfence.gvma vmid 1 page all first 0 second 3
fence 931 VS 00000000000000bc sfence.vma asid all page ffffffffffffff000 first 0 second 3
trap 932 VS 0000000000000008 to HS exception 23 tval 1008 gpa 1008 gva 1 htinst 0
trap 932 VU 0000000000010040 to VS exception 8 tval 0
trap 932 HS 0000000000010040 to HS interrupt 5 tval 0 gpa - gva 0 htinst 0
enter 933 VS 0000000000000000 hgatp {FIRST} vsatp 0
leave 934 VS 0000000000000008 hgatp {FIRST} vsatp 0 exception 23
count U 0000000080000018 hgatp - times 12
count VS 0000000000000018 hgatp 0 times 12
count VS 0000000000000018 hgatp {FIRST} times 1
"""
# Two guests in turn; the first one's kernel goes to VU and back.
RUN = f"""step 0 HS 0000000080000000 00000013
step 1 HS 0000000080000004 00000013
got 1 HS 0000000080000004 61
step 2 HS 0000000080000008 10200073
enter 2 VS 0000000000000000 hgatp {FIRST} vsatp 0
step 3 VS 0000000000000000 10200073
step 4 VU 0000000000001000 00000073
trap 4 VU 0000000000001000 to VS exception 8 tval 0
step 5 VS 0000000000000100 00000073
trap 5 VS 0000000000000100 to HS exception 10 tval 0 gpa - gva 0 htinst 0
leave 5 VS 0000000000000100 hgatp {FIRST} vsatp 0 exception 10
step 6 HS 0000000080000100 12000073
fence 6 HS 0000000080000100 hfence.gvma vmid 1 page all first 0 second 3
step 7 HS 0000000080000104 10200073
enter 7 VS 0000000000000000 hgatp {SECOND} vsatp 0
step 8 VS 0000000000000000 -
trap 8 VS 0000000000000000 to HS interrupt 5 tval 0 gpa - gva 0 htinst 0
leave 8 VS 0000000000000000 hgatp {SECOND} vsatp 0 interrupt 5
step 9 HS 0000000080000100 10200073
enter 9 VS 0000000000000104 hgatp {FIRST} vsatp 0
stale 10 VS 0000000000000104 second hgatp {FIRST} atp - page 1000 frame 8000b000 rights rw-u level 0 now nothing since 3
step 10 VS 0000000000000104 00000073
trap 10 VS 0000000000000104 to HS exception 10 tval 0 gpa - gva 0 htinst 0
leave 10 VS 0000000000000104 hgatp {FIRST} vsatp 0 exception 10
step 11 U 0000000000002000 00000013
"""
EXITS = """exits of hgatp 8000100000080004 (Sv39x4, VMID 1, root 80004000)
cause               exits      %  steps      %  mean  largest  at step
ECALL from VS (10)      2  100.0      4  100.0   4.0        4        5
all                     2  100.0      4  100.0   4.0        4        5
left when the log ends: ECALL from VS (10) at step 10

exits of hgatp 8000200000080008 (Sv39x4, VMID 2, root 80008000)
cause                           exits      %  steps  %  mean  largest  at step
supervisor timer interrupt (5)      1  100.0      0  -     -        -        -
all                                 1  100.0      0  -     -        -        -
left when the log ends: supervisor timer interrupt (5) at step 8
"""
OWN = "    .globl _start\n_start:\n    li a0, 1\n    j loop\nloop:\n    addi a0, a0, 1\n    j loop\nunused:\n    nop\n"
NESTED = "    .globl kernel\nkernel:\n    nop\n    nop\nidle:\n    wfi\n    j idle\n    .rept 16\n    nop\n    .endr\n"
INLINED = """static inline int square(int x) { return x * x + 1; }
__attribute__((noinline)) int sum(int n)
{
    int all = 0;
    for (int i = 0; i < n; i++)
        all += square(i);
    return all;
}
int main(void) { volatile int n = 3; n = sum(n); for (;;) ; }
"""
COUNTED = """static int square(int x) { return x * x + 1; }
static int collatz(int n)
{
    int steps = 0;
    while (n != 1) {
        if (n & 1)
            n = 3 * n + 1;
        else
            n /= 2;
        steps++;
    }
    return steps;
}
static int never(int x)
{
    return x + 2;
}
int main(void)
{
    volatile int all = 0;
    for (int i = 1; i < 10; i++)
        all += square(i);
    for (int i = 1; i < 30; i++) {
        if (i > 100)
            all = never(all);
        all += collatz(i);
    }
    return 0;
}
"""
COUNTS = f"""count HS 0000000080000000 hgatp - times 1
count HS 0000000080000004 hgatp - times 1
count HS 0000000080000008 hgatp - times 7
count HS 000000008000000c hgatp - times 6
count VS 0000000080000000 hgatp {FIRST} times 2
count VS 0000000080000004 hgatp {FIRST} times 2
count VS 0000000080000008 hgatp {FIRST} times 30
count VS 0000000080000000 hgatp {SECOND} times 3
count VU 0000000000001000 hgatp {SECOND} times 40
"""
GCC = shutil.which("riscv64-linux-gnu-gcc")
TRACER = programs.companion(tracers.NAME)


def needs(*programs):
    """Leaves a test out where one of these programs is not installed."""
    lost = [name for name in programs if not shutil.which(name)]
    return unittest.skipIf(lost, f"{', '.join(lost)} not installed")


def build(folder, name, *sources):
    """Builds an ELF file with lines from these sources of a folder."""
    words = [GCC, "-g", "-O2", "-march=rv64ima_zicsr_zifencei", "-mabi=lp64", "-mcmodel=medany", "-static", "-nostdlib",
             f"-Wl,-Ttext={RAM:#x},--build-id=none,-e,{RAM:#x}", "-o", name, *sources]
    subprocess.run(words, cwd=folder, check=True, stdin=subprocess.DEVNULL)


def lines_of(text, name="x.log"):
    return list(event_logs.Log(io.BytesIO(text.encode()), name))


class LogTest(unittest.TestCase):
    def test_each_form(self):
        lines = lines_of(FORMS)
        self.assertEqual(len(lines), FORMS.count("\n") - 1)  # of three steps the first and the last
        self.assertEqual({line.kind for line in lines}, set(event_logs.LINES))
        self.assertEqual([line.hgatp() for line in lines if line.kind == "count"], [None, 0, int(FIRST, 16)])
        self.assertEqual([line.cause() for line in lines if line.kind == "trap"], [23, 8, 1 << 63 | 5])

    def test_steps_of_one_mode(self):
        text = "".join(f"step {step} {'VS' if step == 50000 else 'HS'} {step:016x} 00000013\n" for step in range(99999))
        found = [(line.step, line.mode) for line in lines_of(text)]
        self.assertEqual([step for step, mode in found if mode == "VS"], [50000])
        self.assertEqual((found[0], found[-1]), ((0, "HS"), (99998, "HS")))
        self.assertTrue({(49999, "HS"), (50001, "HS")} < set(found))
        self.assertLess(len(found), 50)

    def test_what_is_no_log(self):
        step = "step 5 HS 0000000080000000 00000013\n"
        for text, said in (("x\n", "line 1 of x.log is not one that nesthv-trace writes: x"),
                           (step + "step 6 HS\n", "line 2 of x.log is not one that nesthv-trace writes: step 6 HS"),
                           (step + step[:-1], "x.log ends within line 2"),
                           (step + step.replace("5", "4"),
                            "line 2 of x.log has step 4, and a line before it has step 5"),
                           (COUNTS + step, "line 10 of x.log stands after the counts, which end a log"),
                           (COUNTS + COUNTS,
                            "line 10 of x.log counts a place that is not after that of the line before"),
                           ("x" * 2000000, f"line 1 of x.log is not one that nesthv-trace writes: {'x' * 60}..."),
                           ("\x1b\n", r"line 1 of x.log is not one that nesthv-trace writes: \x1b")):
            with self.assertRaises(event_logs.Wrong) as raised:
                lines_of(text)
            self.assertEqual(str(raised.exception), said)


class ProfileTest(ToolTest):
    def setUp(self):
        super().setUp()
        self.put("run.log", RUN)

    def profile(self, *words, variables=None):
        """Runs the tool in the folder, in a process that has its modules already."""
        with tempfile.TemporaryFile() as output, tempfile.TemporaryFile() as errors:
            process = os.fork()
            if not process:
                self.run_tool(words, (output, errors), variables or {})
            _, status = os.waitpid(process, 0)
            found = []
            for file in (output, errors):
                file.seek(0)
                found.append(file.read())
        ran = subprocess.CompletedProcess(words, os.waitstatus_to_exitcode(status), *found)
        ran.lines = ran.stderr.decode().splitlines()
        return ran

    def run_tool(self, words, files, variables):
        """In a new process: runs the tool, and ends."""
        status = 1
        try:
            os.chdir(self.folder)
            os.environ.update(NESTHV=PROGRAM, **variables)
            for number, file in enumerate([os.open(os.devnull, os.O_RDONLY), *(file.fileno() for file in files)]):
                os.dup2(file, number)
            sys.stdin, sys.stdout, sys.stderr = (open(number, mode) for number, mode in enumerate("rww"))
            sys.argv = [os.path.join(TOOLS, "profile"), *words]
            start.run(profile.main)
        except SystemExit as ended:
            status = ended.code
        except BaseException:
            traceback.print_exc()
            sys.stderr.flush()
        finally:
            os._exit(status)

    def texts(self, name):
        """A picture, and its texts, of which the first is its title."""
        drawn = minidom.parseString(self.made(name))
        self.assertEqual(drawn.getElementsByTagName("title")[0].firstChild.data,
                         drawn.getElementsByTagName("text")[0].firstChild.data)
        return drawn, [text.firstChild.data for text in drawn.getElementsByTagName("text")]

    def made(self, name):
        with open(os.path.join(self.folder, name), encoding="utf-8") as file:
            return file.read()

    def lines_in(self, name, source):
        """The lines of a source that a file of lcov has, each with how often it was executed."""
        record = re.search(rf"{source}\n(.*?)end_of_record", self.made(name), re.S)[1]
        return {int(line): int(times) for line, times in re.findall(r"^DA:(\d+),(\d+)", record, re.M)}

    def check_nothing_made(self):
        self.assertEqual([name for name in os.listdir(self.folder) if name.startswith(("out", ".nesthv"))], [])


class RunTest(ProfileTest):
    def test_exits(self):
        ran = self.profile("--log", "run.log", "--exits")
        self.check_plain(ran, 0)
        self.assertEqual(ran.stdout.decode(), EXITS)
        ran = self.profile("--log", "-", "--exits")
        self.assertEqual(ran.stdout, b"there is no exit in these steps\n")
        with open(os.path.join(self.folder, "run.log"), "rb") as file:
            ran = self.tool("tools/profile", "--log", "-", "--exits", stdin=file)
        self.assertEqual(ran.stdout.decode(), EXITS)

    def events(self, *words):
        self.check_plain(self.profile("--log", "run.log", "--timeline", "out.json", *words), 0)
        return json.loads(self.made("out.json"))["traceEvents"]

    def check_nested(self, events):
        """Checks that each end has its begin, on each track, and gives the slices: track, depth, name, begin and
        end."""
        slices, opened = [], {}
        for event in events:
            stack = opened.setdefault(event["tid"], [])
            if event["ph"] == "B":
                self.assertTrue(not stack or stack[-1]["ts"] <= event["ts"])
                stack.append(event)
            elif event["ph"] == "E":
                begun = stack.pop()
                self.assertLess(begun["ts"], event["ts"])
                slices.append((event["tid"], len(stack), begun["name"], begun["ts"], event["ts"]))
        self.assertEqual([stack for stack in opened.values() if stack], [])
        return sorted(slices)

    def test_timeline(self):
        events = self.events()
        self.assertEqual([event["args"]["name"] for event in events if event["ph"] == "M"],
                         ["run.log", "HS", f"hgatp {FIRST} (Sv39x4, VMID 1, root 80004000)",
                          f"hgatp {SECOND} (Sv39x4, VMID 2, root 80008000)"])
        self.assertEqual(self.check_nested(events), [
            (1, 0, "ECALL from VS", 6, 8), (1, 0, "ECALL from VS", 11, 12), (1, 0, "V = 0", 0, 3),
            (1, 0, "supervisor timer interrupt", 9, 10), (1, 1, "HS", 0, 3), (1, 1, "HS", 6, 8), (1, 1, "HS", 9, 10),
            (1, 1, "U", 11, 12), (2, 0, "V = 1", 3, 6), (2, 0, "V = 1", 10, 11), (2, 1, "VS", 3, 4),
            (2, 1, "VS", 5, 6), (2, 1, "VS", 10, 11), (2, 1, "VU", 4, 5), (3, 0, "V = 1", 8, 9), (3, 1, "VS", 8, 9)])
        marks = [(event["cat"], event["tid"], event["ts"], event["name"]) for event in events if event["ph"] == "i"]
        self.assertEqual(marks, [
            ("inputs", 1, 1.5, "input 61"), ("traps", 2, 4.5, "trap into VS: ECALL from U or VU"),
            ("traps", 2, 5.5, "trap into HS: ECALL from VS"), ("fences", 1, 6.5, "hfence.gvma vmid 1 page all"),
            ("traps", 3, 8.5, "trap into HS: supervisor timer interrupt"),
            ("stale uses", 2, 10.5, "stale use of second 1000"), ("traps", 2, 10.5, "trap into HS: ECALL from VS")])

    def test_timeline_without_modes(self):
        self.put("run.log", "".join(f"{line}\n" for line in RUN.splitlines() if not line.startswith("step")))
        self.assertEqual(self.check_nested(self.events()), [
            (1, 0, "ECALL from VS", 6, 8), (1, 0, "V = 0", 1, 3), (1, 0, "supervisor timer interrupt", 9, 10),
            (2, 0, "V = 1", 3, 6), (2, 0, "V = 1", 10, 11), (3, 0, "V = 1", 8, 9)])

    def test_log_that_begins_with_v_set(self):
        self.put("run.log", RUN[RUN.index("step 4"):RUN.index("step 8")])
        slices = self.check_nested(self.events("--svg", "out.svg"))
        self.assertEqual(slices[-2:], [(2, 1, "VS", 5, 6), (2, 1, "VU", 4, 5)])
        self.assertIn("VS, hgatp before the log", self.made("out.svg"))

    def test_svg(self):
        self.check_plain(self.profile("--log", "run.log", "--svg", "out.svg"), 0)
        drawn, texts = self.texts("out.svg")
        self.assertEqual(texts[:2], ["run.log: steps 0 to 11", "step"])
        rows = ["HS", "U", f"VS, hgatp {FIRST}", f"VU, hgatp {FIRST}", f"VS, hgatp {SECOND}", "4 traps", "1 fence",
                "1 input", "1 stale use"]
        legend = ["HS", "U", "VS", "VU", "traps", "fences", "inputs", "stale uses", "a column is one step"]
        self.assertEqual(texts[2:], [*(str(step) for step in range(0, 13)), *rows, *legend])
        bars = [bar.firstChild.firstChild.data for bar in drawn.getElementsByTagName("rect") if bar.firstChild]
        for words in ("HS: steps 0 to 2", "U: step 11", f"VU, hgatp {FIRST}: step 4", f"VS, hgatp {SECOND}: step 8",
                      "stale uses: step 10"):
            self.assertIn(words, bars)

    def test_svg_of_a_long_run(self):
        """Each column is of what most of its steps are; what else it has is pale."""
        drawing = timeline_drawing.Drawing("a & b")
        hs, guest = (timeline_drawing.Visit(at, bool(at), at or None, "") for at in (0, 7))
        for at in range(0, 3000000, 3000):
            drawing.take(timeline_drawing.Stretch(hs, "HS", at, at + 2990))
            drawing.take(timeline_drawing.Stretch(guest, "VS", at + 2990, at + 3000))
        drawing.take(timeline_drawing.Stretch(guest, "VS", 3000000, 4000000))
        self.put("out.svg", drawing.svg())
        drawn, texts = self.texts("out.svg")
        columns = drawing.columns
        self.assertEqual((columns.width, len(columns.rows)), (4096, 977))
        self.assertEqual(sum(sum(column.values()) for column in columns.rows), 4000000)
        self.assertEqual(texts[0], "a & b: steps 0 to 3,999,999")
        self.assertIn("a column is 4,096 steps, drawn in the row in which most of them are; pale where a row has "
                      "some of them", texts)
        bars = [bar.firstChild.firstChild.data for bar in drawn.getElementsByTagName("rect") if bar.firstChild]
        self.assertEqual(bars, ["some of HS: steps 2,998,272 to 3,002,367", "HS: steps 0 to 2,998,271",
                                "some of VS, hgatp 7: steps 0 to 2,998,271",
                                "VS, hgatp 7: steps 2,998,272 to 3,999,999"])

    def test_columns(self):
        self.check_plain(self.profile("--log", "run.log", "--svg", "out.svg", "--columns", "4"), 0)
        drawn, texts = self.texts("out.svg")
        self.assertTrue(texts[-1].startswith("a column is 4 steps, "))
        bars = [bar.firstChild.firstChild.data for bar in drawn.getElementsByTagName("rect") if bar.firstChild]
        self.assertEqual(bars[:2], ["some of HS: steps 8 to 11", "HS: steps 0 to 7"])

    def test_svg_of_many_guests(self):
        drawing = timeline_drawing.Drawing("many")
        for at in range(40):
            drawing.take(timeline_drawing.Stretch(timeline_drawing.Visit(at, True, at, ""), None, at, at + 1))
        self.put("out.svg", drawing.svg())
        _, texts = self.texts("out.svg")
        rows = [text for text in texts if text.startswith("V = 1, ")]
        self.assertEqual(rows, [*(f"V = 1, hgatp {at:x}" for at in range(16)), "V = 1, other guests"])

    def test_axis(self):
        for first, last, steps in ((0, 12, range(0, 13)), (5, 23, range(5, 24)), (0, 1, range(0, 2)),
                                   (0, 8855, range(0, 8856, 1000)),
                                   (10**9, 2 * 10**9, range(10**9, 2 * 10**9 + 1, 2 * 10**8))):
            self.assertEqual(timeline_drawing.marks_of_axis(first, last), steps)


class FaultTest(ProfileTest):
    def test_words(self):
        for words, said in (
                ([], "there is nothing to make"), (["--log", "run.log"], "there is nothing to make"),
                (["--exits"], "required: CONFIG, or --log FILE"),
                (["--log", "run.log", "--exits", "--from", "5"], "--from, --to and --trace are for a run"),
                (["a.bin", "--exits", "--from", "5", "--to", "4"], "--to is 4, which is before --from, 5"),
                (["--log", "run.log", "--svg", "out", "--lcov", "./out"], "would be written twice"),
                (["--log", "run.log", "--svg", "run.log"], "is read, and would be written over"),
                (["--log", "run.log", "--callgrind", "out", "--vs", "g=none"], "is not FILE, and not HGATP=FILE"),
                (["--log", "run.log", "--callgrind", "out", "--vs", "1=none"], "none cannot be read as an ELF file"),
                (["--log", "run.log", "--callgrind", "out", "--hs", "a.bin"], "a.bin cannot be read as an ELF file"),
                (["--log", "none", "--svg", "out"], "none: No such file or directory"),
                (["--log", "run.log", "--callgrind", "out"], "run.log has no counts"),
                (["--log", "/dev/null", "--timeline", "out"], "/dev/null has no event"),
                (["--log", "a.bin", "--timeline", "out", "--svg", "out2"], "a.bin ends within line 1"),
                (["--log", "run.log", "--exits", "none.toml"], "none.toml: there is no such file"),
                (["--log", "run.log", "--exits", "nothing"], "nothing: there is no such file, nor such an example"),
                (["--log", "run.log", "--svg", "none/out"], "none/out: No such file"),
                (["--log", "run.log", "--svg", "out", "--columns", "0"], "argument --columns: 0 is not"),
                (["--trace", "none", "--exits", self.configure()], "none is not a program"),
                (["--exits", "a.toml", "--steps", "5"], "--steps is for an ELF file or an image")):
            ran = self.profile(*words)
            self.check_plain(ran, 2)
            self.check_said(ran, said)
            self.assertEqual(ran.stdout, b"")
            self.check_nothing_made()

    def test_log_without_worlds(self):
        self.put("run.log", "".join(f"{line}\n" for line in RUN.splitlines() if line.startswith("step")))
        self.put("out.json", "old")
        ran = self.profile("--log", "run.log", "--timeline", "out.json", "--svg", "out.svg")
        self.check_plain(ran, 2)
        self.check_said(ran, "line 4 of run.log is in VS, and no line before tells of the change of V")
        self.assertEqual((self.made("out.json"), os.path.exists(os.path.join(self.folder, "out.svg"))), ("old", False))


class TraceTest(ProfileTest):
    """By a script that stands for nesthv-trace: it keeps its words, and writes a log."""

    def setUp(self):
        super().setUp()
        self.put("counts.log", COUNTS)

    def trace(self, ending, *words):
        os.chmod(self.put("deep/trace", f'#!/bin/sh\necho "$*" >asked\n{ending}\n'), 0o755)
        return self.profile("--trace", "deep/trace", *words)

    def test_words(self):
        path = self.configure("deep/b.toml", image='"b.bin"')
        self.put("deep/b.bin", LETTER)
        for words, asked in (
                (["--exits"], "./b.toml 0 worlds"), (["--exits", "--from", "5"], "./b.toml 0 worlds 5"),
                (["--exits", "--to", "7"], "./b.toml 0 worlds 0 7"),
                (["--callgrind", "out", "--from", "1", "--to", "9", "0"], "./b.toml 0 counts 1 9"),
                (["--svg", "out"], "./b.toml 0 traps,worlds,calls,fences,steps"),
                (["--timeline", "out", "--no-modes", "--exits"], "./b.toml 0 traps,worlds,calls,fences"),
                (["--svg", "out", "--callgrind", "out2"],
                 "./b.toml 0 traps,worlds,calls,fences,steps,counts")):
            self.check_plain(self.trace(f"cat {self.folder}/run.log {self.folder}/counts.log", path, *words), 0)
            self.assertEqual(self.made("deep/asked"), asked + "\n")
        self.check_plain(self.trace(f"cat {self.folder}/run.log", path, "--svg", "out"), 0)
        self.assertIn("a: steps 0 to 11", self.made("out"))

    def test_elf_file_in_place_of_a_configuration(self):
        self.put("k.elf", elf((RAM, LETTER)))
        words = ["--steps", "7", "--callgrind", "out", "--write", "kept"]
        ran = self.trace(f"cat {self.folder}/counts.log", "k.elf", *words)
        self.check_plain(ran, 0)
        self.assertIn("cmd: nesthv-trace k.elf --steps 7 0\n", self.made("out"))
        self.assertEqual(self.made("kept/asked"), "./k.toml 0 counts\n")

    def test_failures(self):
        """What the program says is told, and not that its log is cut."""
        for ending, said in (
                ('echo "nesthv: configuration fault 15 value 5" >&2; exit 2',
                 "nesthv: configuration fault 15 value 5: there is no guest 5: guests are numbered from 0"),
                ('printf "step 5 HS"; echo "nesthv: out of memory" >&2; exit 5',
                 "nesthv: out of memory: there is not enough memory"),
                ("cat ../run.log; exit 4", "status 4"), ("kill -9 $$", "was ended by signal 9"),
                ('printf "step 5 HS"', "the log ends within line 1"),
                ("yes; exit 3", "line 1 of the log is not one that nesthv-trace writes: y")):
            self.put("deep/b.bin", LETTER)
            path = self.configure("deep/b.toml", image='"b.bin"')
            ran = self.trace(ending, path, "5", "--timeline", "out.json", "--svg", "out.svg")
            self.check_plain(ran, 2)
            self.assertEqual(len(ran.lines), 1)
            self.check_said(ran, said)
            self.check_nothing_made()

    def test_no_program(self):
        with mock.patch.object(programs, "companion", return_value=None):
            ran = self.profile(self.configure(), "--exits")
        self.check_plain(ran, 2)
        self.assertEqual(ran.lines, ["tools/profile: there is no nesthv-trace: --trace PATH names one, and --log FILE "
                                     "reads a log that it has written"])
        not_one = self.put("not one", b"\0")
        os.chmod(not_one, 0o755)
        ran = self.profile(self.configure(), "--exits", "--trace", not_one)
        self.check_plain(ran, 2)
        self.check_said(ran, "not one cannot be run: Exec format error")

    @unittest.skipUnless(TRACER, "there is no nesthv-trace")
    def test_example(self):
        """Each step of `hypervisor` is an instruction, and its report has their number."""
        example = os.path.join(TOP, "examples", "hypervisor")
        with open(os.path.join(example, "report"), encoding="utf-8") as file:
            steps = file.readline().split()[4]
        made = {name: os.path.join(self.folder, f"out.{name}") for name in ("callgrind", "timeline", "svg")}
        options = [word for name, path in made.items() for word in (f"--{name}", path)]
        ran = self.profile(os.path.join(example, "hypervisor.toml"), "--exits", "--trace", TRACER, *options)
        self.check_plain(ran, 0)
        self.assertEqual(ran.stdout.count(b"exits of hgatp "), 2)
        self.assertRegex(self.made("out.callgrind"), rf"totals: {steps} \d+ 0 \d+ 0\n$")
        self.assertEqual(max(event.get("ts", 0) for event in json.loads(self.made("out.timeline"))["traceEvents"]),
                         int(steps))
        self.assertIn(f"<title>hypervisor: steps 0 to {int(steps) - 1:,}</title>", self.made("out.svg"))


    @unittest.skipUnless(TRACER and GCC, "there is no nesthv-trace, or no gcc for RISC-V")
    @needs("gcc", "lcov", "riscv64-linux-gnu-addr2line")
    def test_lines_as_gcov_counts_them(self):
        """The same program by gcc's own coverage, and by ours as a guest."""
        self.put("b.c", COUNTED)
        for words in (["gcc", "--coverage", "-O0", "-o", "b", "b.c"], ["./b"],
                      ["lcov", "-q", "-c", "-d", ".", "-o", "gcov.info"],
                      [os.path.join(TOP, "examples", "build"), "-g", "-O0", "b.c"]):
            subprocess.run(words, cwd=self.folder, check=True, stdin=subprocess.DEVNULL, stderr=subprocess.PIPE)
        self.check_plain(self.profile("b.elf", "--lcov", "out.info", "--trace", TRACER), 0)
        expected, found = (self.lines_in(name, "b.c") for name in ("gcov.info", "out.info"))
        both = sorted(set(expected) & set(found))
        self.assertGreater(len(both), 15)
        self.assertEqual([(line, found[line]) for line in both], [(line, expected[line]) for line in both])


@unittest.skipUnless(GCC, "the GNU tools for RISC-V are not installed")
class CodeTest(ProfileTest):
    """A guest, and a guest of it at the same addresses, each with an ELF file. The image has the bytes of both."""

    @classmethod
    def setUpClass(cls):
        """Builds the ELF files once."""
        cls.built = cls.enterClassContext(tempfile.TemporaryDirectory())
        for name, text in (("own.s", OWN), ("nested.s", NESTED)):
            with open(os.path.join(cls.built, name), "w", encoding="utf-8") as file:
                file.write(text)
        build(cls.built, "a.elf", "own.s")
        build(cls.built, "nested.elf", "nested.s")

    def setUp(self):
        super().setUp()
        shutil.copytree(self.built, self.folder, dirs_exist_ok=True)
        self.put("a.bin", b"".join(self.bytes_of(name) for name in ("a.elf", "nested.elf")))
        self.put("counts.log", COUNTS)
        self.path = self.configure()

    def bytes_of(self, name):
        with open(os.path.join(self.folder, name), "rb") as file:
            return elf_images.placed(file.read())

    def annotated(self, name, *words):
        """The rows of callgrind_annotate: numbers, and file:function."""
        ran = self.tool(shutil.which("callgrind_annotate"), "--threshold=100", "--auto=no", *words, name)
        self.assertEqual((ran.returncode, ran.lines), (0, []))
        rows = re.findall(r"^ *([\d,]+) .*?(?:\) +|\d +)((?:\* +|> +)?[^ ]+:[^:\n]*)$", ran.stdout.decode(), re.M)
        return ran.stdout.decode(), rows

    @needs("callgrind_annotate")
    def test_callgrind(self):
        ran = self.profile("--log", "counts.log", "--callgrind", "out", self.path)
        self.check_plain(ran, 0)
        self.assertEqual(ran.lines, [f"tools/profile: VU of hgatp {SECOND}: 1 instruction is of no ELF file"])
        text, _ = self.annotated("out")
        self.assertIn("Events recorded:  Ir HS U VS VU\n", text)
        self.assertRegex(text, r"(?m)^92 \(100.0%\) +15 \(100.0%\) +0 +37 \(100.0%\) +40 \(100.0%\) +PROGRAM TOTALS$")
        for row in (r"30 .* 0 +0 +30 .* 0 .*/nested.s:idle \[.*/nested.elf\]",
                    r"7 .* 0 +0 +7 .* 0 .*/nested.s:kernel \[",
                    r"13 .* 13 .* 0 +0 +0 .*/own.s:loop \[.*/a.elf\]", r"2 .* 2 .* 0 +0 +0 .*/own.s:_start \[",
                    rf"40 .* 0 +0 +0 +40 .* \?\?\?:page 1000 in VU of hgatp {SECOND} \["):
            self.assertRegex(text, f"(?m)^ *{row}")
        self.assertNotIn("unused", text)

    def test_functions(self):
        self.check_plain(self.profile("--log", "counts.log", "--functions", "out.svg", self.path), 0)
        drawn, texts = self.texts("out.svg")
        self.assertEqual(texts, [
            "a: 92 instructions by function", "HS", "VS", "VU", f"no ELF file, VU of hgatp {SECOND}", "43.5 %",
            "idle (nested.elf)", "32.6 %", "loop (a.elf)", "14.1 %", "kernel (nested.elf)", "7.6 %", "_start (a.elf)",
            "2.2 %"])
        bars = [bar.firstChild.firstChild.data for bar in drawn.getElementsByTagName("rect") if bar.firstChild]
        self.assertEqual(bars[1:3], ["idle (nested.elf), VS: 30", "loop (a.elf), HS: 13"])

    def test_functions_that_are_many(self):
        names = [f"f{number}" for number in range(40)]
        self.put("own.s", "".join(f"    .globl {name}\n{name}:\n    nop\n" for name in names))
        build(self.folder, "a.elf", "own.s")
        self.put("counts.log", "".join(f"count HS {RAM + 4 * at:016x} hgatp - times {at}\n" for at in range(40)))
        self.check_plain(self.profile("--log", "counts.log", "--functions", "out.svg", self.path), 0)
        _, texts = self.texts("out.svg")
        self.assertEqual(texts[2::2], [*names[:15:-1], "16 other functions"])
        self.assertEqual(texts[-1], "15.4 %")

    @needs("callgrind_annotate")
    def test_inlined_calls(self):
        """What is inlined is a function of its own, and a call of it."""
        self.put("inlined.c", INLINED)
        build(self.folder, "a.elf", "inlined.c")
        code = code_places.code_at(os.path.join(self.folder, "a.elf"))
        places = code.frames_of(code.addresses())
        times = {"square": 50, "sum": 5, "main": 1}
        self.assertEqual({frames[0].function for frames in places.values()}, set(times))
        self.put("counts.log", "".join(f"count HS {address:016x} hgatp - times {times[frames[0].function]}\n"
                                       for address, frames in places.items()))
        self.check_plain(self.profile("--log", "counts.log", "--callgrind", "out", "--lcov", "out2", self.path), 0)
        squares = [address for address, frames in places.items() if frames[0].function == "square"]
        text, _ = self.annotated("out", "--tree=calling", "--inclusive=yes")
        self.assertRegex(text, rf"(?m)^ *{50 * len(squares):,} .* >   .*inlined.c:square \(50x\)")
        self.assertEqual({frames[1:] for frames in places.values() if frames[0].function == "square"},
                         {(code_places.Frame("sum", f"{self.folder}/inlined.c", 6),)})
        for line in ("FN:1,square", "FNDA:50,square", "FNDA:5,sum", "FNDA:1,main", "DA:1,50", "DA:6,50"):
            self.assertIn(f"{line}\n", self.made("out2"))

    def test_worlds_stay_apart(self):
        """None of V = 1 has the guest's own symbols, nor the other way, also where it is the one ELF file."""
        for words, named, unnamed in (([], "", ""), (["--hs", "a.elf"], "", ""),
                                      (["--vs", "a.elf"], "fn=_start", "nested"),
                                      (["--hs", "nested.elf", "--vs", f"{FIRST}=a.elf"], "fn=kernel", "")):
            self.check_plain(self.profile("--log", "counts.log", "--callgrind", "out", *words, self.path), 0)
            self.assertIn(named, self.made("out"))
            self.assertTrue(not unnamed or unnamed not in self.made("out"))
        os.remove(os.path.join(self.folder, "nested.elf"))
        self.check_plain(self.profile("--log", "counts.log", "--callgrind", "out", self.path), 0)
        self.assertIn(f"fn=page 80000000 in VS of hgatp {FIRST}\n0x80000000 0 2 0 0 2 0\n", self.made("out"))
        self.assertIn("0x80000000 3 1 1 0 0 0\n", self.made("out"))

    def test_files_at_the_same_addresses(self):
        """The one that goes where the counts are is taken; and none where the one that is there goes elsewhere."""
        self.put("other.s", "    .globl other\nother:\n    .rept 5\n    j . + 8\n    nop\n    .endr\n"
                            "    .rept 10\n    nop\n    .endr\n")
        build(self.folder, "other.elf", "other.s")
        self.put("a.bin", b"".join(self.bytes_of(f"{name}.elf") for name in ("a", "nested", "other")))
        self.put("counts.log", COUNTS[:COUNTS.index(f"count VS 0000000080000000 hgatp {SECOND}")] + "".join(
            f"count VS {RAM + at:016x} hgatp {SECOND} times 3\n" for at in range(0, 40, 8)))
        ran = self.profile("--log", "counts.log", "--callgrind", "out", self.path)
        self.assertEqual((ran.returncode, ran.lines), (0, []))
        made = self.made("out")
        kernel, other = (re.search(rf"fn={name}\n((?:0x.*\n)+)", made)[1] for name in ("kernel", "other"))
        self.assertEqual(kernel, "0x80000000 3 2 0 0 2 0\n0x80000004 4 2 0 0 2 0\n")
        self.assertEqual(other, "".join(f"{RAM + at:#x} 4 3 0 0 3 0\n" for at in range(0, 40, 8)))
        os.remove(os.path.join(self.folder, "other.elf"))
        ran = self.profile("--log", "counts.log", "--callgrind", "out", self.path)
        self.assertEqual(ran.lines, [f"tools/profile: VS of hgatp {SECOND}: 5 instructions are of no ELF file"])

    def test_two_files_that_fit(self):
        shutil.copy(os.path.join(self.folder, "nested.elf"), os.path.join(self.folder, "same.elf"))
        ran = self.profile("--log", "counts.log", "--callgrind", "out", self.path)
        self.check_plain(ran, 0)
        self.check_said(ran, f"both have what is executed in VS of hgatp {FIRST}: neither is taken")
        self.assertNotIn("kernel", self.made("out"))

    def test_physical_addresses(self):
        """Before there is a translation, pc is a physical address."""
        build(self.folder, "a.elf", "own.s", f"-Wl,-Ttext={2**64 - 2**31:#x},-e,{2**64 - 2**31:#x}")
        path = os.path.join(self.folder, "a.elf")
        code = code_places.code_at(path)
        code.segments = [each._replace(place=each.address - 2**64 + 2**31 + RAM) for each in code.segments]
        self.assertEqual([code.address_of(pc) for pc in (RAM + 4, 2**64 - 2**31, RAM - 4, RAM + 0x1000)],
                         [2**64 - 2**31 + 4, 2**64 - 2**31, None, None])

    def lcov(self, *words):
        ran = self.tool(shutil.which("lcov"), "--quiet", *words)
        self.assertEqual(ran.returncode, 0, ran.lines)
        return ran

    @needs("lcov", "genhtml", "riscv64-linux-gnu-addr2line")
    def test_lcov(self):
        self.check_plain(self.profile("--log", "counts.log", "--lcov", "out.info", self.path), 0)
        made = self.made("out.info")
        self.assertEqual(self.lines_in("out.info", "own.s"), {3: 1, 4: 1, 6: 7, 7: 6, 9: 0})
        for line in ("FNDA:7,loop", "FNDA:0,unused", "FNDA:5,kernel", "FNDA:30,idle", "TN:a"):
            self.assertIn(f"{line}\n", made)
        ran = self.tool(shutil.which("lcov"), "--summary", "out.info")
        self.assertIn("(7 of 10 lines)", ran.stdout.decode())
        self.assertIn("(4 of 5 functions)", ran.stdout.decode())
        self.lcov("-a", "out.info", "-a", "out.info", "-o", "sum.info")
        self.assertIn("DA:6,14\n", self.made("sum.info"))
        self.assertIn("FNDA:60,idle\n", self.made("sum.info"))
        ran = self.tool(shutil.which("genhtml"), "--quiet", "out.info", "-o", "html")
        self.assertEqual((ran.returncode, ran.lines), (0, []))
        self.assertTrue(os.path.isfile(os.path.join(self.folder, "html", "index.html")))

    @needs("riscv64-linux-gnu-addr2line")
    def test_sources_that_are_not_there(self):
        build(self.folder, "a.elf", "own.s")
        os.remove(os.path.join(self.folder, "own.s"))
        ran = self.profile("--log", "counts.log", "--lcov", "out.info", self.path)
        self.check_plain(ran, 0)
        self.check_said(ran, "own.s is not here: genhtml then takes `--ignore-errors source`")
        subprocess.run(["riscv64-linux-gnu-strip", "-g", "a.elf", "nested.elf"], cwd=self.folder, check=True)
        ran = self.profile("--log", "counts.log", "--lcov", "out", self.path)
        self.check_plain(ran, 2)
        self.check_said(ran, "nested.elf tells of no lines: build it with -g")
        ran = self.profile("--log", "counts.log", "--lcov", "out")
        self.check_said(ran, "no ELF file is known, which --lcov needs: --hs FILE and --vs FILE name one")

    def test_addr2line_that_fails(self):
        os.mkdir(os.path.join(self.folder, "bin"))
        os.chmod(self.put("bin/riscv64-linux-gnu-addr2line", "#!/bin/sh\necho 0x80000000\nexit 1\n"), 0o755)
        first = {"PATH": f"{self.folder}/bin:{os.environ['PATH']}"}
        ran = self.profile("--log", "counts.log", "--lcov", "out", self.path, variables=first)
        self.check_plain(ran, 2)
        self.check_said(ran, f"riscv64-linux-gnu-addr2line cannot read {self.folder}/a.elf: its status is 1")
        self.check_nothing_made()

    def test_without_addr2line(self):
        """Functions are known by the symbols, and lines are not."""
        hidden = {"PATH": os.path.dirname(shutil.which("python3"))}
        if shutil.which("addr2line", path=hidden["PATH"]):
            self.skipTest("addr2line stands beside python3")
        ran = self.profile("--log", "counts.log", "--callgrind", "out", self.path, variables=hidden)
        self.check_plain(ran, 0)
        self.assertIn("fl=???\nfn=kernel\n0x80000000 0 5 0 0 5 0\n", self.made("out"))
        ran = self.profile("--log", "counts.log", "--lcov", "out.info", self.path, variables=hidden)
        self.check_plain(ran, 2)
        self.check_said(ran, "there is no riscv64-linux-gnu-addr2line, which --lcov needs (apt-get install ")


class InstructionsTest(unittest.TestCase):
    def test_data_among_instructions(self):
        marks = [(4, False), (8, True), (20, False), (30, True)]
        self.assertEqual(list(symbols.instructions_in(0, 16, marks)), [(0, 4), (8, 16)])
        self.assertEqual(list(symbols.instructions_in(20, 28, marks)), [])
        self.assertEqual(list(symbols.instructions_in(0, 16, [])), [(0, 16)])
