"""Tests of tools/run: programs, images that are not regular files, TOML 1.1, streams that fail, options."""
import json
import os
import random
import shutil
import signal
import subprocess
import sys
import threading
import time

from helper import LETTER, LETTER_REPORT, LIMIT, LOOP, PROGRAM, TOOLS, TOP, ToolTest, take_signals
from nesthv_tools import faults, toml11

INLINE = """format = 1
quantum = 1000
rounds = 1
guest = [
  {
    name = "\\x61", # a comment, with }
    image = "IMAGE",
    blocks = 1, spaces = 1,
    entries = 16, console = 100,
  },
]
"""


FOUND = {"NESTHV": ""}  # the program is the one that the tools find


class RunTest(ToolTest):
    def test_report_and_status(self):
        ran = self.tool("tools/run", self.configure())
        self.check_plain(ran, 0)
        self.assertEqual(ran.stdout, LETTER_REPORT)

    def test_commands(self):
        path = self.configure()
        self.put("report", LETTER_REPORT)
        self.put("other", LETTER_REPORT[:-2] + b"B\n")
        self.assertEqual(self.tool("tools/run", "run", path).stdout, LETTER_REPORT)
        self.assertEqual(self.tool("tools/run", "check", path).stdout,
                         b"guest a image 20 frames 569\nframes 569\n")
        self.assertEqual(self.tool("tools/run", "replay", path, "report").stdout, b"same\n")
        ran = self.tool("tools/run", "replay", path, "other")
        self.assertEqual((ran.returncode, ran.stdout), (6, b"differs at 32\n"))

    def test_example_by_name(self):
        ran = self.tool("examples/run", "first")
        self.check_plain(ran, 0)
        self.assertEqual(ran.stdout, LETTER_REPORT)

    def test_json(self):
        answer = json.loads(self.tool("tools/run", "--json", self.configure()).stdout)
        self.assertEqual(answer["guests"], [{"name": "a", "status": "stopped", "steps": 5, "bytes": 1,
                                             "console": "A"}])
        self.assertEqual((answer["status"], answer["proved"]), (0, True))
        answer = json.loads(self.tool("tools/run", "check", "--json", "a.toml").stdout)
        self.assertEqual(answer["output"], "guest a image 20 frames 569\nframes 569\n")

    def test_expect(self):
        path = self.configure()
        for expected, status in (("stopped", 0), ("0", 0), ("running", 10), ("2", 10)):
            self.check_plain(self.tool("tools/run", "--expect", expected, path), status)
        self.check_said(self.tool("tools/run", "--expect", "running", path),
                        "guest a is stopped, and running was expected")
        self.check_said(self.tool("tools/run", "--expect", "2", path), "the status is 0, and 2 was expected")

    def test_bad_words(self):
        path = self.configure()
        for words in ([], ["replay", path], ["check", path, path], [path, path], ["--expect", "7", path],
                      ["check", "--progress", path], ["check", "--expect", "running", path],
                      ["--no-option", path]):
            ran = self.tool("tools/run", *words)
            self.check_plain(ran, 2)
            self.assertEqual(ran.stdout, b"")
        ran = self.tool("tools/run", "nothing")
        self.check_plain(ran, 2)
        self.check_said(ran, "nothing: there is no such file, nor such an example")

    def test_unknown_words(self):
        """What is wrong has its true cause."""
        path = self.configure()
        for words, said in ((["chek", path], "chek is not a command: run, replay, check, save are"),
                            (["kernl"], "nor such an example: c, device, "),
                            (["save", path, "x"], "x is not the number of a guest: give a decimal number")):
            ran = self.tool("tools/run", *words)
            self.check_plain(ran, 2)
            self.check_said(ran, said)

    def test_quiet(self):
        ran = self.tool("tools/run", "--quiet", self.configure())
        self.assertEqual((ran.stdout, ran.lines), (LETTER_REPORT, []))

    def test_name_that_begins_with_a_dash(self):
        self.configure("-dash.toml")
        self.assertEqual(self.tool("tools/run", "--quiet", "--", "-dash.toml").stdout, LETTER_REPORT)
        self.check_plain(self.tool("tools/look", "--", "-dash.toml", "at", "0"), 0)

    def test_missing_configuration(self):
        for name in ("none.toml", "none/none.toml"):
            ran = self.tool("tools/run", name)
            self.check_plain(ran, 3)
            self.check_said(ran, f"the configuration {name} cannot be read: there is no such file")


class ProgramTest(ToolTest):
    def copy(self, name, data):
        path = self.put(name, data)
        os.chmod(path, 0o755)
        return path

    def test_named_program(self):
        path = self.configure()
        with open(PROGRAM, "rb") as file:
            same = self.copy("same", file.read())
        ran = self.tool("tools/run", "--program", same, path)
        self.assertEqual(ran.stdout, LETTER_REPORT)
        self.check_said(ran, f"by the proved program {same}")
        self.check_said(self.tool("tools/run", path, variables={"NESTHV": same}),
                        f"by the proved program {same}")
        other = self.copy("other", f'#!/bin/sh\nexec {PROGRAM} "$@"\n')
        ran = self.tool("tools/run", "--json", "--program", "./other", path)
        self.check_said(ran, f"by {other}, which is not known to be proved")
        self.assertFalse(json.loads(ran.stdout)["proved"])

    def test_program_that_is_none(self):
        path = self.configure()
        for program in ("none", "a.bin", self.folder):
            ran = self.tool("tools/run", "--program", program, path)
            self.check_plain(ran, 2)
            self.check_said(ran, f"{program} is not a program")

    def test_program_that_cannot_be_run(self):
        for text in ("#!/none/none\n", "none"):
            ran = self.tool("tools/run", "--program", self.copy("odd", text), self.configure())
            self.check_plain(ran, 2)
            self.check_said(ran, "cannot be run")

    def test_program_that_writes_no_report(self):
        path = self.configure()
        for option in ([], ["--json"], ["--expect", "stopped"]):
            ran = self.tool("tools/run", *option, "--program", self.copy("odd", "#!/bin/sh\necho guest\n"),
                            path)
            self.check_plain(ran, 10 if "--expect" in option else 0)
            self.check_said(ran, "is not a report")

    def test_program_that_a_signal_ends(self):
        ran = self.tool("tools/run", "--program", self.copy("odd", "#!/bin/sh\nkill -9 $$\n"),
                        self.configure())
        self.check_plain(ran, 137)
        self.check_said(ran, "was ended by signal 9")

    def clone(self):
        """A copy of the repository that has the tools, dist/ and one source."""
        top = os.path.join(self.folder, "top")
        for name in ("tools", "dist"):
            shutil.copytree(os.path.join(TOP, name), os.path.join(top, name))
        for name in ("HANDLES", "crates.txt", "crates/a/src/lib.rt", "crates/a/README.md",
                     "crates/a/controls/b.control", "crates/a/out/c"):
            self.put(f"top/{name}", "")
        return top

    def test_program_of_other_sources(self):
        top = self.clone()
        ran = self.tool(f"{top}/tools/program", variables=FOUND)
        self.assertEqual(ran.stdout.decode().strip(), f"{top}/dist/nesthv")
        self.check_said(ran, "is of other sources")
        sources = subprocess.run([f"{top}/dist/sources"], stdout=subprocess.PIPE, check=True).stdout.decode()
        self.put("top/dist/MADE", f"sources {sources}")
        self.assertEqual(self.tool(f"{top}/tools/program", variables=FOUND).lines, [])
        without_bash = {**FOUND, "PATH": os.path.dirname(sys.executable)}
        ran = self.tool(sys.executable, f"{top}/tools/program", variables=without_bash)
        self.assertEqual(ran.lines, [])

    def test_program_with_another_hash(self):
        top = self.clone()
        with open(f"{top}/dist/nesthv", "ab") as file:
            file.write(b"\0")
        self.assertEqual(self.tool(f"{top}/tools/program", variables=FOUND).returncode, 1)
        built = self.copy("top/crates/nesthv/out/nesthv", "#!/bin/sh\n")
        self.assertEqual(self.tool(f"{top}/tools/program", variables=FOUND).stdout.decode().strip(), built)

    def test_install(self):
        path = self.configure("kept/a.toml", image='"../a.bin"')
        older = self.put("prefix/lib/nesthv/tools/common.py", "")
        self.check_plain(self.tool("tools/install", "prefix"), 0)
        self.check_plain(self.tool("tools/install", "prefix"), 0)
        self.assertFalse(os.path.exists(older))
        ran = self.tool(f"{self.folder}/prefix/bin/nesthv-run", path, variables=FOUND)
        self.assertEqual(ran.stdout, LETTER_REPORT)
        self.assertEqual(ran.lines, [f"nesthv-run: by the proved program {os.path.realpath(self.folder)}"
                                     "/prefix/bin/nesthv"])
        self.check_plain(self.tool("tools/install", "--none"), 2)


class ImageTest(ToolTest):
    def test_pipe(self):
        path = self.configure(image='"/dev/stdin"')
        read, write = os.pipe()
        os.write(write, LETTER)
        os.close(write)
        ran = self.tool("tools/run", path, stdin=read)
        os.close(read)
        self.check_plain(ran, 0)
        self.assertEqual(ran.stdout, LETTER_REPORT)

    def test_fifo(self):
        path = self.configure(image='"fifo"')
        fifo = os.path.join(self.folder, "fifo")
        os.mkfifo(fifo)

        def feed():
            with open(fifo, "wb") as file:
                file.write(LETTER)
        writer = threading.Thread(target=feed, daemon=True)
        writer.start()
        ran = self.tool("tools/run", path)
        self.assertEqual(ran.stdout, LETTER_REPORT)
        writer.join(10)

    def test_configuration_from_a_pipe(self):
        with open(self.configure(), "rb") as file:
            text = file.read()
        ran = self.tool("tools/run", "/dev/stdin", stdin=None, input=text)
        self.check_plain(ran, 0)
        self.assertEqual(ran.stdout, LETTER_REPORT)

    def test_device_without_an_end(self):
        ran = self.tool("tools/run", self.configure(image='"/dev/zero"'))
        self.check_plain(ran, 2)

    def test_folder(self):
        ran = self.tool("tools/run", self.configure(image='"."'))
        self.check_plain(ran, 3)
        self.check_said(ran, ".: it is a folder, not an image")

    def test_names_of_files_that_fail(self):
        path = self.configure(image='"none.bin"')
        ran = self.tool("tools/run", path)
        self.check_plain(ran, 3)
        self.check_said(ran, "none.bin of guest 0 cannot be read: there is no such file")
        self.configure()
        ran = self.tool("tools/run", "replay", path, "none")
        self.check_plain(ran, 3)
        self.check_said(ran, "the stored report")
        self.check_said(ran, "none cannot be read: there is no such file")

    def test_other_reasons(self):
        os.symlink("none", os.path.join(self.folder, "link"))
        os.symlink("round", os.path.join(self.folder, "round"))
        for name, words in (("link", "it is a link to a file that is not there"),
                            ("a.bin/x", "Not a directory"),
                            ("round", "Too many levels of symbolic links")):
            ran = self.tool("tools/run", self.configure(image=f'"{name}"'))
            self.check_plain(ran, 3)
            self.check_said(ran, words)

    def test_elf_file(self):
        path = self.configure(image='"a.elf"')
        self.put("a.elf", b"\x7fELF\2\1\1" + bytes(11) + b"\x3e" + bytes(45))
        ran = self.tool("tools/run", path)
        self.check_plain(ran, 2)
        self.assertEqual((ran.stdout, len(ran.lines)), (b"", 1))
        self.check_said(ran, "`riscv64-linux-gnu-objcopy -O binary")
        ran = self.tool("tools/run", "--elf", path)
        self.check_plain(ran, 0)
        self.check_said(ran, "it is an ELF file, not an image")
        self.check_said(ran, "it is not for RISC-V")


class TomlTest(ToolTest):
    def test_tables_over_lines_and_last_commas(self):
        ran = self.tool("tools/run", self.put("b.toml", INLINE.replace("IMAGE", "a.bin")))
        self.check_plain(ran, 0)
        self.assertEqual(ran.stdout, LETTER_REPORT)

    def test_faults_in_such_tables(self):
        ran = self.tool("tools/run", self.put("b.toml", INLINE.replace("IMAGE", "none.bin")))
        self.check_plain(ran, 3)
        self.check_said(ran, "none.bin of guest 0 cannot be read: there is no such file")
        ran = self.tool("tools/run", self.put("b.toml", INLINE.replace("entries = 16", "entries = 15")))
        self.check_plain(ran, 2)
        self.check_said(ran, "`entries` of guest 0 ('a') is 15")
        ran = self.tool("tools/run", self.put("b.toml", INLINE + "=\n"))
        self.check_plain(ran, 2)
        self.check_said(ran, "(at line 12)")

    def test_progress(self):
        path = self.put("b.toml", INLINE.replace("IMAGE", "b.bin").replace("1000", "20000000"))
        self.put("b.bin", LOOP)
        ran = self.tool("tools/run", "--progress", path)
        self.assertEqual(ran.stdout, b"guest a running steps 20000000 bytes 0\n\n")
        self.check_said(ran, "after 10,000,000 steps of each guest: a running, 0 bytes")

    def test_toml11(self):
        table = {"x": 1, "y": ["A\x1b", {"z": 2}]}
        text = 'a = {\n x = 1, # }\n y = ["\\x41\\e", {z = 2, },],\n}\n'
        self.assertEqual(toml11.loads(text), {"a": table})
        self.assertEqual(str(toml11.loads("t = 07:32")["t"]), "07:32:00")
        for wrong in ("a = {,}", "a = {x = 1,,}", "a = {\nx = 1\ny = 2}"):
            self.assertRaises(ValueError, toml11.loads, wrong)

    def test_changed_configurations(self):
        """Whatever the program takes or refuses, the tool explains it without a traceback."""
        chosen = random.Random(46)
        with open(self.configure(front="format = 1\nturns = [[0, 10]]\n", input="[[1, 2]]"), "rb") as file:
            whole = file.read()
        words = [b"=", b"[[guest]]\n", b"{}", b"[1]", b"-1", b'"a"', b"\xff", b"\n", b"guest = 1\n", b"1.5",
                 b"true", b"99999999999999999999", b"[guest]\n", b"rounds = 3\n", b"x = 07:32\n",
                 b"input = [[5, 1], [4, 1]]\n"]
        inline = INLINE.replace("IMAGE", "a.bin").encode()
        for number in range(300):
            text = bytearray(inline if number % 2 else whole)
            for _ in range(chosen.randint(1, 3)):
                start = chosen.randrange(len(text))
                text[start:start + chosen.choice([0, 1, 3, 10])] = chosen.choice(words)
            path = self.put("b.toml", bytes(text))
            ran = subprocess.run([PROGRAM, "check", path], cwd=self.folder, capture_output=True)
            meaning = faults.explained(ran.stderr.decode().strip(), path, faults.text_of(path))
            self.assertEqual(bool(meaning), ran.returncode != 0, bytes(text))


class StreamTest(ToolTest):
    def test_full_output(self):
        path = self.configure()
        for words in ([path], ["--json", path], ["--expect", "stopped", path], ["check", path], ["--help"]):
            with open("/dev/full", "wb") as full:
                ran = self.tool("tools/run", *words, stdout=full)
            self.check_plain(ran, 4)
            self.check_said(ran, "No space left on device")

    def test_closed_output(self):
        path = self.configure()
        for words in ("", "--json", "--help"):
            ran = self.tool(f"{self.sh()}", "-c", f"{TOOLS}/run {words} {path} >&-")
            self.check_plain(ran, 4)

    def sh(self):
        return shutil.which("sh")

    def test_reader_that_has_ended(self):
        path = self.configure()
        read, write = os.pipe()
        os.close(read)
        for words in ([path], ["--json", path]):
            self.check_plain(self.tool("tools/run", *words, stdout=write), 4)
        os.close(write)

    def test_lines_that_cannot_be_written(self):
        path = self.configure()
        for closed in ("2>&-", "2>/dev/full", "<&- 2>&-"):
            ran = self.tool(self.sh(), "-c", f"{TOOLS}/run --expect stopped {path} {closed}")
            self.assertEqual((ran.returncode, ran.stdout), (0, LETTER_REPORT))
            self.assertEqual(self.tool(self.sh(), "-c", f"{TOOLS}/run none.toml {closed}").returncode, 3)

    def test_interrupt(self):
        self.put("a.bin", LOOP)
        path = self.configure(front="format = 1\nquantum = 4294967296\nrounds = 1000\n")
        started = subprocess.Popen([f"{TOOLS}/run", path], stdout=subprocess.PIPE, stderr=subprocess.PIPE,
                                   preexec_fn=take_signals)
        started.stderr.readline()  # which program it takes
        time.sleep(0.3)
        started.send_signal(signal.SIGINT)
        output, lines = started.communicate(timeout=LIMIT)
        self.assertEqual((started.returncode, output, lines), (130, b"", b"tools/run: interrupted\n"))
