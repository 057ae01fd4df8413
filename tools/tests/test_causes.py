"""Tests of the causes that the tools name: what is wrong with a configuration, an image, a report, a
guest."""
import glob
import os
import random
import shutil
import struct
import subprocess

from helper import LETTER, LETTER_REPORT, LOOP, TOP, ToolTest
from nesthv_tools import images, reports

MEBIBYTE = 1 << 20
LONG = "format = 1\nquantum = 1000000\nrounds = 1\n"


class ConfigurationTest(ToolTest):
    def refused(self, words, status=2, **keys):
        ran = self.tool("tools/run", self.configure(**keys))
        self.check_plain(ran, status)
        self.check_said(ran, words)
        return ran

    def long_image(self, length):
        with open(os.path.join(self.folder, "long.bin"), "wb") as file:
            file.write(LETTER)
            file.truncate(length)

    def test_image_longer_than_ram(self):
        self.long_image(4 * MEBIBYTE + 1)
        self.refused("has 4,194,305 bytes, and its RAM has 2,097,152: `blocks = 3` is enough",
                     image='"long.bin"')

    def test_image_longer_than_any_ram(self):
        self.long_image(64 * MEBIBYTE + 1)
        for blocks in (1, 32):
            ran = self.refused("no guest has more RAM than 67,108,864", image='"long.bin"', blocks=blocks)
            self.check_unsaid(ran, "is enough")

    def test_device(self):
        self.check_unsaid(self.refused("is not a regular file", image='"/dev/zero"'), "is enough")

    def test_unknown_keys(self):
        """The keys that there are, and no guess at the one that was meant."""
        ran = self.refused("has `consle`, and its keys are name, image, blocks, spaces, entries, console, input",
                           consle=1)
        self.check_unsaid(ran, "mean")
        ran = self.refused("lacks `entries`: an integer from 16 to 256", entries=None, entires=16)
        self.check_unsaid(ran, "entires")
        self.refused("`rounds` is there and `quantum` is not", front="format = 1\nquantun = 1\nrounds = 1\n")
        self.refused("the file lacks `format = 1` or `format = 2`",
                     front="formta = 1\nquantum = 1\nrounds = 1\n")


class EntryTest(ToolTest):
    def notices(self, image):
        ran = self.tool("tools/run", self.configure(image=f'"{self.put("c.bin", image)}"'))
        return [line for line in ran.lines if "compressed" in line]

    def test_images_of_the_repository(self):
        for path in glob.glob(f"{TOP}/examples/*/*.bin") + glob.glob(f"{TOP}/bench/*/*.bin"):
            self.assertEqual(images.notices_at(path), [], path)

    def test_first_word(self):
        self.assertIn("its first instruction is compressed", self.notices(b"\x01\0\x01\0")[0])  # c.nop

    def test_word_behind_the_start(self):
        self.assertIn("at 0x80000004", self.notices(struct.pack("<2I", 0x13, 0x00010001))[0])

    def test_target_of_a_jump(self):
        self.assertIn("at 0x80000008", self.notices(struct.pack("<3I", 0x0080006F, 0, 0x00010001))[0])

    def test_target_of_a_branch_and_of_a_call(self):
        branch = struct.pack("<4I", 0x00050463, 0x6F, 0x13, 0x00010001)  # beqz a0, .+8; j .
        self.assertIn("at 0x8000000c", self.notices(branch)[0])
        call = struct.pack("<3I", 0x00000297, 0x00A280E7, 0x00010001)  # auipc t0, 0; jalr ra, 10(t0)
        self.assertIn("at 0x8000000a", self.notices(call)[0])

    def test_trap_handler(self):
        # la t0, .+16; csrw stvec, t0; j .
        code = struct.pack("<5I", 0x00000297, 0x01028293, 0x10529073, 0x6F, 0x00010001)
        self.assertIn("at 0x80000010", self.notices(code)[0])

    def test_data_behind_code(self):
        for last in (0x6F, 0x73, 0x10200073, 0x00008067):  # j .; ecall, which stops; sret; ret
            code = struct.pack("<2I", 0x00800893, last) + b"text"
            self.assertEqual(self.notices(code), [])

    def test_any_image(self):
        """Any words are followed to an end, also from a file, where far addresses have no place."""
        chosen = random.Random(46)
        kinds = (0x6F, 0x67, 0x63, 0x73, 0x17, 0x37, 0x13, 0x03, 0x23, 0x0F)
        for _ in range(300):
            words = [chosen.getrandbits(32) & ~0x7F | chosen.choice(kinds) for _ in range(64)]
            images.notices_at(self.put("c.bin", struct.pack("<64I", *words)))
        # lui t0, 0x80000; addi t0, t0, -1; jr t0
        far = struct.pack("<4I", 0x800002B7, 0xFFF28293, 0x00028067, 0)
        self.assertEqual(images.notices_at(self.put("c.bin", far)), [])

    def test_code_by_gcc(self):
        gcc, objcopy = (shutil.which(f"riscv64-linux-gnu-{name}") for name in ("gcc", "objcopy"))
        if not gcc:
            self.skipTest("riscv64-linux-gnu-gcc is not installed")
        self.put("a.c", "int sum; int main(void) { for (int i = 0; i < 10; i++) sum += i; return sum; }")
        examples = os.path.join(TOP, "examples")
        command = [gcc, "-march=rv64imac_zicsr_zifencei", "-mabi=lp64", "-mcmodel=medany", "-static",
                   "-nostdlib", "-fno-pic", "-no-pie", "-Wl,--build-id=none", "-O2", "-ffreestanding", "-T",
                   f"{examples}/c/link.ld", f"{examples}/c/start.s", f"{examples}/traps/handler.s", "a.c",
                   "-o", "a.elf"]
        subprocess.run(command, cwd=self.folder, check=True)
        subprocess.run([objcopy, "-O", "binary", "a.elf", "a.bin"], cwd=self.folder, check=True)
        self.check_said(self.tool("tools/run", self.configure()), "execution reaches compressed code")


class GuestTest(ToolTest):
    def test_guest_that_puts_no_byte(self):
        self.put("b.bin", LOOP)
        ran = self.tool("tools/run", self.configure(front=LONG, image='"b.bin"'))
        self.check_plain(ran, 0)
        self.check_said(ran, "guest a printed nothing and is still running")
        self.check_said(ran, "a.toml doctor")

    def test_guest_that_waits(self):
        self.put("b.bin", struct.pack("<I", 0x10500073))  # wfi
        ran = self.tool("tools/run", self.configure(front=LONG, image='"b.bin"'))
        self.check_said(ran, "guest a printed nothing and waits for good")
        self.check_said(ran, "a.toml at end")

    def test_guest_without_a_step(self):
        ran = self.tool("tools/run", self.configure(front="format = 1\nturns = []\n"))
        self.check_said(ran, "guest a made no step")

    def test_guests_of_which_nothing_is_said(self):
        self.check_unsaid(self.tool("tools/run", self.configure()), "guest a")
        self.put("b.bin", LOOP)
        self.check_unsaid(self.tool("tools/run", self.configure(image='"b.bin"', console=0)), "guest a")


class DifferenceTest(ToolTest):
    def test_replay(self):
        path = self.configure(front="format = 1\nquantum = 3\nrounds = 1\n")
        self.put("report", LETTER_REPORT)
        ran = self.tool("tools/run", "replay", path, "report")
        self.check_plain(ran, 6)
        self.check_said(ran, "guest a: status stopped -> running, steps 5 -> 3")
        self.put("report", LETTER_REPORT.replace(b"\nA", b"\nB"))
        ran = self.tool("tools/run", "replay", self.configure(), "report")
        self.check_said(ran, "guest a: console byte 0: 'B' -> 'A'")

    def test_words(self):
        one = b"guest a stopped steps 5 bytes 2\nAB\n"
        other = b"guest a stopped steps 5 bytes 1\nA\n"
        self.assertEqual(reports.differences(one, one), [])
        self.assertEqual(reports.differences(one, other),
                         ["guest a: bytes 2 -> 1, console byte 1: 'B' -> its end"])
        self.assertEqual(reports.differences(one + other, one), ["guests 2 -> 1"])
        self.assertEqual(reports.differences(one[:-1], one),
                         ["the stored report is not a whole report, and differs at byte 34"])
        for wrong in (b"", b"guest", one + b"\n"):
            self.assertIn("not a whole report", reports.differences(wrong, one)[0])
