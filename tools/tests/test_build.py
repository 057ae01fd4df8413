"""Tests of examples/build: sources of one's own. They need the GNU tools for RISC-V."""
import os
import shutil
import struct

from helper import LETTER, ToolTest

PUT = "li a7, 1\nli a0, {}\necall\n"
STOP = "li a7, 8\necall\n"


class FlagTest(ToolTest):
    """What tools/build refuses, which needs no compiler."""

    def test_bad_words(self):
        self.put("a.s", STOP)
        for words, said in ((["-march=rv64gc", "a.s"], "-march=rv64gc has floating point and compressed instructions, "
                             "which a guest does not have"),
                            (["-march=rv64imac_zba", "a.s"], "compressed instructions and the extension zba"),
                            (["-march=rv32ima", "a.s"], "another width than 64 bits"),
                            (["-mabi=lp64d", "a.s"], "-mabi=lp64d is not the ABI of a guest"),
                            (["none.s"], "none.s: there is no such file"), (["a"], "a is not a source"),
                            (["-o", "out", "a.s"], "-o out does not end in .elf")):
            ran = self.tool("tools/build", *words)
            self.check_plain(ran, 2)
            self.check_said(ran, said)
        ran = self.tool("tools/build", "a.s", variables={"CROSS": "none-"})
        self.check_plain(ran, 2)
        self.check_said(ran, "there is no none-gcc (apt-get install gcc-riscv64-linux-gnu)")
        self.assertEqual(os.listdir(self.folder).count("a.elf"), 0)


class BuildTest(ToolTest):
    def setUp(self):
        super().setUp()
        if not shutil.which("riscv64-linux-gnu-gcc"):
            self.skipTest("riscv64-linux-gnu-gcc is not installed")

    def built(self, *words, image="a.bin"):
        ran = self.tool("examples/build", *words)
        self.check_plain(ran, 0)
        with open(os.path.join(self.folder, image), "rb") as file:
            return file.read()

    def report(self, image):
        return self.tool("tools/run", self.configure(image=f'"{image}"',
                                                     front="format = 1\nquantum = 9999\nrounds = 1\n"))

    def test_assembly(self):
        self.put("a.s", PUT.format(65) + STOP)
        self.assertEqual(self.built("a.s"), LETTER)
        self.assertTrue(os.path.isfile(os.path.join(self.folder, "a.elf")))

    def test_folder_of_the_user(self):
        """tools/build writes into the folder where one is, with the lines of the sources."""
        self.put("deep er/b.s", PUT.format(65) + STOP)
        self.check_plain(self.tool("tools/build", "-march=rv64ima", "deep er/b.s"), 0)
        with open(os.path.join(self.folder, "b.bin"), "rb") as file:
            self.assertEqual(file.read(), LETTER)
        with open(os.path.join(self.folder, "b.elf"), "rb") as file:
            self.assertIn(b".debug_line", file.read())
        self.put("c.s", "none\n")
        self.check_plain(self.tool("tools/build", "c.s"), 1)
        self.assertFalse(os.path.exists(os.path.join(self.folder, "c.elf")))

    def test_files_beside_the_source(self):
        self.put("deep er/a.s", '.include "part.s"\nli a7, 8\necall\n.incbin "data"\n')
        self.put("deep er/part.s", PUT.format(65))
        self.put("deep er/data", "data")
        self.assertEqual(self.built("deep er/a.s", image="deep er/a.bin"), LETTER + b"data")

    def test_preprocessor_and_flags(self):
        self.put("a.S", "#include \"part.h\"\n" + PUT.format("LETTER") + STOP)
        self.put("part.h", "#ifdef IS_A\n#define LETTER 65\n#else\n#define LETTER 66\n#endif\n")
        self.assertEqual(self.built("-DIS_A=1", "a.S"), LETTER)
        self.assertEqual(self.built("a.S"), LETTER[:4] + struct.pack("<I", 0x04200513) + LETTER[8:])

    def test_several_sources(self):
        self.put("a.s", "tail second\n")
        self.put("b.s", ".globl second\nsecond:\n" + PUT.format(65) + STOP)
        self.built("-o", "out.bin", "a.s", "b.s", image="out.bin")
        self.assertIn(b"stopped steps", self.report("out.bin").stdout)
        self.put("a.c", "long second(void);\nint main(void) { second(); return 0; }\n")
        self.put("b.s", ".globl second\nsecond:\n" + PUT.format(65) + "ret\n")
        self.built("-O1", "-o", "out.bin", "a.c", "b.s", image="out.bin")
        ran = self.report("out.bin")
        self.assertRegex(ran.stdout, rb"^guest a stopped steps \d+ bytes 1\nA\n$")

    def test_bad_words(self):
        self.put("a.s", STOP)
        for words in (["none.s"], ["none"], ["-o"], ["-o", "out.bin"], ["-o", "out", "a.s"],
                      ["-o", "out.bin", "first"]):
            ran = self.tool("examples/build", *words)
            self.check_plain(ran, 2)
            self.assertEqual(len(ran.lines), 1, ran.lines)
        self.assertIn(b"Usage: examples/build", self.tool("examples/build", "--help").stdout)
