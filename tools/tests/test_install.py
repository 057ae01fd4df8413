"""Tests of tools/install, of the man pages and completion, and of the packages of dist/package, which are
installed in a root of their own, with busybox and the libraries that they name, and run there."""
import glob
import os
import re
import shutil
import subprocess
import tarfile
import tempfile
import unittest
import unittest.mock

from helper import LETTER_REPORT, TOP, ToolTest
from nesthv_tools import layout, places, versions

DOCS = os.path.join(TOP, "docs")
BUSYBOX = shutil.which("busybox")
FIRST = os.path.join(places.DOCUMENTS, "examples", "first")
PYTHON = "/usr/bin/python3.11"
# Modules of Python that no tool needs.
UNNEEDED = shutil.ignore_patterns(
    "test", "tests", "idlelib", "lib2to3", "distutils", "ensurepip", "pydoc_data", "config-*", "__pycache__",
    "asyncio", "tkinter", "turtledemo", "unittest")


def lines_of(path):
    with open(path, encoding="utf-8") as file:
        return file.read().splitlines()


class InstallTest(ToolTest):
    def found(self, prefix):
        return sorted(os.path.relpath(os.path.join(folder, name), prefix)
                      for folder, _, names in os.walk(prefix) for name in names)

    def test_install_and_uninstall(self):
        prefix = os.path.join(self.folder, "prefix")
        self.check_plain(self.tool("tools/install", "--uninstall", prefix), 1)
        self.put("prefix/bin/own", b"")
        self.check_plain(self.tool("tools/install", prefix), 0)
        found = self.found(prefix)
        self.check_plain(self.tool("tools/install", prefix), 0)
        self.assertEqual(self.found(prefix), found)
        for command in layout.PROGRAMS:
            self.assertIn(f"bin/{command}", found)
        for command in layout.COMMANDS.values():
            self.assertIn(f"bin/{command}", found)
            self.assertIn(f"share/man/man1/{command}.1", found)
        path = self.configure()
        for words, output in ((["nesthv-run", path], LETTER_REPORT),
                              (["nesthv-run", "a.bin"], LETTER_REPORT),
                              (["nesthv-debug", "--print", path], b"gdb-multiarch -x ")):
            ran = self.tool(os.path.join(prefix, "bin", words[0]), *words[1:], variables={"NESTHV": ""})
            self.check_plain(ran, 0)
            self.assertTrue(ran.stdout.startswith(output), ran.stdout)
        ran = self.tool(os.path.join(prefix, "bin", "nesthv-run"), "--version", variables={"NESTHV": ""})
        self.assertEqual(ran.stdout, self.tool("tools/run", "--version", variables={"NESTHV": ""}).stdout)
        with open(os.path.join(prefix, layout.MANIFEST), "a", encoding="utf-8") as file:
            file.write("../a.bin\n/etc/hosts\n")
        self.check_plain(self.tool("tools/install", "--uninstall", prefix), 0)
        self.assertEqual(self.found(prefix), ["bin/own"])
        self.assertEqual(sorted(os.listdir(prefix)), ["bin"])
        self.assertTrue(os.path.exists(os.path.join(self.folder, "a.bin")))

    def test_files_of_others(self):
        """What no install has written stays, and nothing is installed then."""
        prefix = os.path.join(self.folder, "prefix")
        self.put("prefix/bin/nesthv-run", b"own")
        ran = self.tool("tools/install", prefix)
        self.check_plain(ran, 1)
        self.check_said(ran, f"{prefix}/bin/nesthv-run is there, and is not of an install of nesthv")
        self.assertEqual(self.found(prefix), ["bin/nesthv-run"])
        os.remove(os.path.join(prefix, "bin/nesthv-run"))
        shutil.copy(os.path.join(TOP, "dist", "nesthv"), self.put("prefix/bin/nesthv", b""))
        self.check_plain(self.tool("tools/install", prefix), 0)

    def test_examples(self):
        """An example is found by its name, as in the repository."""
        prefix = os.path.join(self.folder, "prefix")
        self.check_plain(self.tool("tools/install", prefix), 0)
        options = {"variables": {"NESTHV": ""}}
        ran = self.tool(os.path.join(prefix, "bin", "nesthv-run"), "first", **options)
        self.assertEqual((ran.returncode, ran.stdout), (0, LETTER_REPORT), ran.lines)
        ran = self.tool(os.path.join(prefix, "bin", "nesthv-look"), "first", "at", "5", "--cache", self.folder, **options)
        self.assertEqual((ran.returncode, ran.stdout[:7]), (0, b"a at st"), ran.lines)
        ran = self.tool(os.path.join(prefix, "bin", "nesthv-debug"), "--print", "first", **options)
        self.check_plain(ran, 0)
        if shutil.which("riscv64-linux-gnu-gcc"):
            source = os.path.join(prefix, places.DOCUMENTS, "examples", "c", "main.c")
            self.check_plain(self.tool(os.path.join(prefix, "bin", "nesthv-build"), source, **options), 0)
            ran = self.tool(os.path.join(prefix, "bin", "nesthv-run"), "main.elf", **options)
            self.assertIn(b"cbf43926", ran.stdout)

    def test_files_that_are_installed_no_more(self):
        prefix = os.path.join(self.folder, "prefix")
        self.put("prefix/lib/nesthv/tools/old.py", b"")
        self.put(f"prefix/{layout.MANIFEST}", "lib/nesthv/tools/old.py\n")
        self.check_plain(self.tool("tools/install", prefix), 0)
        self.assertNotIn("lib/nesthv/tools/old.py", self.found(prefix))

    def test_version(self):
        ran = self.tool("tools/run", "--version", variables={"NESTHV": ""})
        self.check_plain(ran, 0)
        made = lines_of(os.path.join(TOP, "dist", "MADE"))
        self.assertEqual(ran.stdout.decode().splitlines(), [
            f"nesthv {versions.first_version()[0]}",
            *(line for line in made if line.split()[0] in ("commit", "kit")),
            f"sha256 {lines_of(os.path.join(TOP, 'dist', 'nesthv.sha256'))[0].split()[0]}"])
        other = self.put("other", b"#!/bin/sh\n")
        os.chmod(other, 0o755)
        told = self.tool("tools/run", "--version", "--program", other)
        self.assertIn("commit unknown", told.stdout.decode())
        for tool in layout.TOOLS:
            told = self.tool(f"tools/{tool}", "--version", variables={"NESTHV": ""})
            self.check_plain(told, 0)
            self.assertEqual(told.stdout, ran.stdout, tool)
        ran = self.tool("tools/look", "--version", variables={"NESTHV": "/none"})
        self.check_plain(ran, 2)
        self.check_said(ran, "/none is not a program: there is no such file")


class PagesTest(ToolTest):
    def test_each_command_has_a_page_of_this_version(self):
        version, date = versions.first_version()
        pages = {os.path.splitext(os.path.basename(path))[0]: path for path in layout.pages()}
        self.assertEqual(sorted(pages), sorted([*layout.PROGRAMS, *layout.COMMANDS.values()]))
        for name, path in pages.items():
            form = r'\.TH (\S+) 1 "(\d{4}-\d\d-\d\d)" "nesthv (\S+)" "User Commands"$'
            found = re.match(form, lines_of(path)[0])
            self.assertEqual((found[1], found[3]), (name.upper(), version), path)
            self.assertIn(date, ("", found[2]), path)

    def test_pages_have_each_option(self):
        for tool, command in layout.COMMANDS.items():
            with open(os.path.join(DOCS, f"{command}.1"), encoding="utf-8") as file:
                page = file.read().replace("\\-", "-")
            for option in options_of(self, tool):
                self.assertIn(option, page, command)

    @unittest.skipUnless(shutil.which("groff"), "groff is not installed")
    def test_groff_finds_nothing(self):
        ran = subprocess.run(["groff", "-man", "-ww", "-Tutf8", "-z", *layout.pages()], capture_output=True,
                             text=True)
        self.assertEqual((ran.returncode, ran.stderr), (0, ""))


def options_of(test, tool):
    """The options of a tool, but --help."""
    said = test.tool(f"tools/{tool}", "--help").stdout.decode()
    return sorted(set(re.findall(r"^  (--[a-z-]+)", said, re.M)))


class CompletionTest(ToolTest):
    def test_each_shell_has_each_option(self):
        texts = {shell: "\n".join(lines_of(os.path.join(TOP, "tools", f"completion.{shell}")))
                 for shell in ("zsh", "fish")}
        script = [f"compopt() {{ :; }}; source {TOP}/tools/completion.bash"]
        for tool, command in layout.COMMANDS.items():
            for option in options_of(self, tool):
                self.assertRegex(texts["zsh"], rf"'{option}\[")
                self.assertIn(f"complete -c {command} -l {option[2:]} ", texts["fish"])
                function = f"_nesthv_{tool.replace('-', '_')}"
                script += [f"{function} x {option} x",
                           f'[[ " ${{COMPREPLY[*]}} " == *" {option} "* ]] || echo {command} {option}']
        ran = self.tool(shutil.which("bash"), "-c", "\n".join(script))
        self.assertEqual((ran.stdout, ran.lines), (b"", []))

    def test_shells_can_read_them(self):
        for shell in ("bash", "zsh", "fish"):
            if shutil.which(shell):
                ran = subprocess.run([shell, "-n", os.path.join(TOP, "tools", f"completion.{shell}")],
                                     capture_output=True, text=True)
                self.assertEqual((ran.returncode, ran.stderr), (0, ""), shell)


def libraries_of(program):
    """The files that the loader needs for a program."""
    said = subprocess.run(["ldd", program], capture_output=True, text=True).stdout
    return re.findall(r"(/\S+)(?= \(0x)", said)


class PackageTest(ToolTest):
    """The two packages, which are made once."""

    @classmethod
    def setUpClass(cls):
        cls.made = cls.enterClassContext(tempfile.TemporaryDirectory())

    def setUp(self):
        super().setUp()
        self.packed = os.path.join(self.made, "packed")
        if not os.path.isdir(self.packed):
            self.check_plain(self.pack(self.packed), 0)
        self.deb, self.tar = (glob.glob(os.path.join(self.packed, form)) for form in ("*.deb", "*.tar.gz"))

    def pack(self, folder, **variables):
        return self.tool("dist/package", folder, variables={"NESTHV": "", **variables})

    def test_same_bytes_each_time(self):
        mask = os.umask(0o077)
        self.addCleanup(os.umask, mask)
        self.check_plain(self.pack("again", TZ="Asia/Tokyo", LC_ALL="C"), 0)
        for path in [*self.deb, *self.tar]:
            again = os.path.join(self.folder, "again", os.path.basename(path))
            self.assertTrue(layout.bytes_at(path) == layout.bytes_at(again), path)
        with tarfile.open(self.tar[0]) as tar:
            members = tar.getmembers()
        self.assertEqual({(each.mtime, each.uid, each.gid, each.uname) for each in members},
                         {(versions.seconds(), 0, 0, "root")})
        self.assertIn(os.path.join(members[0].name, "README.md"), [each.name for each in members])
        self.assertEqual({each.mode for each in members}, {0o755, 0o644, 0o777})
        self.assertEqual(os.path.basename(self.tar[0]), f"nesthv-{versions.version()}-x86_64-linux.tar.gz")

    def test_time(self):
        with unittest.mock.patch.dict(os.environ, {"SOURCE_DATE_EPOCH": "1700000000"}):
            self.assertEqual(versions.seconds(), 1700000000)

    def root(self):
        """A folder that has busybox, the C library, and Python, if Debian's is here."""
        root = os.path.join(self.folder, "root")
        python = [PYTHON] if os.path.exists(PYTHON) else []
        for path in {BUSYBOX, *python, *(library for program in [os.path.join(TOP, "dist", "nesthv"), *python]
                                         for library in libraries_of(program))}:
            os.makedirs(root + os.path.dirname(path), exist_ok=True)
            shutil.copy(os.path.realpath(path), root + path)
        if python:
            shutil.copytree("/usr/lib/python3.11", f"{root}/usr/lib/python3.11", ignore=UNNEEDED,
                            ignore_dangling_symlinks=True)
            os.makedirs(f"{root}/usr/bin", exist_ok=True)
            os.symlink("python3.11", f"{root}/usr/bin/python3")
            os.makedirs(f"{root}/bin", exist_ok=True)
            for folder in ("bin", "usr/bin"):
                if not os.path.lexists(f"{root}/{folder}/env"):
                    os.symlink(BUSYBOX, f"{root}/{folder}/env")
        os.makedirs(f"{root}/tmp", exist_ok=True)
        return root

    def check_run(self, root, folder, first):
        """Runs the program, and with Python the tools, in a root."""
        for command in ("nesthv run first.toml", *(["nesthv-run first.toml", "nesthv-run --verdict first"] *
                                                   os.path.exists(f"{root}{PYTHON}"))):
            script = f"cd {first} && exec {folder}/bin/{command}"
            ran = self.tool(shutil.which("chroot"), root, BUSYBOX, "sh", "-c", script,
                            variables={"NESTHV": "", "PATH": "/bin:/usr/bin", "PYTHONPYCACHEPREFIX": ""})
            self.check_plain(ran, 0)
            self.assertEqual(ran.stdout, LETTER_REPORT)

    def check_unpacked(self, folder):
        """Runs what is unpacked, where no other root can be made."""
        for command in (["bin/nesthv", "run"], ["bin/nesthv-run"]):
            ran = self.tool(os.path.join(folder, command[0]), *command[1:], "first.toml",
                            variables={"NESTHV": ""}, cwd=os.path.join(folder, FIRST))
            self.check_plain(ran, 0)
            self.assertEqual(ran.stdout, LETTER_REPORT)

    def test_tar(self):
        name = os.path.basename(self.tar[0]).removesuffix(".tar.gz")
        can_change_root = BUSYBOX and os.geteuid() == 0
        root = self.root() if can_change_root else self.folder
        os.makedirs(f"{root}/opt", exist_ok=True)
        form = {"filter": "tar"} if hasattr(tarfile, "tar_filter") else {}  # Python 3.11.2 has no filters
        with tarfile.open(self.tar[0]) as tar:
            tar.extractall(f"{root}/opt", **form)
        self.check_unpacked(f"{root}/opt/{name}")
        if can_change_root:
            self.check_run(root, f"/opt/{name}", f"/opt/{name}/{FIRST}")

    def check_files_of_debian(self):
        """The manual and the changes are compressed, zsh finds its completion, and there is a word on the licence."""
        listed = subprocess.run(["dpkg-deb", "--contents", self.deb[0]], capture_output=True, text=True).stdout
        for path in ("man/man1/nesthv.1.gz", "zsh/vendor-completions/_nesthv", "doc/nesthv/copyright",
                     "doc/nesthv/changelog.gz"):
            self.assertIn(f" ./usr/share/{path}\n", listed)
        self.assertNotIn("site-functions", listed)

    @unittest.skipUnless(shutil.which("dpkg-deb"), "dpkg-deb is not installed")
    def test_deb(self):
        fields = subprocess.run(["dpkg-deb", "--field", self.deb[0]], capture_output=True, text=True).stdout
        self.assertIn(f"Package: nesthv\nVersion: {versions.version()}\n", fields)
        words = ["git", "log", "--format=%an <%ae>"]
        authors = subprocess.run(words, cwd=TOP, capture_output=True, text=True).stdout.splitlines()
        self.assertIn(re.search("^Maintainer: (.*)$", fields, re.M)[1], authors)
        if not (BUSYBOX and os.geteuid() == 0 and shutil.which("dpkg")):
            subprocess.run(["dpkg-deb", "-x", self.deb[0], os.path.join(self.folder, "x")], check=True)
            self.check_unpacked(os.path.join(self.folder, "x", "usr"))
            return
        self.check_files_of_debian()
        root = self.root()
        for folder in ("info", "updates", "triggers"):
            os.makedirs(f"{root}/var/lib/dpkg/{folder}")
        self.put("root/var/lib/dpkg/status", b"")
        words = ["dpkg", f"--root={root}", "--force-depends", "--force-not-root", "-i", self.deb[0]]
        ran = self.tool(shutil.which("dpkg"), *words[1:])
        self.check_plain(ran, 0)
        self.check_run(root, "/usr", f"/usr/{FIRST}")
        self.check_plain(self.tool(shutil.which("dpkg"), f"--root={root}", "-r", "nesthv"), 0)
        self.assertFalse(os.path.lexists(f"{root}/usr/bin/nesthv"))
        self.assertFalse(os.path.lexists(f"{root}/usr/lib/nesthv"))
