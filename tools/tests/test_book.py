"""Tests of docs/book: each name resolves, what is used is read first, and docs/definitions.md counts the lines."""
import functools
import importlib.machinery
import importlib.util
import os
import re
import subprocess
import sys
import tempfile
import types
import unittest

TOP = os.path.join(os.path.dirname(os.path.abspath(__file__)), "..", "..")
PATH = os.path.join(TOP, "docs", "book")


@functools.cache
def book_module() -> types.ModuleType:
    """docs/book as a module."""
    sys.dont_write_bytecode, before = True, sys.dont_write_bytecode
    loader = importlib.machinery.SourceFileLoader("book_of_definitions", PATH)
    spec = importlib.util.spec_from_loader("book_of_definitions", loader)
    assert spec is not None
    module = importlib.util.module_from_spec(spec)
    sys.modules["book_of_definitions"] = module
    loader.exec_module(module)
    sys.dont_write_bytecode = before
    return module


@functools.cache
def made(name: str):
    return book_module().make(name)


@functools.cache
def document(name: str) -> str:
    return book_module().document_of(made(name))


class Books(unittest.TestCase):
    def test_each_name_means_something(self):
        for name in book_module().PAGES:
            with self.subTest(name):
                self.assertEqual(made(name).unknown, set())

    def test_what_is_used_is_read_first(self):
        for name in book_module().PAGES:
            with self.subTest(name):
                self.assertEqual(book_module().too_early(made(name)), [])

    def test_each_link_leads_to_a_definition_of_its_page(self):
        for name in book_module().PAGES:
            with self.subTest(name):
                page = document(name)
                anchors = re.findall(r' id="([^"]*)"', page)
                self.assertEqual(len(anchors), len(set(anchors)))
                self.assertEqual(set(re.findall(r'href="#([^"]*)"', page)) - set(anchors), set())

    def test_a_page_takes_nothing_from_elsewhere(self):
        for name in book_module().PAGES:
            self.assertIsNone(re.search(r'<script|<link|src=|href="[^#]|@import|url\(', document(name)), name)

    def test_the_headline_reaches_the_step_of_a_machine_and_the_table_of_instructions(self):
        for name in ("nesthv", "run"):
            keys = {item.key for item in made(name).items}
            self.assertLessEqual({"machine_defs.Runs.run", "machine_defs.Core.core"}, keys)
            self.assertIn("op_defs", {item.crate for item in made(name).items})

    def test_a_run_of_fresh_guests_rests_on_no_saved_machine(self):
        crates = {item.crate for item in made("run").items}
        self.assertNotIn("guest_save", crates)
        self.assertNotIn("work_images", crates)
        self.assertIn("guest_save", {item.crate for item in made("nesthv").items})

    def test_the_definitions_page_counts_the_lines(self):
        with open(os.path.join(TOP, "docs", "definitions.md"), encoding="utf-8") as file:
            text = file.read()
        self.assertIn(book_module().table_of(), text, "docs/book --write makes the table anew")

    def test_the_definitions_page_names_each_module(self):
        with open(os.path.join(TOP, "docs", "definitions.md"), encoding="utf-8") as file:
            words = set(re.findall(r"\w+", file.read()))
        for name in book_module().PAGES:
            self.assertEqual({item.module for item in made(name).items if not item.is_code} - words, set(), name)


class Command(unittest.TestCase):
    def ran(self, *words: str) -> subprocess.CompletedProcess:
        return subprocess.run([sys.executable, PATH, *words], stdout=subprocess.PIPE, stderr=subprocess.PIPE, text=True)

    def test_a_page_is_written_into_the_folder(self):
        with tempfile.TemporaryDirectory() as folder:
            ran = self.ran("--to", os.path.join(folder, "a", "b"), "read")
            self.assertEqual((ran.returncode, ran.stderr), (0, ""))
            self.assertEqual(os.listdir(os.path.join(folder, "a", "b")), ["read.html"])

    def test_a_page_that_is_not_there(self):
        ran = self.ran("nesthvv")
        self.assertEqual(ran.returncode, 2)
        self.assertIn("there is no page nesthvv", ran.stderr)

    def test_a_folder_that_cannot_be_written(self):
        ran = self.ran("--to", "/dev/null/x", "read")
        self.assertEqual(ran.returncode, 2)
        self.assertEqual(ran.stderr.count("\n"), 1)
        self.assertIn("/dev/null/x", ran.stderr)


if __name__ == "__main__":
    unittest.main()
