"""What the pages say is so: the options of the checks, the headlines of the gallery, and the examples."""
import dataclasses
import doctest
import importlib
import pkgutil
import re
import subprocess
import sys
import unittest

import kfifo_test

from .common import FOLDER, GALLERY, TOP


class Agreement(unittest.TestCase):
    """The options of the checks for C++, Rust and Python are those of the table in docs/JUDGE.md."""

    def setUp(self):
        if not (TOP / "docs/JUDGE.md").exists():
            self.skipTest("the page of the judge is not here")

    def text(self, path):
        return (TOP / path).read_text()

    def options_in(self, path, begin, pattern):
        """The names and defaults of the options in a part of a source that begins so and ends at a closing brace."""
        part = self.text(path).partition(begin)[2].partition("\n}")[0].partition("\n        }\n")[0]
        return dict(re.findall(pattern, part))

    def test_the_page_has_the_options_that_they_share(self):
        begin = "struct CheckOptions {"
        cpp = self.options_in("c/include/kfifo_test/interface.hpp", begin, r"(?m)^    [\w:<>]+ (\w+) = ([^;]+);")
        begin = "fn default() -> Options {"
        rust = self.options_in("rust/src/judge/options.rs", begin, r"(?m)^            (\w+): (.+),$")
        python = {it.name: repr(it.default).replace("'", '"') for it in dataclasses.fields(kfifo_test.Options)}
        python["tries"] = python["tries"].replace(str(kfifo_test.TRIES), "TRIES")
        rows = re.findall(r"(?m)^\| `(\w+)` \| `(.+?)` \| `(.+?)` \| `(.+?)` \|", self.text("docs/JUDGE.md"))
        self.assertGreaterEqual(len(rows), 12)
        rust = {name: value.replace('String::from("queue")', '"queue"') for name, value in rust.items()}
        for name, *defaults in rows:
            with self.subTest(name):
                self.assertEqual([it.get(name) for it in (cpp, rust, python)], defaults)
        shared = {name for name in [*cpp, *rust, *python] if sum(name in it for it in (cpp, rust, python)) > 1}
        self.assertEqual(shared, {name for name, *_ in rows})

    def test_a_search_has_as_many_tries_in_each(self):
        for path, pattern in (
            ("c/include/kfifo_judge.h", r"#define KFIFO_JUDGE_TRIES UINT64_C\((\d+)\)"),
            ("rust/src/judge/verdict.rs", r"pub const TRIES: u64 = ([\d_]+);"),
        ):
            with self.subTest(path):
                self.assertEqual(int(re.search(pattern, self.text(path))[1]), kfifo_test.TRIES)
        self.assertIn(f"{kfifo_test.TRIES:,}", self.text("docs/JUDGE.md"))


class Gallery(unittest.TestCase):
    def test_the_faults_of_the_gallery_have_the_headlines_of_its_page(self):
        page = (TOP / "docs/GALLERY.md").read_text().replace("\n", " ")
        rows = [line.split(",", 2) for line in (GALLERY / "headlines.csv").read_text().splitlines()[1:]]
        self.assertGreaterEqual(len(rows), 2)
        for log, evidence, headline in rows:
            with self.subTest(log):
                verdict = kfifo_test.judge_text((GALLERY / log).read_text())
                self.assertEqual((verdict.evidence, verdict.headline), (int(evidence), headline))
                self.assertIn(f"`{headline}`", page)


class Examples(unittest.TestCase):
    def test_the_examples_in_the_docs(self):
        names = [it.name for it in pkgutil.iter_modules(kfifo_test.__path__)]
        ran = [doctest.testmod(importlib.import_module(f"kfifo_test.{name}")) for name in names]
        self.assertGreater(sum(it.attempted for it in ran), 0)
        self.assertEqual(sum(it.failed for it in ran), 0)

    def test_the_example_passes_and_a_stack_fails(self):
        words = [sys.executable, "-W", "error", str(FOLDER / "example.py")]
        right = subprocess.run(words, cwd=FOLDER, capture_output=True, text=True)
        self.assertEqual(right.returncode, 0, right.stderr)
        self.assertIn("no fault found", right.stdout)
        wrong = subprocess.run([*words, "broken"], cwd=FOLDER, capture_output=True, text=True)
        self.assertEqual(wrong.returncode, 1)
        self.assertRegex(wrong.stderr, r"item \d+ came out, and item \d+, which went in before, had not")
