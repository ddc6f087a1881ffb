"""Where the library of the judge is looked for."""
import os
import pathlib
import shutil
import subprocess
import sys
import tempfile
import unittest
from unittest import mock

import kfifo_test
from kfifo_test import _library

from .common import FOLDER


class Library(unittest.TestCase):
    def test_a_library_that_is_missing_is_named(self):
        _library.load.cache_clear()
        self.addCleanup(_library.load.cache_clear)
        with mock.patch.dict(os.environ, {"KFIFO_JUDGE_LIBRARY": "/nowhere/judge.so"}):
            with self.assertRaises(kfifo_test.LibraryMissing) as caught:
                kfifo_test.judge([])
        self.assertIn("KFIFO_JUDGE_LIBRARY", str(caught.exception))
        self.assertIn("/nowhere/judge.so", str(caught.exception))

    def test_a_copy_finds_the_library_beside_it(self):
        name = _library.load()._name
        if os.sep not in name:
            self.skipTest("the system finds the library, so there is none to put beside a copy")
        with tempfile.TemporaryDirectory() as made:
            folder = pathlib.Path(made).resolve()
            shutil.copytree(FOLDER / "kfifo_test", folder / "kfifo_test", ignore=shutil.ignore_patterns("__pycache__"))
            (folder / "libkfifo_judge.so").symlink_to(os.path.abspath(name))
            program = "from kfifo_test import _library, judge; print(judge([]).status, _library.load()._name)"
            words = [sys.executable, "-W", "error", "-B", "-c", program]
            others = {it: value for it, value in os.environ.items() if it not in ("KFIFO_JUDGE_LIBRARY", "PYTHONPATH")}
            ran = subprocess.run(words, cwd=folder, env=others, capture_output=True, text=True)
            self.assertEqual((ran.stdout, ran.stderr), (f"legal {folder}/libkfifo_judge.so\n", ""))
