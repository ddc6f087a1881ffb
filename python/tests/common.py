"""What the tests of the check have in common."""
import csv
import os
import pathlib
import sys
import tempfile
import unittest

import kfifo_test

# The folder of the package and of the examples, and that of the repository.
FOLDER = pathlib.Path(__file__).resolve().parent.parent
TOP = FOLDER.parent
# The faulty queues that the checks for C++, Rust and Python have in common, with the evidence that may be found.
SHARED = TOP / "c/tests/checker/faulty_queues.csv"
# What a check prints, which they have in common too.
REPORTS = TOP / "c/tests/checker/reports.txt"
# Parts of the logs of the gallery, and what is said of each.
GALLERY = TOP / "c/tests/checker/gallery"

# The kinds of evidence, as docs/JUDGE.md has them.
NOWHERE, OVERTAKEN = 1, 4
# How many seconds a check may take where other programs use the processors. On an idle machine it takes a fraction.
AT_MOST = 60
# The share of overlapping calls below which threads take turns on a processor, so that a race hardly ever shows.
HARDLY = 0.05
USUAL = 30 if "KFIFO_JUDGE_LONG" in os.environ else 2


def faults():
    """The kinds of evidence that may be found of each faulty queue of the shared table."""
    with SHARED.open() as table:
        return {row["queue"]: [int(kind) for kind in row["evidence"].split()] for row in csv.DictReader(table)}


def put_nowait(shared, item):
    return shared.put_nowait(item)


def get_nowait(shared):
    return shared.get_nowait()


def put(shared, item):
    return shared.put(item)


def get(shared):
    return shared.get()


def with_path():
    """The environment of a program that imports kfifo_test from another folder."""
    named = os.environ.get("KFIFO_JUDGE_LIBRARY")
    library = {"KFIFO_JUDGE_LIBRARY": os.path.abspath(named)} if named else {}
    return {**os.environ, "PYTHONPATH": str(FOLDER), **library}


class Checks(unittest.TestCase):
    """A folder for the files of failures."""

    def setUp(self):
        folder = tempfile.TemporaryDirectory()
        self.addCleanup(folder.cleanup)
        self.folder = folder.name
        interval, tracer = sys.getswitchinterval(), sys.gettrace()
        self.addCleanup(lambda: self.assertEqual((sys.getswitchinterval(), sys.gettrace()), (interval, tracer)))

    def options(self, **options):
        return {"seconds": AT_MOST, "folder": self.folder, "quiet": True, **options}

    def finds(self, make, put, get, reasons, **options):
        """The check says that there is no order, by one of these kinds of evidence, and leaves its files."""
        report = kfifo_test.run_check(make, put, get, **self.options(**options))
        if report.passed and report.overlapping < HARDLY:
            self.skipTest("the calls of threads hardly overlap on this machine")
        self.assertEqual(report.outcome, "no order", report)
        self.assertIn(report.evidence, reasons, report)
        verdict = kfifo_test.judge_text(pathlib.Path(report.log).read_text())
        found = (report.text, report.headline, report.evidence, report.evidence_name, report.named)
        said = (verdict.text, verdict.headline, verdict.evidence, verdict.evidence_name, verdict.named)
        self.assertEqual(said, found)
        self.assertIn(f"no legal order: {report.headline}\n", str(report))
        self.assertIn("<svg", pathlib.Path(report.picture).read_text())
        return report

    def passes(self, make, put, get, **options):
        """The check passes, and has tried something. It goes on longer where the machine was too busy for that."""
        report = self.run_right(make, put, get, seconds=USUAL, **options)
        if report.rounds <= 10 or report.taken <= 500:
            report = self.run_right(make, put, get, rounds=50, **options)
        self.assertGreater(report.rounds, 10, report)
        self.assertGreater(report.taken, 500, report)
        return report

    def run_right(self, make, put, get, **options):
        report = kfifo_test.run_check(make, put, get, **self.options(**options))
        self.assertTrue(report.passed, report)
        self.assertEqual(report.undecided, 0, report)
        return report
