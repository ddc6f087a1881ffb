"""What a check prints, beside the reports that the tests in C++ and Rust share."""
import itertools
import os
import pathlib
import queue
import re
import subprocess
import sys
import threading
from unittest import mock

import kfifo_test
from kfifo_test import Verdict

from .common import REPORTS, Checks, get_nowait, put_nowait, with_path

UNDECIDED = Verdict("undecided", "undecided for k = 1\nthe tries ran out after 7 tries\n", tries=7)
LEGAL = Verdict("legal", "")


def wanted_reports():
    """The lines of each report of the table, by its name."""
    parts = re.split(r"^\[(.*)\]\n", REPORTS.read_text(), flags=re.M)[1:]
    return {name: text.strip().splitlines() for name, text in zip(parts[::2], parts[1::2])}


def is_text(wanted, text):
    """Whether a text is as wanted, where `*` is any text in a line, and a line `..` any number of lines."""
    lines = [r"(?:.*\n)*" if line == ".." else re.escape(line).replace(r"\*", ".*") + r"\n" for line in wanted]
    return re.fullmatch("".join(lines), text + "\n") is not None


class Reports(Checks):
    def check(self, make=queue.Queue, put=put_nowait, get=get_nowait, **options):
        return kfifo_test.run_check(make, put, get, **self.options(**{"rounds": 3, **options}))

    def judged(self, *found, **options):
        """The report of a check whose rounds have these verdicts, each with the bounds of the least k."""
        with mock.patch("kfifo_test._check.judge_round", side_effect=itertools.cycle(found)):
            return self.check(**options)

    def few_overlapping(self):
        report = self.check()
        report.overlapping = 0.01
        return report

    def relaxed(self, *most):
        """The report of a check for k = 4 whose rounds have the least k 2 at least, and these at most."""
        return self.judged(*((LEGAL, kfifo_test.Least(2, it, "")) for it in most), k=4)

    def no_order(self, **options):
        return self.check(queue.LifoQueue, rounds=None, **options)

    def not_written(self):
        blocked = pathlib.Path(self.folder) / "file"
        blocked.write_text("")
        return self.no_order(folder=str(blocked))

    def hang(self):
        gate = threading.Event()
        self.addCleanup(gate.set)
        return self.check(put=lambda shared, item: gate.wait(), hang_seconds=0.05)

    def hang_after_a_round(self):
        """A round of two calls, of which the queue never ends the third get. It is in the get that empties the queue,
        except where one thread puts and the other gets nothing."""
        gate = threading.Event()
        self.addCleanup(gate.set)

        def check():
            gets = itertools.count()

            def get(shared):
                if next(gets) == 2:
                    gate.wait()
                return shared.get_nowait()

            return self.check(get=get, threads=2, calls=1, rounds=1, hang_seconds=0.05)

        reports = (check() for _ in range(100))
        return next(report for report in reports if report.outcome == "hang")

    def failed_call(self):
        def fail(shared):
            raise KeyError("no such slot")

        return self.check(get=fail)

    def fault(self):
        fault = kfifo_test.Fault("line 3 has an answer that no call of this kind has", 5, 3)
        with mock.patch("kfifo_test._check.judge_round", side_effect=fault):
            return self.check()

    # A check for each report of the table but that of progress.
    CASES = {
        "passed": check,
        "few overlapping": few_overlapping,
        "least k": lambda self: self.relaxed(2, 3),
        "least k unknown": lambda self: self.relaxed(2, None),
        "no order": no_order,
        "not written": not_written,
        "undecided": lambda self: self.judged((UNDECIDED, None), undecided_fails=True),
        "none decided": lambda self: self.judged((UNDECIDED, None)),
        "nothing taken": lambda self: self.check(list, lambda shared, item: False, lambda shared: None),
        "hang": hang,
        "hang after a round": hang_after_a_round,
        "failed call": failed_call,
        "fault": fault,
    }

    def test_the_reports_are_those_of_the_shared_table(self):
        wanted = wanted_reports()
        self.assertEqual(sorted(wanted), sorted([*self.CASES, "progress"]))
        for name, check in self.CASES.items():
            with self.subTest(name):
                text = str(check(self))
                self.assertTrue(is_text(wanted[name], text), text)

    def test_the_progress_is_that_of_the_shared_table(self):
        program = "\n".join([
            "import queue, kfifo_test",
            "kfifo_test.check(queue.Queue, lambda q, x: q.put_nowait(x), lambda q: q.get_nowait(), seconds=2)",
        ])  # fmt: skip
        own, of_program = os.openpty()
        words = [sys.executable, "-W", "error", "-c", program]
        ran = subprocess.run(words, env=with_path(), stdout=subprocess.DEVNULL, stderr=of_program)
        os.close(of_program)
        said = b""
        try:
            while part := os.read(own, 65536):
                said += part
        except OSError:
            pass  # nobody has the other end any more
        os.close(own)
        lines = said.decode().split("\r\033[K")
        self.assertEqual((ran.returncode, lines[0], lines[-1]), (0, "", ""), said)
        self.assertGreater(len(lines), 2, said)
        for line in lines[1:-1]:
            self.assertTrue(is_text(wanted_reports()["progress"], line), line)
