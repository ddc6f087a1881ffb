"""Logs and rounds that other threads, processes or machines judge."""
import concurrent.futures
import contextlib
import multiprocessing
import os
import pathlib
import queue
import subprocess
import sys
import threading
import warnings
from unittest import mock

import kfifo_test
from kfifo_test import Call

from .common import FOLDER, Checks, faults, get_nowait, put_nowait, with_path


@contextlib.contextmanager
def cluster():
    """A client of a cluster whose workers are threads here, or None where Debian's package is not there."""
    with warnings.catch_warnings():
        warnings.simplefilter("ignore")  # those of the package
        try:
            from distributed import Client, LocalCluster
        except ImportError:
            print("skipped: a cluster, since this Python has no python3-distributed", file=sys.stderr)
            yield None
            return
        workers = {"n_workers": 2, "threads_per_worker": 1, "processes": False}
        with LocalCluster(protocol="tcp://", dashboard_address=None, **workers) as machines:
            with Client(machines) as client:
                yield client


class ManyLogs(Checks):
    """Logs and rounds that other threads, processes or machines judge."""

    def executors(self):
        """An executor of threads, one of processes, and that of a cluster where there is one."""
        with concurrent.futures.ThreadPoolExecutor(2) as threads:
            yield "threads", threads
        context = multiprocessing.get_context("spawn")
        with mock.patch.dict(os.environ, with_path()):
            with concurrent.futures.ProcessPoolExecutor(2, mp_context=context) as processes:
                yield "processes", processes
        with cluster() as client:
            if client:
                yield "a cluster", client.get_executor()

    def logs(self):
        """Forty files: every fourth has no order, and one is none."""
        legal = [Call(0, "put", 1, 10, 15, "done"), Call(1, "get", 1, 20, 25, "got")]
        wrong = [Call(0, "put", 1, 10, 15, "done"), Call(1, "get", 0, 20, 25, "empty")]
        paths = [pathlib.Path(self.folder) / f"{number:02}.csv" for number in range(40)]
        for number, path in enumerate(paths):
            path.write_text(kfifo_test.csv(wrong if number % 4 == 0 else legal))
        paths[3].write_text("no log\n")
        return paths

    def check_logs(self, judged, paths):
        self.assertEqual([it.path for it in judged], [str(path) for path in paths])
        for number, it in enumerate(judged):
            if number == 3:
                self.assertIsNone(it.verdict)
                self.assertIn("line 1 does not have the fields of the header", it.fault)
            else:
                wanted = ("no order", 3) if number % 4 == 0 else ("legal", 0)
                self.assertEqual((it.verdict.status, it.verdict.evidence, it.fault), (*wanted, ""))

    def test_logs_are_judged_by_any_executor(self):
        paths = self.logs()
        self.check_logs(list(kfifo_test.judge_logs(paths)), paths)
        for name, executor in self.executors():
            with self.subTest(name):
                self.check_logs(list(kfifo_test.judge_logs(paths, executor)), paths)
        with self.assertRaises(ValueError):
            kfifo_test.judge_logs(paths, k=65)

    def check_campaign(self, *words):
        ran = subprocess.run([sys.executable, *words], env=with_path(), capture_output=True, text=True)
        self.assertEqual((ran.returncode, ran.stderr), (0, ""))
        lines = ran.stdout.splitlines()
        self.assertEqual(len(lines), 11, ran.stdout)
        headline = "a get found nothing, while the queue held item 1"
        self.assertEqual(sum(line.endswith(f".csv: {headline}") for line in lines), 10)

    def test_the_campaign_prints_what_is_not_legal(self):
        self.logs()
        words = [str(FOLDER / "campaign.py"), self.folder]
        self.check_campaign("-W", "error", *words)
        with cluster() as client:
            if client:
                self.check_campaign("-W", "ignore", *words, client.scheduler.address)

    def test_rounds_are_judged_by_any_executor(self):
        for name, executor in self.executors():
            with self.subTest(name):
                report = self.run_right(queue.Queue, put_nowait, get_nowait, rounds=30, executor=executor)
                self.assertEqual(report.rounds, 30)
                self.finds(queue.LifoQueue, put_nowait, get_nowait, faults()["lifo"], executor=executor)

    def test_a_round_that_was_judged_late_is_named(self):
        held = []

        class Late(concurrent.futures.Executor):
            """Judges a round when five more wait."""

            def submit(self, function, *arguments):
                held.append((concurrent.futures.Future(), function, arguments))
                if len(held) > 5:
                    self.work(held.pop(0))
                return held[-1][0]

            @staticmethod
            def work(task):
                task[0].set_result(task[1](*task[2]))

        def fail_later(shared, item):
            if len(held) >= 4:
                raise KeyError("no such slot")
            shared.put_nowait(item)

        late = Late()
        timer = threading.Timer(0.5, lambda: [late.work(task) for task in held])
        timer.start()
        options = self.options(executor=late, bytecode_switches=False)
        report = kfifo_test.run_check(queue.LifoQueue, fail_later, get_nowait, **options)
        timer.join()
        self.assertEqual(report.outcome, "no order", report)
        self.assertRegex(report.failed_round, r"^round [1-4]: ")
