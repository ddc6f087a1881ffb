"""A call that does not return is named, and ended where that can be."""
import pathlib
import queue
import subprocess
import sys
import threading
import time
import traceback
from unittest import mock

import kfifo_test
from kfifo_test import _hangs, _tracing
from kfifo_test._workers import MAKING_CALLS

from .common import AT_MOST, Checks, get_nowait, put_nowait, with_path


def workers_left(wanted):
    """The names of the check's threads that have not ended: when they are as wanted, or after 10 seconds."""
    end = time.monotonic() + 10
    while True:
        left = sorted(it.name for it in threading.enumerate() if it.name.startswith("kfifo-"))
        if wanted(left) or time.monotonic() >= end:
            return left
        time.sleep(0.01)


class Hangs(Checks):
    def test_a_call_that_spins_is_named_and_ended(self):
        def spin(shared):
            # Without the queue's lock: a thread that is ended while it takes the lock may leave it locked for another.
            while not shared.queue:
                pass
            return shared.get_nowait()

        options = self.options(hang_seconds=0.1)
        report = kfifo_test.run_check(queue.Queue, lambda shared, item: None, spin, **options)
        self.assertEqual(report.outcome, "hang", report)
        self.assertRegex(report.text, r"thread \d was in a get, call \d+ of its own, for .*\n  File .* in spin\n")
        self.assertRegex(pathlib.Path(report.log).read_text(), r"(?m)^\d,deq,,\d+,,$")
        self.assertEqual(workers_left(lambda left: not left), [])

    def test_a_call_that_gives_way_is_named(self):
        frames = []

        class Dice:
            def random(self):
                frames.append(sys._getframe(1))  # that of the tracer, which asks
                return 1.0

        def spin():
            return len(frames)

        old = sys.gettrace()
        sys.settrace(_tracing.tracer(Dice()))
        try:
            spin()
        finally:
            sys.settrace(old)
        self.assertTrue(_tracing.is_tracing(traceback.extract_stack(frames[0])[-1]))
        self.assertRegex("\n".join(_hangs.newest_frames(frames[0])), r"in spin\n.*len\(frames\)$")

    def test_a_call_that_sleeps_is_named(self):
        gate = threading.Event()
        self.addCleanup(gate.set)

        def sleep(shared, item):
            gate.wait()

        with self.assertRaises(AssertionError) as caught:
            kfifo_test.check(queue.Queue, sleep, get_nowait, **self.options(hang_seconds=0.05))
        self.assertIn("a call did not return", str(caught.exception))
        self.assertRegex(str(caught.exception), r"was in a put of item \d+, call \d+ of its own")

    def test_who_waits_for_a_call_that_sleeps_ends(self):
        gate = threading.Event()
        self.addCleanup(gate.set)
        # The last thread puts items before the others begin.
        with mock.patch("kfifo_test._designs.MIXES", ("half full",)):
            options = self.options(hang_seconds=0.05, threads=4)
            report = kfifo_test.run_check(queue.Queue, lambda shared, item: gate.wait(), get_nowait, **options)
        self.assertEqual(report.outcome, "hang", report)
        self.assertEqual(workers_left(lambda left: left == ["kfifo-3"]), ["kfifo-3"])
        gate.set()
        self.assertEqual(workers_left(lambda left: not left), [])

    def test_a_right_queue_passes_after_a_call_that_sleeps(self):
        gate = threading.Event()
        self.addCleanup(gate.set)
        options = self.options(hang_seconds=0.05)
        report = kfifo_test.run_check(queue.Queue, lambda shared, item: gate.wait(), get_nowait, **options)
        self.assertEqual(report.outcome, "hang", report)
        self.run_right(queue.Queue, put_nowait, get_nowait, rounds=60)  # of which a fifth is traced

    def test_a_traced_program_goes_on_after_a_call_that_sleeps(self):
        program = "\n".join([
            "import queue, sys, threading, kfifo_test",
            "sys.settrace(lambda frame, event, argument: None)",
            "sleep, get = lambda q, item: threading.Event().wait(), lambda q: q.get_nowait()",
            "print(kfifo_test.run_check(queue.Queue, sleep, get, hang_seconds=0.05, quiet=True).outcome)",
        ])  # fmt: skip
        words = [sys.executable, "-W", "error", "-c", program]
        ran = subprocess.run(words, cwd=self.folder, env=with_path(), capture_output=True, text=True, timeout=AT_MOST)
        self.assertEqual((ran.stdout, ran.stderr), ("hang\n", ""))

    def test_time_in_which_the_process_was_stopped_is_no_hang(self):
        lane = mock.Mock(number=0, phase=MAKING_CALLS, log=[])
        lane.processor_time.return_value = 0
        with mock.patch("time.monotonic") as clock:
            clock.return_value = 0
            watch = _hangs.Watch([lane], 0.5)
            for clock.return_value in (0.02, 100, 100.02, 200):
                self.assertFalse(watch.sees_hang())
            looks = 0
            while not watch.sees_hang():
                clock.return_value += 0.02
                looks += 1
        self.assertAlmostEqual(looks * 0.02, 5, delta=0.5)

    def test_a_slow_queue_does_not_hang(self):
        def slow(shared):
            time.sleep(0.02)
            return shared.get_nowait()

        options = self.options(hang_seconds=0.05, calls=50, threads=3, rounds=2)
        report = kfifo_test.run_check(queue.Queue, put_nowait, slow, **options)
        self.assertTrue(report.passed, report)
