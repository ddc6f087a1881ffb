"""The check finds the fault of each faulty queue, and passes the right ones."""
import collections
import os
import pathlib
import queue
import threading

import kfifo_test

from .common import OVERTAKEN, Checks, faults, get, get_nowait, put, put_nowait
from .queues import LostUpdate, Pair, TestOutside, Wrapping


class FaultyQueues(Checks):
    # The queues of the table that the tests in C++ and Rust share: how each is made, and its calls.
    SHARED = {
        "lifo": (queue.LifoQueue, put_nowait, get_nowait),
        "ring-lost-update": (LostUpdate, put, get),
        "full-outside-lock": (TestOutside, put, get),
        "wrap-16": (Wrapping, put, get),
        "two-thread-ring": (Pair, put, get),
    }

    def test_each_queue_of_the_shared_table_is_found(self):
        self.assertEqual(sorted(faults()), sorted(self.SHARED))
        for name, calls in self.SHARED.items():
            with self.subTest(name):
                self.finds(*calls, faults()[name], sized=name != "lifo")

    def test_the_assertion_has_the_report(self):
        with self.assertRaises(AssertionError) as caught:
            kfifo_test.check(queue.LifoQueue, put_nowait, get_nowait, **self.options(name="stack"))
        text = str(caught.exception)
        overtaking = r"item \d+ came out, and item \d+, which went in before, had not"
        self.assertRegex(text, rf"\Akfifo check of stack for k = 1: no legal order: {overtaking}\n")
        self.assertIn("got by call", text)
        self.assertRegex(text, r"(?m)^log: .*\.csv$")
        self.assertRegex(text, r"(?m)^picture: .*\.svg$")
        self.assertRegex(text, r"(?m)^round \d+: \d threads, \d+ calls each, ")
        self.assertRegex(text, r"(?m)^\d+ rounds, \d+ calls, \d+ % overlapping, 0 undecided, seed \d+\Z")

    def test_a_folder_that_cannot_be_written_is_named(self):
        blocked = pathlib.Path(self.folder) / "file"
        blocked.write_text("")
        options = self.options(folder=str(blocked))
        report = kfifo_test.run_check(queue.LifoQueue, put_nowait, get_nowait, **options)
        self.assertEqual(report.outcome, "no order")
        self.assertIn("not written: ", str(report))


class RightQueues(Checks):
    def test_queue_passes(self):
        report = self.passes(queue.Queue, put_nowait, get_nowait)
        if len(os.sched_getaffinity(0)) > 1:
            self.assertGreater(report.overlapping, 0)

    def test_queue_of_few_items_passes(self):
        self.passes(queue.Queue, put_nowait, get_nowait, sized=True)

    def test_simple_queue_passes(self):
        self.passes(queue.SimpleQueue, put_nowait, get_nowait)

    def test_deque_passes(self):
        self.passes(collections.deque, lambda q, item: q.append(item), lambda q: q.popleft())

    def test_a_ring_for_two_threads_passes_with_two(self):
        self.passes(Pair, put, get, sized=True, one_producer=True, one_consumer=True)

    def test_repeated_items_pass(self):
        self.passes(queue.Queue, put_nowait, get_nowait, repeated=3, threads=3, calls=20)

    def test_a_relaxed_queue_passes_for_its_k_and_for_no_less(self):
        lock = threading.Lock()

        def near(shared):
            with lock:
                place = min(len(shared) - 1, 3) if len(shared) % 2 else 0
                item = shared[place]
                del shared[place]
                return item

        def add(shared, item):
            with lock:
                shared.append(item)

        report = self.passes(list, add, near, k=4)
        self.assertLessEqual(2, report.least[0], report)
        self.assertLessEqual(report.least[1], 4, report)
        self.finds(list, add, near, [OVERTAKEN])
