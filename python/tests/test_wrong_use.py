"""What no queue does is shown, and what cannot be done is refused."""
import queue
import sys
from unittest import mock

import kfifo_test

from .common import NOWHERE, Checks, get_nowait, put_nowait


class WrongUse(Checks):
    def test_another_exception_is_shown(self):
        def fail(shared):
            raise KeyError("no such slot")

        report = kfifo_test.run_check(queue.Queue, put_nowait, fail, **self.options())
        self.assertEqual(report.outcome, "raised")
        self.assertIn("no such slot", report.text)

    def test_an_exception_that_would_end_the_thread_is_shown(self):
        class Failed(BaseException):
            """As those by which a test framework fails."""

        def leave(*arguments):
            sys.exit("no slot is left")

        def fail(*arguments):
            raise Failed("no slot is left")

        for put, get in ((leave, get_nowait), (put_nowait, leave), (fail, get_nowait), (put_nowait, fail)):
            report = kfifo_test.run_check(queue.Queue, put, get, **self.options())
            self.assertEqual(report.outcome, "raised", report)
            self.assertIn("no slot is left", report.text)
            self.assertIn("a call failed", str(report))

    def test_what_is_no_item_is_shown(self):
        report = kfifo_test.run_check(queue.Queue, put_nowait, lambda shared: "a text", **self.options())
        self.assertEqual(report.outcome, "raised")
        self.assertIn("a get returned 'a text'", report.text)

    def test_an_item_that_nobody_put_is_evidence(self):
        self.finds(queue.Queue, put_nowait, lambda shared: shared.get_nowait() + 2**24, [NOWHERE])

    def test_a_queue_that_never_gives_an_item_does_not_pass(self):
        options = self.options(rounds=20)
        report = kfifo_test.run_check(list, lambda shared, item: False, lambda shared: None, **options)
        self.assertEqual((report.outcome, report.rounds), ("nothing taken", 20))

    def test_undecided_rounds_pass_but_not_all(self):
        undecided = kfifo_test.Verdict("undecided", "undecided for k = 1\nthe tries ran out after 7 tries\n", tries=7)
        with mock.patch("kfifo_test._check.judge_round", return_value=(undecided, None)):
            report = kfifo_test.run_check(queue.Queue, put_nowait, get_nowait, **self.options(rounds=3))
            self.assertEqual((report.outcome, report.undecided, report.rounds), ("undecided", 3, 3))
            options = self.options(rounds=3, undecided_fails=True)
            report = kfifo_test.run_check(queue.Queue, put_nowait, get_nowait, **options)
            self.assertEqual((report.outcome, report.undecided, report.rounds), ("undecided", 1, 1))
            self.assertIn("\nthe tries ran out after 7 tries\n", str(report))
            self.assertIn(" 1 undecided after at most 7 tries each, seed ", str(report))
        found = [(undecided, None), (kfifo_test.Verdict("legal", ""), None), (undecided, None)]
        with mock.patch("kfifo_test._check.judge_round", side_effect=found):
            report = kfifo_test.run_check(queue.Queue, put_nowait, get_nowait, **self.options(rounds=3))
            self.assertEqual((report.outcome, report.undecided, report.rounds), ("passed", 2, 3))

    def test_a_call_that_gives_up_is_no_empty(self):
        calls = iter(range(10**9))

        def get_or_give_up(shared):
            return kfifo_test.BUSY if next(calls) % 3 == 0 else shared.get_nowait()

        self.passes(queue.Queue, put_nowait, get_or_give_up)

    def test_options_out_of_range_are_refused(self):
        cases = [
            ({"k": 0}, "k is 0, but has to be a whole number from 1 to 64"),
            ({"k": 65}, "k is 65, but has to be a whole number from 1 to 64"),
            ({"k": 1.5}, "k is 1.5, but has to be a whole number from 1 to 64"),
            ({"threads": 1}, "threads is 1, but has to be a whole number from 2 to 64, or None"),
            ({"threads": 65}, "threads is 65, but has to be a whole number from 2 to 64, or None"),
            ({"calls": 0}, "calls is 0, but has to be a whole number from 1 to 65,536, or None"),
            (
                {"calls": 5000},
                "5000 calls of each of 8 threads are more than the 65536 of a round, with those that empty the queue: "
                "take fewer",
            ),
            (
                {"one_producer": True, "one_consumer": True, "threads": 3},
                "threads is 3, but has to be 2 with one producer and one consumer",
            ),
            ({"repeated": 0}, "repeated is 0, but has to be a whole number from 1 to 16,777,215, or None"),
            ({"seconds": -1}, "seconds is -1, but has to be a number from 0 on"),
            ({"seconds": float("nan")}, "seconds is nan, but has to be a number from 0 on"),
            ({"seconds": None}, "seconds is None, but has to be a number from 0 on"),
            ({"rounds": 0}, "rounds is 0, but has to be a whole number from 1 on, or None"),
            ({"rounds": 2.5}, "rounds is 2.5, but has to be a whole number from 1 on, or None"),
            ({"seed": "x"}, "seed is 'x', but has to be a whole number, or None"),
            ({"hang_seconds": 0}, "hang_seconds is 0, but has to be a number over 0"),
            ({"hang_seconds": float("nan")}, "hang_seconds is nan, but has to be a number over 0"),
            ({"name": "a/b"}, "name is 'a/b', but has to be a text for the names of files: not empty, without /"),
            ({"name": ""}, "name is '', but has to be a text for the names of files: not empty, without /"),
            ({"tries": -1}, "tries is -1, but has to be a whole number from 0 to 2**64 - 1"),
        ]
        for options, text in cases:
            with self.subTest(text), self.assertRaises(ValueError) as caught:
                kfifo_test.check(queue.Queue, put_nowait, get_nowait, **options)
            self.assertEqual(str(caught.exception), text)
        with self.assertRaises(TypeError):
            kfifo_test.check(queue.Queue, put_nowait, get_nowait, thread=3)
