"""The judge itself, by calls in memory and by texts."""
import unittest

import kfifo_test
from kfifo_test import Call


class Judge(unittest.TestCase):
    CALLS = [
        Call(1, "get", 1, 40, 45, "got"),
        Call(1, "get", 2, 30, 35, "got"),
        Call(0, "put", 2, 20, 25, "done"),
        Call(0, "put", 1, 10, 15, "done"),
    ]

    def test_calls_have_numbers_in_ascending_order_of_first_time(self):
        verdict = kfifo_test.judge(self.CALLS)
        self.assertEqual((verdict.status, [it.number for it in verdict.named]), ("no order", [2, 0]))
        self.assertIn("call 2 got item 2, while 1 older item was there: calls 0", verdict.text)
        self.assertIn("call 2, line 3: thread 1 got 2 from 30 to 35", verdict.text)
        self.assertEqual(kfifo_test.judge(self.CALLS, k=2).status, "legal")

    def test_a_verdict_has_what_its_text_says(self):
        verdict = kfifo_test.judge(self.CALLS)
        self.assertEqual((verdict.evidence, verdict.evidence_name), (4, "too young"))
        self.assertEqual(verdict.headline, "item 2 came out, and item 1, which went in before, had not")
        named = [kfifo_test.NamedCall(2, 3, self.CALLS[1]), kfifo_test.NamedCall(0, 5, self.CALLS[3])]
        self.assertEqual(list(verdict.named), named)
        self.assertEqual((verdict.calls, verdict.left, verdict.least), (4, 0, (2, 2)))
        legal = kfifo_test.judge([self.CALLS[0], *self.CALLS[2:]])
        self.assertEqual((legal.status, legal.calls, legal.left, legal.least), ("legal", 3, 1, None))
        self.assertEqual((legal.evidence, legal.evidence_name, legal.headline, legal.named), (0, "", "", ()))

    def test_each_kind_of_evidence_has_its_headline(self):
        def done(item, at):
            return Call(0, "put", item, at, at + 5, "done")

        def got(item, at):
            return Call(1, "get", item, at, at + 5, "got")

        def empty(at):
            return Call(2, "get", 0, at, at + 5, "empty")

        rows = [
            ([got(5, 10)], 1, "never put", "item 5 came out, which no call had put"),
            ([done(5, 10), got(5, 20), got(5, 30)], 2, "taken twice", "item 5 came out more often than it went in"),
            ([done(7, 10), empty(20)], 3, "not empty", "a get found nothing, while the queue held item 7"),
            (
                [done(1, 10), done(2, 20), got(2, 30)],
                4,
                "too young",
                "item 2 came out, and item 1, which went in before, had not",
            ),
            (
                [done(1, 10), got(1, 20), got(1, 30), done(1, 40)],
                5,
                "taken too soon",
                "item 1 came out more often than it had gone in by then",
            ),
            (
                [done(1, 10), done(1, 20), got(1, 30), empty(40)],
                6,
                "items left",
                "a get found nothing, while some item had gone in more often than come out",
            ),
            (
                [done(1, 10), done(1, 20), done(2, 30), got(2, 40)],
                7,
                "older left",
                "item 2 came out, and item 1, which went in before, stayed",
            ),
        ]
        for calls, number, name, headline in rows:
            with self.subTest(name):
                verdict = kfifo_test.judge(calls)
                found = (verdict.evidence, verdict.evidence_name, verdict.headline)
                self.assertEqual(found, (number, name, headline), verdict.text)

    def test_a_named_call_has_its_line_and_its_times(self):
        far = [Call(1, "get", 2**24, 2**63, 2**63 + 1, "got"), Call(0, "put", 3, 5, 0, "")]
        verdict = kfifo_test.judge(far)
        self.assertEqual(verdict.named, (kfifo_test.NamedCall(1, 2, far[0]),))
        record = '[{"thread":3,"op":"deq","first":4,"last":9,"answer":"got","item":8}]'
        verdict = kfifo_test.judge_text(record)
        self.assertEqual(verdict.named, (kfifo_test.NamedCall(0, 0, Call(3, "get", 8, 4, 9, "got")),))

    def test_least(self):
        found = kfifo_test.least(self.CALLS)
        self.assertEqual((found.at_least, found.at_most), (2, 2))
        nothing = kfifo_test.least([Call(0, "get", 7, 10, 20, "got")])
        self.assertEqual((nothing.at_least, nothing.at_most), (None, None))

    def test_draw(self):
        self.assertIn("<svg", kfifo_test.draw(self.CALLS))
        self.assertTrue(kfifo_test.draw(self.CALLS, part="all", style="text"))
        with self.assertRaises(ValueError):
            kfifo_test.draw(self.CALLS, part="half")

    def test_a_log_that_is_none_is_a_fault(self):
        overlapping = [Call(0, "put", 1, 10, 20, "done"), Call(0, "put", 2, 15, 25, "done")]
        for function in (kfifo_test.judge, kfifo_test.least, kfifo_test.draw):
            with self.assertRaises(kfifo_test.Fault) as caught:
                function(overlapping)
            self.assertEqual((caught.exception.number, caught.exception.place), (8, 3))

    def test_a_call_that_does_not_fit_is_refused(self):
        for call in (
            Call(0, "push", 1, 10, 20, "done"),
            Call(0, "put", 1, 10, 20, "ok"),
            Call(0, "put", -1, 10, 20, "done"),
            Call(0, "put", 1, 10, 2**64, "done"),
        ):
            with self.assertRaisesRegex(ValueError, "call 0 is none"):
                kfifo_test.judge([call])

    def test_an_unfinished_call_has_no_last_time_in_csv(self):
        calls = [Call(0, "put", 7, 10, 0, ""), Call(1, "get", 0, 11, 0, ""), Call(2, "get", 0, 12, 13, "empty")]
        lines = ["thread,op,item,first,last,answer", "0,enq,7,10,,", "1,deq,,11,,", "2,deq,,12,13,empty", ""]
        self.assertEqual(kfifo_test.csv(calls), "\n".join(lines))
