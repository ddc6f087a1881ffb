"""Checks a concurrent queue by many short logged runs, each judged by kfifo's proved judge.

It needs the standard library alone, Python 3.9 or later, and the shared library `libkfifo_judge.so`. In a test of your
own queue:

    import queue
    import kfifo_test

    kfifo_test.check(queue.Queue, lambda q, x: q.put_nowait(x), lambda q: q.get_nowait())

Threads put and get for some seconds, in short rounds. The judge looks for a legal order of each round: one in which
each get takes one of the k oldest items. Where a round has none, `check` raises AssertionError with the reason, and
leaves the log (CSV) and a picture (SVG). That verdict is proved. That a check passes proves nothing: another schedule
may have a fault.

What a call says:

| Call | Means |
|---|---|
| put returns False, or raises queue.Full | full: nothing was put |
| put returns anything else, also None | the item is in the queue |
| get returns None, or raises queue.Empty or IndexError (as the pop of a deque does) | empty: nothing was taken |
| get returns a number | this item was taken |
| put or get returns kfifo_test.BUSY | the call gave up because of others, and changed nothing |

Any other exception fails the check, and so does a call that does not return.

`judge`, `least` and `draw` are the judge itself, for logs of your own.
"""
from ._check import check, run_check
from ._files import JudgedLog, judge_logs
from ._judge import TRIES, Least, Verdict, draw, judge, judge_text, least
from ._library import Fault, LibraryMissing
from ._log import MAX_CALLS, MAX_ITEM, Call, NamedCall, csv
from ._options import Options
from ._report import Report
from ._workers import BUSY, Get, Make, NotAnItem, Put

__all__ = [
    "BUSY",
    "MAX_CALLS",
    "MAX_ITEM",
    "TRIES",
    "Call",
    "Fault",
    "Get",
    "JudgedLog",
    "Least",
    "LibraryMissing",
    "Make",
    "NamedCall",
    "NotAnItem",
    "Options",
    "Put",
    "Report",
    "Verdict",
    "check",
    "csv",
    "draw",
    "judge",
    "judge_logs",
    "judge_text",
    "least",
    "run_check",
]
