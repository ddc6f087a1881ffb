"""The calls of a log, and a log as text."""
from __future__ import annotations

from typing import Iterable, NamedTuple

MAX_CALLS = 16_777_215
MAX_ITEM = 16_777_215


class Call(NamedTuple):
    """One call of a log.

    Times are of one clock for all threads: a call that ended at a time below another's `first` came before it, and all
    others overlap. A thread's calls do not overlap: each begins after the time at which the one before ended.
    """

    thread: int  # 0 to 63
    op: str  # "put" or "get"
    item: int  # of a put, 1 to MAX_ITEM, or what a get got; not read of other calls
    first: int  # when it began, 0 to 2**64 - 1
    last: int  # when it ended; not read of an unfinished call
    answer: str  # of a put "done" or "full", of a get "got" or "empty", of both "busy" or "worn", "" if unfinished


class NamedCall(NamedTuple):
    """A call that a reason names."""

    number: int  # in ascending order of first time, from 0
    line: int  # of the log that it stands in, from 1; 0 of a record
    call: Call  # its item is 0 where it is a get that found nothing, its last time where it is unfinished


def csv(calls: Iterable[Call]) -> str:
    """The calls as a log in CSV, as the program `kfifo judge` reads it: call i stands in line i + 2.

    >>> csv([Call(0, "put", 1, 10, 20, "done")])
    'thread,op,item,first,last,answer\\n0,enq,1,10,20,done\\n'
    """
    lines = ["thread,op,item,first,last,answer\n"]
    for thread, op, item, first, last, answer in calls:
        word, shown = ("enq", item) if op == "put" else ("deq", item if answer == "got" else "")
        lines.append(f"{thread},{word},{shown},{first},{last if answer else ''},{answer}\n")
    return "".join(lines)
