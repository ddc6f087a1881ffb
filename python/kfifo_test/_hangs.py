"""Calls that do not return: how one is found, named and ended."""
from __future__ import annotations

import _thread
import ctypes
import os
import sys
import threading
import time
import traceback
from typing import Any, Optional

from ._tracing import is_tracing
from ._workers import CALLING, EMPTYING, Lane, Stopped

LOOK = 0.02  # seconds between two looks at the threads
_LATE = 10  # how many times as much may lie between two looks, as time in which the threads could run
_WAIT_FACTOR = 10  # how many times as long as in processor time a call may take on the clock
_TO_END = 1.0  # seconds in which a worker that hangs in Python's code has to end
_FOLDER = os.path.dirname(__file__)


class Watch:
    """Finds a thread that hangs in a call: it looks again and again whether each makes progress."""

    def __init__(self, lanes: list[Lane], limit: float) -> None:
        self.lanes = lanes
        self.limit = limit
        self.seen: dict[int, tuple[tuple[str, int], float, float]] = {}
        self.waited = 0.0
        self.looked = time.monotonic()

    def sees_hang(self) -> bool:
        """Whether a thread is in a call that has taken too long."""
        # Where this thread looks late, the process may have been stopped, and the others with it.
        now = time.monotonic()
        self.waited += min(now - self.looked, _LATE * LOOK)
        self.looked = now
        hangs = False
        for lane in self.lanes:
            where, used = (lane.phase, len(lane.log)), lane.processor_time()
            seen = self.seen.get(lane.number)
            if seen is None or seen[0] != where:
                self.seen[lane.number] = (where, self.waited, used)
            elif lane.phase in CALLING:
                hangs |= used - seen[2] >= self.limit or self.waited - seen[1] >= _WAIT_FACTOR * self.limit
        return hangs

    def describe(self) -> str:
        """What each thread is in that is in a call, as it was when it was last looked at, with its newest frames."""
        frames = sys._current_frames()
        lines = []
        for lane in self.lanes:
            begun, frame, seen = lane.begun, frames.get(lane.thread.ident or 0), self.seen.get(lane.number)
            if begun and frame and seen and lane.phase in CALLING:
                what = f"a put of item {begun[1]}" if begun[0] == "put" else "a get"
                empties = " that empties the queue" if lane.phase == EMPTYING else ""
                used, lasted = lane.processor_time() - seen[2], self.waited - seen[1]
                times = f"{used:.2f} s of processor time and {lasted:.2f} s in all"
                where = f"{what}{empties}, call {len(lane.log) + 1} of its own"
                lines += [f"thread {lane.number} was in {where}, for {times}", *newest_frames(frame)]
        return "\n".join(lines) or "no thread was in a call of the queue"


def newest_frames(frame: Any) -> list[str]:
    """The lines of the newest four frames, without those of this package and below it."""
    stack = traceback.extract_stack(frame)
    # A thread that gives way between two bytecodes is in the tracer, above the call that it makes.
    while stack and is_tracing(stack[-1]):
        stack.pop()
    inside = max((place for place, it in enumerate(stack) if os.path.dirname(it.filename) == _FOLDER), default=-1)
    return "".join(traceback.format_list(stack[inside + 1 :][-4:])).splitlines()


def _refuse(*_arguments: Any) -> None:
    """Stands in for the calls of a worker that is to end."""
    raise Stopped


def stop(lanes: list[Lane]) -> None:
    """Ends the workers of a round that hangs: one that spins in Python by an exception that is raised in it, and one
    that is about to begin by its first call. One that sleeps stays.
    """
    for lane in lanes:
        lane.put = lane.get = _refuse
    stuck = [lane.thread for lane in lanes if lane.phase in CALLING]
    stopped = _thread.allocate_lock()
    stopped.acquire()
    # This thread may be traced, by a debugger, say. It could not go on while the flag of _stop_each is set.
    _thread.start_new_thread(_stop_each, (stuck, stopped))
    stopped.acquire()


def _stop_each(stuck: list[threading.Thread], stopped: Any) -> None:
    """Raises Stopped in these threads, and takes it back where a thread sleeps, and so does not end.

    An exception that waits for its thread keeps a flag of the whole interpreter set, with which Python 3.11 never gets
    past the beginning of a function that is traced, in any thread. To take it back leaves the flag set: that is cleared
    where an exception is raised, for which this thread takes one itself.
    """
    try:
        for thread in stuck:
            _raise_in(thread.ident, Stopped)
        end = time.monotonic() + _TO_END
        while time.monotonic() < end and any(thread.is_alive() for thread in stuck):
            time.sleep(0.001)
        for thread in stuck:
            if thread.is_alive():
                _raise_in(thread.ident, None)
        try:
            _raise_in(threading.get_ident(), Stopped)
            while True:  # until it is raised: at the end of this loop's body at the latest
                time.sleep(0)
        except Stopped:
            pass
    finally:
        stopped.release()


def _raise_in(ident: Optional[int], kind: Optional[type[BaseException]]) -> None:
    """Has the interpreter raise this in a thread, or nothing that was to be raised."""
    exception = None if kind is None else ctypes.py_object(kind)
    ctypes.pythonapi.PyThreadState_SetAsyncExc(ctypes.c_ulong(ident or 0), exception)
