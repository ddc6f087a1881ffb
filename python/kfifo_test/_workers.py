"""The threads of a check. Each makes calls of the queue, and logs them."""
from __future__ import annotations

import queue
import sys
import threading
import time
import traceback
from typing import Any, Callable, Optional

from ._log import Call

BUSY = object()
"""What a put or a get returns that gave up because of others, and changed nothing."""

# What a worker does: nothing that can hang, or calls of a round, or those that empty the queue after it.
WAITING, MAKING_CALLS, EMPTYING = "waiting", "making calls", "emptying"
CALLING = (MAKING_CALLS, EMPTYING)

Make = Callable[..., Any]
Put = Callable[[Any, int], Any]
Get = Callable[[Any], Any]


class Stopped(BaseException):
    """Ends a worker that hangs in code of Python's."""


class NotAnItem(Exception):
    """A get returned what is neither an item nor None."""

    __module__ = "kfifo_test"  # so a traceback shows the name by which callers know it


def _text_of(error: BaseException) -> str:
    """What an exception says, and below it where it came from."""
    words = "".join(traceback.format_exception_only(type(error), error)).rstrip()
    whole = "".join(traceback.format_exception(type(error), error, error.__traceback__)).rstrip()
    return f"{words}\n{whole.removesuffix(words).rstrip()}"


class Lane:
    """One worker thread and its log."""

    def __init__(self, number: int, put: Put, get: Get, done: queue.SimpleQueue[int]) -> None:
        self.number = number
        self.put = put
        self.get = get
        self.log: list[Call] = []
        self.begun: Optional[tuple[str, int, int]] = None  # the call that has not returned: op, item and first time
        self.phase = WAITING
        self.error: Optional[str] = None  # of an exception that came out of a call: what it says, and its traceback
        self.is_empty = False  # whether the queue was empty when this thread emptied it
        self.tracer: Optional[Callable[..., Any]] = None
        self.latest = 0
        self.inbox: queue.SimpleQueue[Optional[Callable[[Lane], None]]] = queue.SimpleQueue()
        self.fence = threading.Lock()
        self.done = done
        self.clock: Optional[int] = None  # that of this thread's processor time, where the system has one
        self.thread = threading.Thread(target=self._work, name=f"kfifo-{number}", daemon=True)
        self.thread.start()

    def _work(self) -> None:
        if hasattr(time, "pthread_getcpuclockid"):
            self.clock = time.pthread_getcpuclockid(threading.get_ident())
        try:
            while True:
                job = self.inbox.get()  # a worker sleeps here between rounds
                if job is None:
                    return
                try:
                    job(self)
                except Stopped:
                    raise
                except BaseException as error:  # SystemExit too, and what a test framework fails by
                    self.error = _text_of(error)
                self.phase = WAITING
                self.done.put(self.number)
        except Stopped:
            pass  # it hung in a call, and the report has named it

    def processor_time(self) -> float:
        """The processor time of this thread in seconds; 0 where the system does not say."""
        # The clock was asked for by the thread itself: to ask for that of a thread that has ended is undefined.
        try:
            return 0.0 if self.clock is None else time.clock_gettime(self.clock)
        except OSError:
            return 0.0

    def _before(self) -> int:
        """The time before a call, greater than that at which the thread's call before it ended.

        To add 1 to an equal time instead would let the call begin after its true beginning.
        """
        now = time.perf_counter_ns()
        while now <= self.latest:
            now = time.perf_counter_ns()
        # Under the interpreter's lock the steps of a thread are seen in their order. Without it, taking a lock keeps
        # the call's reads and writes of memory between its times.
        with self.fence:
            return now

    def _after(self) -> int:
        with self.fence:
            self.latest = now = time.perf_counter_ns()
        return now

    def make_put(self, shared: Any, item: int) -> None:
        """Makes a put, and logs it."""
        self.begun = ("put", item, first := self._before())
        try:
            result = self.put(shared, item) if self.tracer is None else self._traced(self.put, shared, item)
            answer = "full" if result is False else "busy" if result is BUSY else "done"
        except queue.Full:
            answer = "full"
        self.log.append(Call(self.number, "put", item, first, self._after(), answer))
        self.begun = None

    def make_get(self, shared: Any) -> str:
        """Makes a get, logs it, and returns its answer."""
        self.begun = ("get", 0, first := self._before())
        try:
            item = self.get(shared) if self.tracer is None else self._traced(self.get, shared)
            answer = "empty" if item is None else "busy" if item is BUSY else "got"
        except (queue.Empty, IndexError):
            item, answer = None, "empty"
        last = self._after()
        if answer == "got" and not (isinstance(item, int) and 0 <= item < 2**64):
            raise NotAnItem(f"a get returned {item!r}: neither an item, which is a number, nor None")
        self.log.append(Call(self.number, "get", item if answer == "got" else 0, first, last, answer))
        self.begun = None
        return answer

    def _traced(self, call: Callable[..., Any], *arguments: Any) -> Any:
        """Makes a call in which the thread gives way now and then between two bytecodes."""
        old = sys.gettrace()
        sys.settrace(self.tracer)
        try:
            return call(*arguments)
        finally:
            sys.settrace(old)
