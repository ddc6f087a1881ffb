"""Logs each call that threads make of your own queue, so that `kfifo` can judge the run.

It needs the standard library alone.

How to use it:
 1. Copy this file beside your queue, and write `import kfifo_log`.
 2. Before the threads start, make a log for each: `logs = [kfifo_log.ThreadLog(t, calls) for t in range(threads)]`, t
    below 64.
 3. Make each call through it: `log.enqueue(item, queue.put_nowait)` and `log.dequeue(queue.get_nowait)`. An enqueue
    that raises `queue.Full` or returns False is logged as full, and a dequeue that raises `queue.Empty` or returns
    None as empty. For other answers call `begin_enqueue(item)` or `begin_dequeue()`, and after the call
    `end(answer)`, or `end("got", item)`.
 4. Give each item a number of its own, 1 to 16,777,215, for example from a counter for each producer that starts where
    no other gets to.
 5. Put some hundred items in before the threads start. After joining them, dequeue until the queue is empty, in a log
    of its own. In a queue that is nearly empty a wrong order hardly shows, and if the queue is left filled, nobody can
    see that an item is lost.
 6. `kfifo_log.write(logs, sys.stdout)`, and then:
    `python3 my_test.py > log.csv && kfifo judge < log.csv`
    Look at the line `calls <number>, items left <number>` too: 0 calls are no test, and items left are lost items if
    the log ends in a dequeue that found the queue empty.

A log that is full takes no more calls, and `write` refuses it: missing calls would make the verdict wrong.
`kfifo` judges 16,777,215 calls at most. Each log is its thread's alone: there is no lock, and its arrays are made
before the run. (The numbers that pass through them are objects, which the interpreter makes as it goes.)
"""
import array
import queue
import time

ANSWERS = ("", "done", "full", "got", "empty", "busy", "worn")
NUMBERS = {answer: number for number, answer in enumerate(ANSWERS)}


class MissedCalls(Exception):
    """A log was full, so that calls are missing."""


class ThreadLog:
    """The log of one thread, with room for this many calls."""

    def __init__(self, thread, calls):
        if not 0 <= thread <= 63:
            raise ValueError("a thread is 0 to 63")
        self.thread = thread
        self.missed = 0
        self._room = calls
        self._length = 0
        self._stamp = 0
        self._enqueues = bytearray(calls)
        self._answers = bytearray(calls)
        self._items = array.array("Q", bytes(8 * calls))
        self._firsts = array.array("Q", bytes(8 * calls))
        self._lasts = array.array("Q", bytes(8 * calls))

    def _next_stamp(self):
        """Nanoseconds of time.perf_counter_ns, read until they are past the thread's latest stamp.

        It is the finest of Python's monotonic clocks (on Linux CLOCK_MONOTONIC), one for all threads, and no
        correction of the time of day sets it back. `kfifo` refuses a call that begins when the one before it ends. To
        add 1 instead would let the call begin after its true beginning. Python has no fences: the interpreter makes
        the steps of a thread in their order.
        """
        now = time.perf_counter_ns()
        while now <= self._stamp:
            now = time.perf_counter_ns()
        self._stamp = now
        return now

    def _begin(self, enqueues, item):
        place = self._length
        if place == self._room:
            self.missed += 1
            return
        self._enqueues[place] = enqueues
        self._items[place] = item
        self._length = place + 1
        self._firsts[place] = self._next_stamp()

    def begin_enqueue(self, item):
        """Just before an enqueue of this item."""
        self._begin(True, item)

    def begin_dequeue(self):
        """Just before a dequeue."""
        self._begin(False, 0)

    def end(self, answer, item=None):
        """Just after the call that was begun last, with its answer, and with the item where that is "got"."""
        if self.missed:
            return
        last = self._next_stamp()
        place = self._length - 1
        if answer == "got":
            self._items[place] = item
        self._lasts[place] = last
        self._answers[place] = NUMBERS[answer]

    def enqueue(self, item, put):
        """Calls put(item), and returns whether it is done. It is full where it raises queue.Full or returns False."""
        self.begin_enqueue(item)
        try:
            done = put(item) is not False
        except queue.Full:
            done = False
        self.end("done" if done else "full")
        return done

    def dequeue(self, get):
        """Calls get(), and returns the item, or None where it raises queue.Empty or returns None."""
        self.begin_dequeue()
        try:
            item = get()
        except queue.Empty:
            item = None
        self.end("empty" if item is None else "got", item)
        return item

    def lines(self):
        """The lines of the calls in CSV."""
        for place in range(self._length):
            enqueues = self._enqueues[place]
            answer = ANSWERS[self._answers[place]]
            op = "enq" if enqueues else "deq"
            item = self._items[place] if enqueues or answer == "got" else ""
            last = self._lasts[place] if answer else ""
            yield f"{self.thread},{op},{item},{self._firsts[place]},{last},{answer}\n"


def write(logs, out):
    """Writes the logs as CSV for `kfifo judge`, after their threads have ended. Where calls are missing it raises
    MissedCalls and writes nothing. A call that never returned, since it raised another exception, has no last time
    and no answer. `kfifo` takes such a dequeue to have taken nothing, so let dequeues return.
    """
    for log in logs:
        if log.missed:
            raise MissedCalls(f"the log of thread {log.thread} was full, and {log.missed} calls are missing")
    out.write("thread,op,item,first,last,answer\n")
    for log in logs:
        out.writelines(log.lines())
    out.flush()
