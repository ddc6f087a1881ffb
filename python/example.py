"""Checks queue.Queue, or with the argument `broken` a stack: short runs of some thousand calls, each run judged."""
import queue
import sys

import kfifo_test


def check_queue(make):
    kfifo_test.check(make, lambda q, x: q.put_nowait(x), lambda q: q.get_nowait())


if __name__ == "__main__":
    check_queue(queue.LifoQueue if "broken" in sys.argv else queue.Queue)
