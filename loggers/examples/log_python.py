"""A queue.Queue, logged: two threads put items in and two take them out, and then the queue is emptied. Prints the log.
With the argument own it is a deque behind a lock, with broken the queue gives an item that nobody put, and with short
the logs are too small.
"""
import collections
import pathlib
import queue
import sys
import threading

sys.path.insert(0, str(pathlib.Path(__file__).resolve().parent.parent))
import kfifo_log

ITEMS = 1000


class BrokenQueue(queue.Queue):
    """Gives item 100 with one bit too many."""

    def get_nowait(self):
        item = super().get_nowait()
        return item + 65536 if item == 100 else item


class OwnQueue:
    """Says by its results, and not by exceptions, that it is full or empty."""

    def __init__(self):
        self.lock = threading.Lock()
        self.items = collections.deque()

    def put_nowait(self, item):
        with self.lock:
            if len(self.items) == 10:
                return False
            self.items.append(item)
            return True

    def get_nowait(self):
        with self.lock:
            return self.items.popleft() if self.items else None


def produce(shared, log, start, first):
    start.wait()
    for item in range(first, first + ITEMS):
        log.enqueue(item, shared.put_nowait)


def consume(shared, log, start):
    start.wait()
    for _ in range(ITEMS):
        log.dequeue(shared.get_nowait)


def main():
    mode = sys.argv[1] if len(sys.argv) > 1 else ""
    shared = {"broken": BrokenQueue, "own": OwnQueue}.get(mode, queue.Queue)()
    # The last log, that of the main thread, has room for all items and the Empty after them.
    room = 10 if mode == "short" else 2 * ITEMS + 1
    logs = [kfifo_log.ThreadLog(thread, room) for thread in range(5)]
    start = threading.Barrier(4)  # so that the threads run side by side
    threads = [
        threading.Thread(target=produce, args=(shared, logs[0], start, 1)),
        threading.Thread(target=produce, args=(shared, logs[1], start, ITEMS + 1)),
        threading.Thread(target=consume, args=(shared, logs[2], start)),
        threading.Thread(target=consume, args=(shared, logs[3], start)),
    ]
    for thread in threads:
        thread.start()
    for thread in threads:
        thread.join()
    while logs[4].dequeue(shared.get_nowait) is not None:
        pass
    try:
        kfifo_log.write(logs, sys.stdout)
    except kfifo_log.MissedCalls as fault:
        sys.exit(f"log_python: {fault}")


if __name__ == "__main__":
    main()
