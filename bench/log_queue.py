#!/usr/bin/env python3
"""Logs a run of Python's queue.Queue as log_queue.cpp does. The arguments are the threads, and how often each puts and
takes."""
import pathlib
import queue
import sys
import threading

sys.path.insert(0, str(pathlib.Path(__file__).resolve().parent.parent / "loggers"))
import kfifo_log


def in_turn(shared, log, start, items):
    """Puts each item, and takes one after it."""
    start.wait()
    for item in items:
        log.enqueue(item, shared.put_nowait)
        log.dequeue(shared.get_nowait)


def main():
    threads, turns = int(sys.argv[1]), int(sys.argv[2])
    shared = queue.Queue(1024)
    logs = [kfifo_log.ThreadLog(thread, 2 * turns) for thread in range(threads)]
    logs.append(kfifo_log.ThreadLog(threads, threads * turns + 1))
    start = threading.Barrier(threads)  # so that the threads run side by side
    running = []
    for thread in range(threads):
        items = range(thread * turns + 1, (thread + 1) * turns + 1)
        running.append(threading.Thread(target=in_turn, args=(shared, logs[thread], start, items)))
    for it in running:
        it.start()
    for it in running:
        it.join()
    # Without this nobody could see that an item was lost.
    while logs[-1].dequeue(shared.get_nowait) is not None:
        pass
    kfifo_log.write(logs, sys.stdout)


if __name__ == "__main__":
    main()
