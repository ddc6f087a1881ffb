#!/usr/bin/env python3
"""Judges legal runs whose items repeat, and writes a table of how many `kfifo judge` decides and how long it takes.

A simulated run is one of a k-relaxed queue whose calls overlap: each call takes its place at a moment between its
beginning and its end, and a dequeue takes any of the k oldest items. A real run is one of `kfifo record`, a thread for
each script. So all runs have a legal order, and any other verdict than `legal` is a miss. In a third of the simulated
runs the last calls of some threads never end.

    bench/judge.py KFIFO [--runs N] [--seed N] [--long] [--out FOLDER]

KFIFO is the built program. N is 300 runs of a class where it is left out; with --long it is 5, of 65,536 calls each.
--out keeps the records that are missed. A time is the processor time of one `kfifo judge`, reading and printing
included, so other work on the machine hardly changes it.
"""
import argparse
import heapq
import json
import os
import random
import resource
import subprocess
import sys

KS = [1, 2, 8]
# 0: each item has a number of its own
MODULI = [0, 2, 5, 20]


def item_of(rng, count, modulus):
    """The item of a put: of four, three go round and one is random."""
    if modulus == 0:
        return count
    return 1 + (rng.randrange(modulus) if rng.randrange(4) == 0 else count % modulus)


class Simulation:
    """Threads on a queue that gives any of its k oldest items."""

    def __init__(self, rng, threads, calls, k, modulus, cut):
        self.rng, self.k, self.modulus, self.limit = rng, k, modulus, calls
        self.calls, self.items, self.puts = [], [], 0
        self.share = rng.choice([50, 55, 45, 50])
        self.changing = rng.randrange(4) == 0
        self.longest, self.pause = 5 + rng.randrange(200), 1 + rng.randrange(100)
        self.slow = rng.choice([0, 40, 150])
        self.events = [(rng.randrange(50), t, 0) for t in range(threads)]
        self.current = [None] * threads
        self.run()
        self.finish(cut, threads)

    def length(self):
        length = 1 + self.rng.randrange(self.longest)
        if self.slow and self.rng.randrange(self.slow) == 0:
            length *= 20 + self.rng.randrange(60)
        return length

    def begin(self, time, thread):
        if self.changing and self.rng.randrange(60) == 0:
            self.share = 20 + self.rng.randrange(61)
        call = {"thread": thread, "op": "deq", "first": time}
        if self.rng.randrange(100) < self.share:
            self.puts += 1
            call["op"], call["item"] = "enq", item_of(self.rng, self.puts, self.modulus)
        self.calls.append(call)
        self.current[thread] = call

    def take_place(self, call):
        if self.rng.randrange(300) == 0:
            call["answer"] = "busy"
        elif call["op"] == "enq":
            call["answer"] = "done"
            self.items.append(call["item"])
        elif self.items:
            call["answer"] = "got"
            call["item"] = self.items.pop(self.rng.randrange(min(self.k, len(self.items))))
        else:
            call["answer"] = "empty"

    def run(self):
        heapq.heapify(self.events)
        while self.events:
            time, thread, stage = heapq.heappop(self.events)
            if stage == 0:
                if len(self.calls) >= self.limit:
                    continue
                self.begin(time, thread)
                time += self.length()
            elif stage == 1:
                self.take_place(self.current[thread])
                time += self.length() if self.rng.randrange(4) == 0 else 1 + self.rng.randrange(20)
            else:
                self.current[thread]["last"] = time
                time += 1 + self.rng.randrange(self.pause)
            heapq.heappush(self.events, (time, thread, (stage + 1) % 3))

    def finish(self, cut, threads):
        """Some threads' last calls lose their ends: enqueues, and dequeues that got nothing."""
        for thread in range(threads) if cut else []:
            own = [c for c in self.calls if c["thread"] == thread]
            if own and self.rng.randrange(2) == 0 and own[-1]["answer"] != "got":
                del own[-1]["answer"], own[-1]["last"]


def record_of(calls):
    """The record: at one time beginnings come before ends."""
    calls = sorted(calls, key=lambda c: c["first"])
    stamps = [(c["first"], 0, n, "first") for n, c in enumerate(calls)]
    stamps += [(c["last"], 1, n, "last") for n, c in enumerate(calls) if "last" in c]
    for stamp, (_, _, n, key) in enumerate(sorted(stamps)):
        calls[n][key] = stamp
    return json.dumps(calls)


def simulated(rng, k, modulus, length=None, threads=None):
    threads = threads or rng.randint(1, 8)
    length = length or 50 + rng.randrange(rng.choice([400, 400, 1951]))
    return record_of(Simulation(rng, threads, length, k, modulus, rng.randrange(3) == 0).calls)


def real(kfifo, rng, k, modulus):
    threads = rng.randint(2, 8)
    length = max(6, min(1000, (50 + rng.randrange(rng.choice([400, 400, 1951]))) // threads))
    share, count, scripts = rng.choice([40, 50, 55]), 0, []
    for _ in range(threads):
        words = []
        for _ in range(length):
            count += 1
            words.append(f"e{item_of(rng, count, modulus)}" if rng.randrange(100) < share else "d")
        scripts.append(",".join(words))
    command = [kfifo, "record", "--k", str(k), "--segments", str(rng.choice([4, 64, 1024])), *scripts]
    return subprocess.run(command, check=True, capture_output=True, text=True).stdout


def processor_seconds():
    """The processor time of all children that have ended."""
    used = resource.getrusage(resource.RUSAGE_CHILDREN)
    return used.ru_utime + used.ru_stime


def judged(kfifo, record, k):
    begin = processor_seconds()
    answer = subprocess.run([kfifo, "judge", "--k", str(k)], input=record, capture_output=True, text=True)
    return answer.stdout.split("\n")[0].split(" ")[0] or answer.stderr.strip(), processor_seconds() - begin


def told(name, k, modulus, verdicts, times):
    items = f"modulo {modulus}" if modulus else "distinct"
    counts = ", ".join(f"{v} {verdicts.count(v)}" for v in sorted(set(verdicts)))
    middle = sorted(times)[len(times) // 2]
    took = f"{1000 * middle:.0f} ms | {1000 * max(times):.0f} ms"
    print(f"| {name} | {k} | {items} | {counts} of {len(verdicts)} | {took} |", flush=True)


def class_told(args, name, k, modulus, recorded):
    """Judges the runs of a class, and prints its row."""
    verdicts, times = [], []
    for n in range(args.runs or (5 if args.long else 300)):
        record = recorded()
        verdict, seconds = judged(args.kfifo, record, k)
        verdicts.append(verdict)
        times.append(seconds)
        if args.out and verdict != "legal":
            with open(f"{args.out}/{name.replace(' ', '_')}_{k}_{modulus}_{n}.json", "w") as file:
                file.write(record)
    told(name, k, modulus, verdicts, times)


def short_runs(args):
    for name in ["simulated", "real"]:
        for k in KS:
            for modulus in MODULI:
                rng = random.Random(f"{args.seed} {name} {k} {modulus}")
                made = lambda: simulated(rng, k, modulus) if name == "simulated" else real(args.kfifo, rng, k, modulus)
                class_told(args, name, k, modulus, made)


def long_runs(args):
    for threads in [8, 64]:
        for k in KS:
            for modulus in MODULI:
                rng = random.Random(f"{args.seed} {threads} {k} {modulus}")
                class_told(args, f"{threads} threads", k, modulus, lambda: simulated(rng, k, modulus, 65536, threads))


def main():
    parser = argparse.ArgumentParser()
    parser.add_argument("kfifo")
    parser.add_argument("--runs", type=int)
    parser.add_argument("--seed", type=int, default=1)
    parser.add_argument("--long", action="store_true")
    parser.add_argument("--out")
    args = parser.parse_args()
    if args.out:
        os.makedirs(args.out, exist_ok=True)
    print("| Runs | k | Items | Verdicts | Time, median | Time, most |\n|---|---|---|---|---|---|")
    long_runs(args) if args.long else short_runs(args)


if __name__ == "__main__":
    sys.exit(main())
