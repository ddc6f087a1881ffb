#!/usr/bin/env python3
"""Logs runs of real queues, has kfifo judge them, and says whether each verdict is the one that docs/GALLERY.md shows.

    bench/gallery.py [--program PATH] [--out FOLDER] [--runs N]

Four threads alternate puts and takes, and at the end one thread takes until the queue is empty. Where a verdict is a
matter of luck, the queue is run again, at most N times, until it comes. For each queue the script prints a row of the
page's table, with the processor time of `kfifo judge`; FOLDER gets the logs, and a picture of each piece of evidence:
of a k-relaxed queue that it is no queue of k - 1. The last line is 'N passed, M failed'.

It needs what bench/run.py needs, and kfifo: PATH is crates/kfifo/out/kfifo where it is left out.
"""
import argparse
import dataclasses
import json
import os
import pathlib
import re
import resource
import subprocess
import sys

import run

HERE = pathlib.Path(__file__).resolve().parent
PROGRAM = HERE.parent / "crates/kfifo/out/kfifo"


THREADS, TURNS = 4, 8000
# How many items come before the threads begin, in a queue that is k-relaxed: among few items none can be passed over.
BEFORE = 512
LEGAL = r"legal for k = \d+\nworst rank \d+\ncalls \d+, items left \d+\n"
# The evidence against the wrong queues: its kind and its headline, by the log of the calls that it names.
HEADLINES = HERE.parent / "c/tests/checker/gallery/headlines.csv"
PLAIN = r"k at least 1\nk at most 1\n"


@dataclasses.dataclass
class Entry:
    """A queue of the gallery: its words for log_queue, and its verdict; of a wrong one, its log in HEADLINES."""

    name: str
    title: str
    k: int = 0
    before: int = 0
    judged: int = 1
    least: str = PLAIN
    luck: bool = False
    fault: str = ""


def relaxed(name, title, k):
    """A k-relaxed queue, with items in it from the beginning. The bounds meet at its k."""
    return Entry(name, title, k, BEFORE, k, f"k at least {k}\nk at most {k}\n", luck=True)


def faulty(name, title, fault):
    """A queue in whose log there is this fault, sooner or later."""
    return Entry(name, title, least="", luck=True, fault=fault)


ENTRIES = [
    Entry("boost", "Boost's `lockfree::queue`"),
    Entry("tbb", "oneTBB's `concurrent_bounded_queue`"),
    Entry("ms", "libcds's `MSQueue`, of Michael and Scott"),
    Entry("vyukov", "libcds's `VyukovMPMCCycleQueue`"),
    Entry("array", "crossbeam's `ArrayQueue`"),
    Entry("ck", "Concurrency Kit's ring"),
    Entry("mutex", "`std::deque` behind a mutex"),
    Entry("python", "Python's `queue.Queue`"),
    relaxed("segmented", "libcds's `SegmentedQueue`, quasi factor 8", 8),
    relaxed("kfifo", "this repository's queue, k = 1", 1),
    relaxed("kfifo", "this repository's queue, k = 4", 4),
    relaxed("kfifo", "this repository's queue, k = 16", 16),
    relaxed("kfifo", "this repository's queue, k = 64", 64),
    faulty("moodycamel", "moodycamel's `ConcurrentQueue`", "concurrent_queue.csv"),
    faulty("paused-ring", "a ring of the kind that Vyukov described, with pauses", "paused_ring.csv"),
]


def build():
    """Builds the queues, and the program that logs them."""
    run.PROGRAMS = ["log_queue"]
    run.build()


def command_of(entry):
    """The command that prints a log of a queue."""
    if entry.name == "python":
        return [sys.executable, HERE / "log_queue.py", THREADS, TURNS]
    return [f"{run.OUT}/log_queue", entry.name, entry.k, THREADS, TURNS, entry.before]


def processor_seconds():
    """The processor time of all children that have ended."""
    used = resource.getrusage(resource.RUSAGE_CHILDREN)
    return used.ru_utime + used.ru_stime


def kfifo(program, words, log):
    """Runs kfifo on a log, and returns what it prints, its status and its seconds of a processor."""
    began = processor_seconds()
    with open(log, "rb") as given:
        ran = subprocess.run([str(program), *words], stdin=given, capture_output=True, text=True)
    return ran.stdout + ran.stderr, ran.returncode, processor_seconds() - began


def log_of(command, log):
    """Runs a command that prints a log."""
    with open(log, "wb") as written:
        subprocess.run([str(it) for it in command], stdout=written, check=True, timeout=120)


def has_fault(program, fault, log):
    """Whether the evidence on a log is of the kind of this fault and has its headline, with other items."""
    rows = [line.split(",", 2) for line in HEADLINES.read_text().splitlines()]
    kind, headline = next(row[1:] for row in rows if row[0] == fault)
    evidence = json.loads(kfifo(program, ["judge", "--json"], log)[0])["evidence"] or {}
    wanted = re.sub(r"\d+", r"\\d+", re.escape(headline))
    return str(evidence.get("kind")) == kind and bool(re.fullmatch(wanted, evidence["headline"]))


def differs(program, entry, log):
    """What is wrong with the verdict on a log, or None; and the line of the table."""
    said, _, seconds = kfifo(program, ["judge", "-k", str(entry.judged)], log)
    is_wanted = has_fault(program, entry.fault, log) if entry.fault else re.fullmatch(LEGAL, said)
    if not is_wanted:
        return f"judge prints {said!r}", ""
    told = said.splitlines()[:2]
    if entry.least:
        least, _, _ = kfifo(program, ["least"], log)
        if not re.fullmatch(entry.least, least):
            return f"least prints {least!r}", ""
        told += least.splitlines()
    calls = sum(1 for _ in open(log)) - 1
    return None, f"| {entry.title} | {calls:,} | {'; '.join(told)} | {seconds:.2f} s |"


def tried(program, entry, out, runs):
    """Runs an entry until its verdict comes, and returns what is wrong, or None."""
    name = f"{entry.name}_{entry.k}" if entry.k else entry.name
    log = out / f"{name}.csv"
    for _ in range(runs if entry.luck else 1):
        log_of(command_of(entry), log)
        wrong, row = differs(program, entry, log)
        if wrong is None:
            print(row, flush=True)
            if entry.fault:
                draw(program, ["--around", "2"], log, out / f"{name}.svg")
            elif entry.k > 1:
                draw(program, ["--around", "0", "-k", str(entry.k - 1)], log, out / f"{name}.svg")
            return None
    return wrong


def draw(program, words, log, picture):
    """Draws the evidence of a log."""
    drawn, status, _ = kfifo(program, ["draw", "--evidence", *words], log)
    if status != 0:
        sys.exit(f"kfifo draw: {drawn}")
    picture.write_text(drawn)


def main():
    given = argparse.ArgumentParser(description=__doc__, formatter_class=argparse.RawDescriptionHelpFormatter)
    given.add_argument("--program", type=pathlib.Path, default=PROGRAM)
    given.add_argument("--out", type=pathlib.Path, default=HERE / "out/gallery")
    given.add_argument("--runs", type=int, default=100)
    words = given.parse_args()
    if not words.program.exists():
        sys.exit(f"there is no program {words.program}")
    build()
    words.out.mkdir(parents=True, exist_ok=True)
    failed = 0
    for entry in ENTRIES:
        wrong = tried(words.program.resolve(), entry, words.out, words.runs)
        if wrong is not None:
            failed += 1
            print(f"FAILED: {entry.title}: {wrong[:300]}", flush=True)
    print(f"{len(ENTRIES) - failed} passed, {failed} failed")
    return failed > 0


if __name__ == "__main__":
    os.environ["PYTHONDONTWRITEBYTECODE"] = "1"
    sys.exit(main())
