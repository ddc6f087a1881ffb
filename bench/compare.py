#!/usr/bin/env python3
"""Measures two builds of the library beside each other, and prints a table: for each workload of bench/run.py and each
of this repository's queues there, the median over the rounds of the ratio of their rates, with the quartiles, and the
geometric means. Each round runs both, the first one first in every other round.

    bench/compare.py LIBRARY OTHER [--rounds N] [--milliseconds M] [--only WORD] [--out FILE] [--built]
    bench/compare.py --looking [LIBRARY] ..     compares calls of one library: those that look for threads that wait
                                                with the exports, which do not
    bench/compare.py --many [LIBRARY] ..        compares 64 values or items at once with as many single calls
    bench/compare.py --growing [LIBRARY] ..     compares queues of values that may grow with one that cannot
    bench/compare.py --many --merge FILE ..     also puts the rows in the place of those of the same workloads of a page

LIBRARY and OTHER are files as c/out/libkfifo.a. The programs are built as bench/run.py builds them, and need the same;
those of --many need nothing but a compiler. With --built those of an earlier run are taken. A comparison within one
library is of its own calls: it prints which rows miss their goals, and without --merge the status is 1 then.
"""
import argparse
import math
import os
import statistics
import subprocess
import sys

import run
import tables

FOLDERS = [f"{run.OUT}/first", f"{run.OUT}/second"]
# What calls that look have to keep of the rate of those that do not, and 64 at once of that of single calls: on one
# thread the second, and elsewhere as much as single calls, within the noise.
LOOKING_GOAL, MANY_GOAL, LEAST = 0.97, 1.25, 0.97
# What a queue that may grow has to keep of the rate of one that cannot, and one that grows all the time.
MAY_GROW_GOAL, GROWS_GOAL = 0.97, 0.8
MANY = ["values in C", "items in C", "values in C++", "items in C++"]
SHAPES = [(1, 1024), (4, 256), (16, 64)]


def build(libraries):
    """Builds the programs over each of the two libraries."""
    for folder, library in zip(FOLDERS, libraries):
        run.OUT = folder
        run.build(os.path.abspath(library))


def pairs(milliseconds, only):
    """Yields each workload with each of our queues that it measures."""
    for workload in run.workloads(milliseconds):
        for queue in workload.queues:
            if queue[0].startswith("kfifo") and only in workload.title:
                yield workload, queue


def ratios(workload, queue, rounds):
    """Returns the ratio of the first library's rate to the second's, one for each round."""
    found = []
    for turn in range(rounds):
        rates = {}
        for folder in FOLDERS if turn % 2 == 0 else reversed(FOLDERS):
            run.OUT = folder
            rates[folder] = run.rate(queue, workload)
        found.append(rates[FOLDERS[0]] / rates[FOLDERS[1]])
    return found


def mean(medians):
    return math.exp(statistics.mean(math.log(it) for it in medians))


def table(rows):
    """The table of all workloads, and the geometric mean of their medians."""
    medians = [statistics.median(found) for *_, found in rows]
    lines = tables.table_of(["Workload", "Queue", "Ratio", "Quartiles"], map(cells, rows))
    return "\n".join([*lines, "", f"The geometric mean of these {len(rows)} ratios is {mean(medians):.2f}.", ""])


def cells(row):
    """The cells of a row: its title and its queue, and the median of its ratios with the quartiles."""
    title, queue, found = row
    first, middle, third = run.quartiles(found)
    return [title, queue, f"{middle:.2f}", f"{first:.2f} to {third:.2f}"]


def in_turn(words, others, rounds):
    """Returns the ratio of the rate that a command prints to that of another one, one for each round."""
    found = []
    for turn in range(rounds):
        rates = {}
        for one in (words, others) if turn % 2 == 0 else (others, words):
            ran = subprocess.run([str(it) for it in one], capture_output=True, text=True, timeout=120)
            if ran.returncode:
                sys.exit(f"{one}: {ran.stdout or ran.stderr}")
            rates[tuple(one)] = float(ran.stdout)
        found.append(rates[tuple(words)] / rates[tuple(others)])
    return found


def second(words, workloads):
    """Yields each of these workloads with its second queue, and the ratios of that one's rates to the first one's."""
    if not words.built:
        run.build(words.library and os.path.abspath(words.library))
    for workload in workloads:
        if words.only in workload.title:
            rates = run.measure(workload, words.rounds)
            yield workload, workload.queues[1], list(run.ratios(rates).values())[1]


def looking(words):
    """Yields a title and a label of each workload with calls that look, its ratios, and its goal."""
    for workload, (_, k), found in second(words, run.looking(words.milliseconds)):
        yield workload.title, f"k = {k}", found, LOOKING_GOAL


def growing(words):
    """The same of queues that may grow."""
    for workload, (name, k), found in second(words, run.growing(words.milliseconds)):
        yield workload.title, f"k = {k}", found, MAY_GROW_GOAL if "may" in name else GROWS_GOAL


def many(words):
    """The same of 64 at once, by one thread and by two that give and take."""
    library = os.path.abspath(words.library or f"{run.HERE}/../c/out/libkfifo.a")
    os.makedirs(run.OUT, exist_ok=True)
    program = f"{run.OUT}/many"
    build = [os.environ.get("CXX", "g++"), "-std=c++17", "-O2", f"-I{run.HERE}/../c/include", f"{run.HERE}/many.cpp"]
    subprocess.run([*build, library, "-o", program, "-pthread"], check=True)
    for threads in (1, 2):
        for what in MANY:
            for k, segments in SHAPES:
                title = f"{what}, " + ("one thread" if threads == 1 else "1 producer, 1 consumer")
                if words.only not in title:
                    continue
                shape = [k, segments, threads, words.milliseconds]
                found = in_turn([program, what, 64, *shape], [program, what, 1, *shape], words.rounds)
                yield title, f"k = {k}", found, MANY_GOAL if threads == 1 else LEAST


def within(words, of):
    """Prints the table of a comparison within one library, and returns whether a row misses its goal and nobody merges.
    """
    rows, missed = [], 0
    for title, label, found, goal in of(words):
        median = statistics.median(found)
        missed += median < goal
        rows.append((title, label, found))
        print(f"{title}, {label}: {median:.2f}" + f", and the goal is {goal}" * (median < goal), flush=True)
    print(table(rows))
    if words.merge:
        tables.put_rows(words.merge, map(cells, rows))
    if words.out:
        with open(words.out, "w") as written:
            written.write(table(rows))
    return missed > 0 and not words.merge


def main():
    given = argparse.ArgumentParser(description=__doc__, formatter_class=argparse.RawDescriptionHelpFormatter)
    given.add_argument("library", metavar="LIBRARY", nargs="?")
    given.add_argument("other", metavar="OTHER", nargs="?")
    given.add_argument("--looking", action="store_true")
    given.add_argument("--many", action="store_true")
    given.add_argument("--growing", action="store_true")
    given.add_argument("--rounds", type=int, default=15)
    given.add_argument("--milliseconds", type=int, default=50, help="of each run")
    given.add_argument("--only", default="", metavar="WORD", help="the workloads whose title has this word")
    given.add_argument("--out", metavar="FILE", help="where the table goes too")
    given.add_argument("--merge", metavar="FILE", help="the page that rows of calls within one library go into")
    given.add_argument("--built", action="store_true", help="compares calls of the programs that an earlier run built")
    words = given.parse_args()
    for of in (looking, many, growing):
        if getattr(words, of.__name__):
            sys.exit(within(words, of))
    if not words.other:
        given.error("it compares two libraries")
    build([words.library, words.other])
    rows = []
    for workload, queue in pairs(words.milliseconds, words.only):
        found = ratios(workload, queue, words.rounds)
        rows.append((workload.title, run.label(queue), found))
        print(f"{workload.title}, {run.label(queue)}: {statistics.median(found):.2f}", flush=True)
    print(table(rows))
    if words.out:
        with open(words.out, "w") as written:
            written.write(table(rows))


if __name__ == "__main__":
    main()
