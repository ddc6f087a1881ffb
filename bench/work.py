#!/usr/bin/env python3
"""Measures work that spawns work: kfifo::work::run beside the same loop by hand around other lists of tasks, beside
TBB's scheduler, and in Rust beside rayon's. Each round runs all lists one after the other, and begins with another one
than the round before. It prints tables in Markdown, with medians over the rounds. With --out it also writes them to
FOLDER/work.md, after an overview, and draws two pictures there: how many processors do tasks, and how long jobs wait.

    bench/work.py [--rounds N] [--only WORD] [--library FILE] [--small] [--out FOLDER]
    bench/work.py --rounds 7 --out docs/bench --page     also writes the section of docs/PERFORMANCE.md
    bench/work.py --again --out docs/bench --page        writes text and section anew, of the tables that are there

A list that takes longer than 20 seconds has `over 20 s` in its place. With --small the workloads are small ones, for a
look whether all run. It needs a C and a C++ compiler, cargo, and Debian's libtbb-dev, libconcurrentqueue-dev,
librust-crossbeam-queue-dev and librust-crossbeam-channel-dev; for the lists in Rust librust-rayon-dev, and for pictures
python3-matplotlib. FILE is a built libkfifo.a of that name.
"""
import argparse
import dataclasses
import glob
import importlib.util
import json
import os
import pathlib
import re
import statistics
import subprocess
import sys
import textwrap
import typing

import run

HERE = os.path.dirname(os.path.abspath(__file__))
OUT = f"{HERE}/out"
PAGE, SECTION = f"{HERE}/../docs/PERFORMANCE.md", f"{HERE}/work_section.md"
REGISTRY = "/usr/share/cargo/registry"
LIMIT = 20
THREADS = 4


class List(typing.NamedTuple):
    """Who does tasks: the program, its name there, its k, its title, and the color and the hatching of its bars."""

    program: str
    name: str
    k: int
    title: str
    color: str
    hatch: str = ""


OURS = [
    List("tasks", "run", 1, "this, k = 1", "#b8d0ee"),
    List("tasks", "run", 16, "this, k = 16", "#5b8bc9"),
    List("tasks", "run", 64, "this, k = 64", "#1f4e8c"),
]
LOOPS = [
    List("tasks", "moodycamel", 0, "moodycamel", "#e0e0e0", "//"),
    List("tasks", "tbb", 0, "TBB's queue", "#e0e0e0", "xx"),
    List("tasks", "array", 0, "ArrayQueue, spills", "white", ".."),
    List("tasks", "mutex", 0, "mutex and deque", "white"),
]
STEALS = List("tasks", "feeder", 0, "TBB's feeder", "#808080")
RUST = [
    List("rust_tasks", "run", 16, "this in Rust, k = 16", "#e8b070"),
    List("rust_tasks", "scope", 0, "rayon's scope", "#fff0d8", "//"),
    List("rust_tasks", "scope_fifo", 0, "rayon's scope_fifo", "#fff0d8", "xx"),
]


@dataclasses.dataclass
class Workload:
    """What is run: its title, the words of the program, what it prints, by whom, and by how many threads; and which of
    that has which columns in the table of the page."""

    title: str
    words: list
    columns: dict
    lists: list
    threads: int = THREADS
    page: dict = dataclasses.field(default_factory=dict)


def workloads(small):
    pancakes, side, depth, seconds = (8, 60, 10, 0.2) if small else (10, 700, 16, 5)
    everybody = [*OURS, *LOOPS, STEALS, *(RUST if has_rayon() else [])]
    found = {"seconds": "seconds", "tasks": "tasks a state"}
    title = f"States of {pancakes} pancakes, the nearest first"
    shown = {"seconds": "pancakes, s", "tasks": "tasks a state"}
    yield Workload(title, ["explore", pancakes], found, everybody, page=shown)
    shown = {"seconds": "grid, s", "tasks": "tasks a vertex"}
    yield Workload(f"Shortest paths in a grid of {side} x {side}", ["grid", side], found, everybody, page=shown)
    for nanoseconds in (100, 1000, 10000):
        for threads in (1, THREADS):
            shown = {"nanoseconds": f"{nanoseconds / 1000:g} µs, ns"} if threads > 1 else {}
            title = f"Tasks of {nanoseconds / 1000:g} µs that give two each, on {threads} thread"
            words = ["tree", nanoseconds, depth - (nanoseconds == 10000) * 3]
            yield Workload(title + "s" * (threads > 1), words, {"nanoseconds": "ns a task"}, everybody, threads, shown)
    waits = {"median": "median", "99": "99 of 100", "99.9": "99.9 of 100"}
    for percent in (50, 90):
        title = f"From give to begin, with the workers busy for {percent} % of the time, in microseconds"
        yield Workload(title, ["jobs", percent], waits, everybody, page={"99.9": f"{percent} % busy, µs"})
    used = {"microseconds": "microseconds"}
    title = f"A processor's time for each worker that waits for {seconds} seconds"
    yield Workload(title, ["idle", seconds], used, OURS)
    lists = [*OURS, STEALS, *(RUST[:1] if has_rayon() else [])]
    for tasks in (1, 2, THREADS, 100):
        yield Workload(f"A run of {tasks} task" + "s" * (tasks != 1), ["runs", tasks], used, lists)


def has_rayon():
    return bool(glob.glob(f"{REGISTRY}/rayon-*"))


def cargo(folder, *words, **environment):
    """Builds a crate of this folder with what Debian has of other crates."""
    debian = ['source.crates-io.replace-with="debian"', f'source.debian.directory="{REGISTRY}"']
    source = [word for line in debian for word in ("--config", line)]
    environment = {**os.environ, "CARGO_TARGET_DIR": f"{OUT}/target", **environment}
    built = ["cargo", "rustc", "--quiet", "--release", "--offline", *source, "--", *words]
    subprocess.run(built, cwd=f"{HERE}/{folder}", env=environment, check=True)


def build(library):
    """Builds the programs over this library, or over that of c/."""
    os.makedirs(OUT, exist_ok=True)
    if not library:
        subprocess.run(["make", "-C", f"{HERE}/../c", "out/libkfifo.a"], check=True, stdout=subprocess.DEVNULL)
        library = f"{HERE}/../c/out/libkfifo.a"
    work = f"{OUT}/work.o"
    subprocess.run([os.environ.get("CC", "gcc"), "-O2", "-c", f"{HERE}/work.c", "-o", work], check=True)
    cargo("array_queue")
    if has_rayon():
        cargo("rust_tasks", "-C", f"link-arg={work}", KFIFO_LIB_DIR=os.path.dirname(os.path.abspath(library)))
    else:
        print("The lists in Rust are skipped: librust-rayon-dev is not installed.\n")
    words = [os.environ.get("CXX", "g++"), "-std=c++17", "-O2", f"-I{HERE}/../c/include", f"{HERE}/tasks.cpp"]
    words += [work, library, f"{OUT}/target/release/libarray_queue.a", "-o", f"{OUT}/tasks"]
    subprocess.run([*words, "-ltbb", "-pthread", "-ldl"], check=True)


def ran(one, workload):
    """Returns what one run printed, or None where it took too long."""
    folder = OUT if one.program == "tasks" else f"{OUT}/target/release"
    words = [f"{folder}/{one.program}", one.name, workload.threads, one.k, *workload.words]
    try:
        done = subprocess.run([str(it) for it in words], capture_output=True, text=True, timeout=LIMIT)
    except subprocess.TimeoutExpired:
        return None
    if done.returncode:
        sys.exit(f"{one.title}, {workload.title}: status {done.returncode}\n{done.stdout}{done.stderr}")
    return json.loads(done.stdout)


def measure(workload, rounds):
    """Returns for each list what its runs printed. One that took too long is not run again."""
    found = {one: [] for one in workload.lists}
    for turn in range(rounds):
        begin = turn % len(workload.lists)
        for one in workload.lists[begin:] + workload.lists[:begin]:
            if None not in found[one]:
                found[one].append(ran(one, workload))
    sums = {it["sum"] for runs in found.values() for it in runs if it and "sum" in it}
    if len(sums) > 1:
        sys.exit(f"{workload.title}: the distances differ, with sums of {sums}")
    return found


def shown(figure):
    """Returns a figure as the tables have it."""
    return f"{figure:,.0f}" if figure >= 1000 else f"{figure:.4g}"


def number(text):
    return float(text.replace(",", ""))


def median(found, one, key):
    """Returns the median of what the runs of a list printed, as the tables have it; None where one took too long."""
    return None if None in found[one] else number(shown(statistics.median(it[key] for it in found[one])))


def table(workload, found):
    """Returns the lines of a table: a row for each list."""
    heads = list(workload.columns.values())
    lines = [f"**{workload.title}**", "", f"| | {' | '.join(heads)} |", f"|---|{'---|' * len(heads)}"]
    for one, runs in found.items():
        if None in runs:
            cells = [f"over {LIMIT} s"] + [""] * (len(heads) - 1)
        else:
            cells = [shown(median(found, one, key)) for key in workload.columns]
        lines.append(f"| {one.title} | {' | '.join(cells)} |")
    return [*lines, ""]


def read(file):
    """Returns what `write` wrote: the first line, and for each workload the medians of its lists."""
    head, *parts = re.split(r"^\*\*(.*)\*\*\n\n", pathlib.Path(file).read_text(), flags=re.M)
    tables = dict(zip(parts[::2], parts[1::2]))
    lists = {it.title: it for it in [*OURS, *LOOPS, STEALS, *RUST]}
    measured = []
    for workload in workloads(False):
        found = {}
        for line in tables[workload.title].strip().splitlines()[2:]:
            title, *cells = [it.strip() for it in line.strip("|").split("|")]
            is_over = cells[0].startswith("over")
            found[lists[title]] = [None if is_over else dict(zip(workload.columns, map(number, cells)))]
        measured.append((workload, found))
    return head.partition("\n")[0] + "\n", measured


def overview(measured):
    """Returns the lines of the table of the page. In brackets it has of tasks of a given time how many times the rate
    of one thread that is, and of jobs the median."""
    alone = {workload.words[1]: found for workload, found in measured if workload.threads == 1}
    columns = [(*it, key) for it in measured for key in it[0].page]
    heads = [workload.page[key] for workload, _, key in columns]
    lines = [f"| | {' | '.join(heads)} |", f"|---|{'---|' * len(heads)}"]
    for one in columns[0][1]:
        cells = []
        for workload, found, key in columns:
            figure = median(found, one, key)
            cells.append(f"over {LIMIT} s" if figure is None and key == "seconds" else "")
            if figure is not None:
                is_search = workload.words[0] in ("explore", "grid")
                cells[-1] = f"{figure:.{3 if figure < 10 else 2}f}" if is_search else f"{figure:,.0f}"
            if figure and key == "nanoseconds":
                cells[-1] += f" ({median(alone[workload.words[1]], one, key) / figure:.2f})"
            if figure and workload.words[0] == "jobs":
                cells[-1] += f" ({shown(median(found, one, 'median'))})"
        lines.append(f"| {one.title} | {' | '.join(cells)} |")
    return lines


def beside(found, one, others, key, choose=min):
    """Returns how many times the least figure of other lists this one has, or the greatest one, and whose that is."""
    medians = {it: median(found, it, key) or LIMIT for it in [one, *others]}
    other = choose(others, key=medians.get)
    times = medians[one] / medians[other]
    return f"{times:.2f}" if times < 10 else f"{times:.0f}", other.title.partition(",")[0]


def by_words(measured):
    """Returns what was found by the kind of the workload, the size of its tasks or its load, and the threads."""
    return {(it.words[0], *it.words[1:2] * (it.words[0] in ("tree", "jobs")), it.threads): its for it, its in measured}


def speed(found, one, nanoseconds):
    """Returns how many times the rate of one thread four threads have, with tasks that take so long."""
    alone, together = (median(found["tree", nanoseconds, it], one, "nanoseconds") for it in (1, THREADS))
    return alone / together


def of_search_and_tasks(found, one, others):
    """Returns the sentences on a list, beside others of its language, but those on jobs."""
    explore = found["explore", THREADS]
    time, fastest = beside(explore, one, others, "seconds")
    cost, cheapest = beside(found["tree", 100, THREADS], one, others, "nanoseconds")
    own = [speed(found, one, it) for it in (1000, 10000)]
    least, most = ([choose(speed(found, it, size) for it in others) for size in (1000, 10000)] for choose in (min, max))
    return (
        f"with k = {one.k} the search takes {time} times as long as with {fastest}, the fastest other list, and"
        f" {median(explore, one, 'tasks') or 0:.3f} tasks a state. A task of 0.1 µs costs {cost} times as much as with"
        f" {cheapest}, the cheapest other one. Of tasks of 1 and 10 µs four threads do {own[0]:.2f} and {own[1]:.2f}"
        f" times as many as one, and with the others {least[0]:.2f} to {most[0]:.2f} and {least[1]:.2f} to"
        f" {most[1]:.2f} times."
    )


def of_jobs(found, one, others):
    """Returns the sentence on how long jobs wait, beside the best and the worst of other lists."""
    figures = []
    for percent in (50, 90):
        jobs = found["jobs", percent, THREADS]
        figures += [it for choose in (min, max) for it in beside(jobs, one, others, "99.9", choose)]
    return (
        "With workers busy half of the time, 999 of 1,000 jobs begin within %s times the time of the best other list"
        " (%s) and %s times that of the worst (%s), with nine tenths within %s (%s) and %s times (%s)." % tuple(figures)
    )


def sentences(measured):
    """Returns what the page says of the figures, of each language a paragraph."""
    found = by_words(measured)
    return "\n\n".join(
        textwrap.fill(f"In {language} {of_search_and_tasks(found, one, others)} {of_jobs(found, one, others)}", 120)
        for language, one, others in (("C++", OURS[1], [*LOOPS, STEALS]), ("Rust", RUST[0], RUST[1:]))
        if one in found["explore", THREADS]
    )


def section(measured):
    """Returns the section of the page."""
    return pathlib.Path(SECTION).read_text().format(table="\n".join(overview(measured)))


def put_on_page(text):
    """Writes the section of the page, in the place of the one that is there."""
    head = re.escape(text.partition("\n")[0])
    there = rf"(?:^{head}\n.*?)?^(?=## More processors)"
    page = pathlib.Path(PAGE)
    page.write_text(re.sub(there, lambda _: text, page.read_text(), count=1, flags=re.M | re.S))


def draw(file, head, unit, measured, height, scale):
    """Draws a group of bars for each of these workloads: of each list the height of its runs."""
    # Only pictures need it.
    from matplotlib import pyplot

    # The same figures give the same file.
    pyplot.rcParams["svg.hashsalt"] = "kfifo"
    figure, axes = pyplot.subplots(figsize=(9, 4), layout="constrained")
    lists = list(measured[0][1])
    width = 0.84 / len(lists)
    for place, one in enumerate(lists):
        heights = [height(workload, found, one) for workload, found in measured]
        left = [group + (place - (len(lists) - 1) / 2) * width for group in range(len(measured))]
        look = {"color": one.color, "hatch": one.hatch, "edgecolor": "black", "linewidth": 0.5}
        axes.bar(left, heights, width, label=one.title, **look)
    names = [textwrap.fill(it.title, 120 // len(measured)) for it, _ in measured]
    axes.set_xticks(range(len(measured)), names, fontsize=8)
    axes.set_yscale(scale)
    axes.set_title(head, fontsize=10)
    axes.set_ylabel(unit, fontsize=8)
    axes.grid(axis="y", linewidth=0.3)
    axes.legend(fontsize=8, ncols=4, loc="upper center", bbox_to_anchor=(0.5, -0.14))
    figure.savefig(file, metadata={"Date": None})
    pyplot.close(figure)


def busy(workload, found, one):
    """Returns how many processors do tasks in the mean: the time that the work of a task takes, for each one's cost."""
    cost = median(found, one, "nanoseconds")
    return workload.words[1] / cost if cost else 0


def longest(_, found, one):
    return median(found, one, "99.9") or 0


def write(options, about, measured):
    """Writes the tables, after an overview where all was measured, and the section of the page."""
    tables = [about]
    if not options.only:
        tables += [*overview(measured), "", sentences(measured), ""]
        if options.page:
            put_on_page(section(measured))
    tables += [line for workload, found in measured for line in table(workload, found)]
    with open(f"{options.out}/work.md", "w") as written:
        written.write("\n".join(tables))


def draw_all(folder, measured):
    """Draws the pictures of those workloads that were measured."""
    trees = [it for it in measured if it[0].words[0] == "tree" and it[0].threads > 1]
    jobs = [it for it in measured if it[0].words[0] == "jobs"]
    if trees:
        head = "How many of four processors do tasks, in the mean"
        draw(f"{folder}/work_tasks.svg", head, "processors", trees, busy, "linear")
    if jobs:
        head = "How long 99.9 of 100 jobs wait at most"
        draw(f"{folder}/work_jobs.svg", head, "microseconds", jobs, longest, "log")


def main():
    given = argparse.ArgumentParser(description=__doc__, formatter_class=argparse.RawDescriptionHelpFormatter)
    given.add_argument("--rounds", type=int, default=7)
    given.add_argument("--only", default="", help="workloads whose title has this word")
    given.add_argument("--library", help="a built libkfifo.a")
    given.add_argument("--small", action="store_true")
    given.add_argument("--out", metavar="FOLDER")
    given.add_argument("--page", action="store_true")
    given.add_argument("--again", action="store_true", help="write of the tables of FOLDER, and measure nothing")
    options = given.parse_args()
    if (options.page or options.again) and (options.small or options.only or not options.out):
        given.error("--page and --again need all workloads in full, and --out")
    if options.again:
        write(options, *read(f"{options.out}/work.md"))
        return
    if options.out and not importlib.util.find_spec("matplotlib"):
        given.error("--out needs python3-matplotlib")
    build(options.library and os.path.abspath(options.library))
    about = f"{run.machine()}; {options.rounds} rounds; load of the machine before: {os.getloadavg()[0]:.1f}; a job"
    about += " takes 20 µs while all threads work.\n"
    measured = []
    for workload in workloads(options.small):
        if options.only in workload.title:
            measured.append((workload, measure(workload, options.rounds)))
            print("\n".join(table(*measured[-1])), flush=True)
    if options.out:
        os.makedirs(options.out, exist_ok=True)
        write(options, about, measured)
        draw_all(options.out, measured)


if __name__ == "__main__":
    main()
