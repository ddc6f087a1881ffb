#!/usr/bin/env python3
"""Builds the queues that are compared, runs them round by round, and writes a table and pictures.

Each round runs all queues one after the other, and begins with another one than the round before. A ratio compares two
rates of one round; the table has the median of these ratios over the rounds, with the quartiles. Each run checks that
what went in came out. The table begins with overviews, a row for each workload. Some workloads are an application:
threads that share one queue of vertices find a spanning tree of a random graph. Then come queues of values of 8, 16 and
64 bytes. Where a row has work between calls, the work is the same function for each queue; the rows of one thread that
only works show that it takes as long in the loop of each. A column says what order a queue keeps; one with no order
across producers has a mark. Last come tables of their own: of calls that wait, of how long a value is in the queue, and
of how long a hand-over to a thread that sleeps takes.

    bench/run.py [--rounds N] [--milliseconds M] [--only WORD] [--out FOLDER] [--library FILE]
    bench/run.py --merge docs/bench/table.md .. puts the tables in the place of those of the same titles there, makes
                                                its overviews anew, and draws the pictures beside it
    bench/run.py --build [--library FILE]       only builds the programs
    bench/run.py --built ..                     measures with what was built before

bench/figures.py --write then writes the pages. It needs rt (not with --library), a C and a C++ compiler, cargo, and
Debian's libboost-dev, libtbb-dev, libck-dev, libcds-dev, libconcurrentqueue-dev, librust-crossbeam-queue-dev,
librust-crossbeam-channel-dev and python3-matplotlib.
"""
import argparse
import dataclasses
import importlib.util
import os
import pathlib
import platform
import statistics
import subprocess
import sys

import tables

HERE = os.path.dirname(os.path.abspath(__file__))
OUT = f"{HERE}/out"
PROGRAMS = ["rates", "spanning_tree", "waiting", "time_in_queue", "waking"]
# name, producers, consumers, threads that alternate both
CALLS = [
    ("one thread", 0, 0, 1),
    ("1 producer, 1 consumer", 1, 1, 0),
    ("2 producers, 2 consumers", 2, 2, 0),
    ("1 producer, 3 consumers", 1, 3, 0),
    ("3 producers, 1 consumer", 3, 1, 0),
    ("4 alternating threads", 0, 0, 4),
    ("8 alternating threads", 0, 0, 8),
]
WORK = [0, 100]
# One thread that makes no calls: the work has to take as long in the program of each queue.
ONLY_WORK = "one thread that only works"
CAPACITIES = [1024, 16384]
# The capacity of the queues of values.
VALUES_CAPACITY = 1024
# The spanning tree: threads, and the vertices and edges of the graph.
TREES = [2, 4, 8]
TREE_OF_VALUES = [("array-16", 0), ("mutex-16", 0), ("tbb-16", 0), ("vyukov-16", 0)]
TREE_OF_VALUES += [(name, k) for name in ("kfifo-16", "kfifo-grows-16") for k in (4, 16, 64)]
VERTICES, EDGES = 400_000, 1_600_000
TREE_CAPACITY = 16384
PEERS = [("array", 0), ("boost", 0), ("tbb", 0), ("ck", 0), ("mutex", 0), ("vyukov", 0)]
PEERS += [("segmented", 16), ("segmented", 64)]
PEERS += [("tbb-unbounded", 0), ("moodycamel", 0), ("moodycamel-tokens", 0)]
NAMES = {
    "array": "ArrayQueue",
    "boost": "Boost lockfree",
    "tbb": "TBB bounded",
    "ck": "CK ring",
    "mutex": "mutex and deque",
    "vyukov": "libcds Vyukov ring",
    "segmented": "libcds SegmentedQueue",
    "tbb-unbounded": "TBB unbounded",
    "moodycamel": "moodycamel †",
    "moodycamel-tokens": "moodycamel with tokens †",
    "kfifo": "kfifo",
    "kfifo-at-random": "kfifo, random starts",
    "kfifo-stride-0": "kfifo, no stride",
    "kfifo-stride-1": "kfifo, a stride of 1",
    "kfifo-in-c": "plain calls",
    "kfifo-in-c-looking": "calls that look for waiting threads",
    "kfifo-values-in-c": "plain calls of values",
    "kfifo-values-in-c-looking": "calls of values that look",
    "kfifo-may-grow-16": "a queue that may grow",
    "kfifo-grows-16": "a queue that grows",
}
# The order that a queue keeps, where it is not FIFO, and what the mark beside a name says.
ORDERS = {"segmented": "k-relaxed", "moodycamel": "each producer's alone", "moodycamel-tokens": "each producer's alone"}
ORDERS |= {name: "one of the k oldest" for name in NAMES if name.startswith("kfifo")}
MARK = "† Keeps the order of each producer alone. Queues that are not bounded never refuse a put.\n"
# The sizes of values, in bytes, and the queues of others that are measured with them.
SIZES = [8, 16, 64]
OF_VALUES = ["array", "mutex", "boost", "tbb", "vyukov", "tbb-unbounded", "moodycamel", "moodycamel-tokens"]
NAMES |= {f"{name}-{size}": NAMES[name] for name in [*OF_VALUES, "kfifo"] for size in SIZES}
ORDERS |= {f"{name}-{size}": order for name, order in ORDERS.items() for size in SIZES}
OURS = [("kfifo", 1), ("kfifo", 4), ("kfifo", 16), ("kfifo", 64), ("kfifo-at-random", 16), ("kfifo-at-random", 64)]
OURS += [("kfifo-stride-0", 64), ("kfifo-stride-1", 64)]
# Calls that look for threads that wait, each after the plain ones that it is compared with.
LOOKING = [[(name, 16), (f"{name}-looking", 16)] for name in ("kfifo-in-c", "kfifo-values-in-c")]
# Queues of values that may grow, each after one that cannot. Where takers keep up they do not grow. With more givers
# than takers they grow all the time.
MAY_GROW = [[("kfifo-16", k), ("kfifo-may-grow-16", k)] for k in (16, 64)]
GROWS = [[("kfifo-16", k), ("kfifo-grows-16", k)] for k in (64,)]
GROWN_CAPACITY = 65_536
KEEPING_UP = [it for it in CALLS if it[1] < it[2] or it[3]]
GROWING_CALLS = [("2 producers, 1 consumer", 2, 1, 0), ("3 producers, 1 consumer", 3, 1, 0)]
# Calls that wait: the producers, the consumers, and the nanoseconds of work between the calls of either.
WAITING_TITLE = "calls that wait"
WAITING = [
    (1, 1, [(0, 0), (100, 100)]),
    (2, 2, [(0, 0), (200, 200)]),
    (1, 3, [(0, 0), (100, 300), (1000, 3000)]),
    (3, 1, [(0, 0), (300, 100)]),
]
WAITERS = {("channel", 0): "crossbeam-channel", ("tbb", 0): "TBB bounded", ("mutex", 0): "mutex and deque"}
WAITERS |= {("kfifo", k): f"kfifo, k = {k}" for k in (16, 64)}
# How long values are in the queue: the threads, the percents of the time that the work on values keeps takers busy, and
# the nanoseconds of that work. Calls take some hundred more, for which 90 % has to leave time. A run has few values, so
# it lasts LONGER times as long as others, but no longer than LONGEST.
IN_QUEUE_TITLE = "time in the queue"
IN_QUEUE = [("2 producers, 2 consumers", 2, 2, 0), ("4 alternating threads", 0, 0, 4)]
LOADS, WORK_ON_A_VALUE, LONGER, LONGEST = [50, 90], 10_000, 10, 4000
IN_QUEUE_OF = {("kfifo", k): f"kfifo, k = {k}" for k in (1, 4, 16, 64)}
IN_QUEUE_OF |= {("array", 0): "ArrayQueue", ("channel", 0): "crossbeam-channel", ("moodycamel", 0): NAMES["moodycamel"]}
QUANTILES = ["median", "99th percentile", "99.9th percentile"]
# Hand-overs to a thread that sleeps: how many in a round, and the microseconds between two.
WAKING_TITLE = "waking a thread that sleeps"
HAND_OVERS, REST = 2000, 100


@dataclasses.dataclass
class Workload:
    """What queues are measured at: its title, the queues, the first of which the others are compared with, its
    capacity, and the program with its arguments after the queue's."""

    title: str
    queues: list
    capacity: int
    program: str
    words: list


def between(work):
    """The end of a title: the work that a thread does between two calls, if any."""
    return f", {work} ns of work between calls" if work else ""


def loads(capacity):
    """The end of each title, with its threads that put, that take and that do both, and the work of each."""
    for name, *threads in CALLS:
        for work in WORK:
            yield f"{name}, capacity {capacity:,}" + between(work), [*threads, work]
    yield f"{ONLY_WORK}, capacity {capacity:,}, {WORK[1]} ns of work", [0, 0, 0, WORK[1]]


def workloads(milliseconds):
    """All workloads, calls alone first."""
    made = []
    for capacity in CAPACITIES:
        for title, words in loads(capacity):
            made.append(Workload(title, queues(capacity), capacity, "rates", [*words, milliseconds]))
    for threads in TREES:
        title = f"spanning tree by {threads} threads, capacity {TREE_CAPACITY:,}"
        words = [threads, VERTICES, EDGES]
        made.append(Workload(title, queues(TREE_CAPACITY), TREE_CAPACITY, "spanning_tree", words))
        made.append(Workload(f"values of 16 bytes, {title}", TREE_OF_VALUES, TREE_CAPACITY, "spanning_tree", words))
    for size in SIZES:
        # ArrayQueue comes first here too.
        compared = [*((f"{name}-{size}", 0) for name in OF_VALUES), *((f"kfifo-{size}", k) for k in (4, 16, 64))]
        for title, words in loads(VALUES_CAPACITY):
            title = f"values of {size} bytes, {title}"
            made.append(Workload(title, compared, VALUES_CAPACITY, "rates", [*words, milliseconds]))
    return made


def looking(milliseconds):
    """The workloads of calls that look for threads that wait, beside those that do not."""
    for pair in LOOKING:
        for name, *threads in CALLS:
            kind = "values" if "values" in pair[0][0] else "items"
            yield Workload(f"{kind}, {name}", pair, VALUES_CAPACITY, "rates", [*threads, 0, milliseconds])


def growing(milliseconds):
    """The workloads of queues that may grow, or that grow, beside one that cannot."""
    for pairs, calls, capacity in (MAY_GROW, KEEPING_UP, VALUES_CAPACITY), (GROWS, GROWING_CALLS, GROWN_CAPACITY):
        for pair in pairs:
            for name, *threads in calls:
                yield Workload(name, pair, capacity, "rates", [*threads, 0, milliseconds])


def build(library=None):
    """Builds the queues and the programs over this library, or over that of c/."""
    os.makedirs(OUT, exist_ok=True)
    if not library:
        subprocess.run(["make", "-C", f"{HERE}/../c", "out/libkfifo.a"], check=True, stdout=subprocess.DEVNULL)
        library = f"{HERE}/../c/out/libkfifo.a"
    debian = ['source.crates-io.replace-with="debian"', 'source.debian.directory="/usr/share/cargo/registry"']
    source = [word for line in debian for word in ("--config", line)]
    target = {**os.environ, "CARGO_TARGET_DIR": f"{OUT}/target"}
    cargo = ["cargo", "build", "--quiet", "--release", "--offline", *source]
    subprocess.run(cargo, cwd=f"{HERE}/array_queue", env=target, check=True)
    gcc = [os.environ.get("CC", "gcc"), "-O2"]
    objects = []
    for name in ["ck_queue", "work"]:
        objects.append(f"{OUT}/{name}.o")
        subprocess.run([*gcc, "-c", f"{HERE}/{name}.c", "-o", objects[-1]], check=True)
    for program in PROGRAMS:
        words = [os.environ.get("CXX", "g++"), "-std=c++17", "-O2", f"-I{HERE}/../c/include", f"{HERE}/{program}.cpp"]
        words += [*objects, library, f"{OUT}/target/release/libarray_queue.a"]
        words += ["-o", f"{OUT}/{program}", "-ltbb", "-lck", "-lcds", "-pthread", "-ldl"]
        subprocess.run(words, check=True)


def queues(capacity):
    """The queues of a capacity: a kfifo has at most 1,024 segments."""
    return PEERS + [(name, k) for name, k in OURS if 2 <= capacity // k <= 1024]


def label(queue):
    name, k = queue
    return f"{NAMES[name]}, k = {k}" if k else NAMES[name]


def rate(queue, workload):
    """Calls that put or took an item, times of work alone, or vertices, a second."""
    words = [f"{OUT}/{workload.program}", *queue, workload.capacity, *workload.words]
    ran = subprocess.run([str(it) for it in words], capture_output=True, text=True, timeout=120)
    if ran.returncode:
        sys.exit(f"{label(queue)}, {workload.title}: {ran.stdout or ran.stderr}")
    return float(ran.stdout)


def measure(workload, rounds):
    """The rates of each queue, one for each round."""
    rates = {it: [] for it in workload.queues}
    for queue in in_turn(workload.queues, rounds):
        rates[queue].append(rate(queue, workload))
    return rates


def in_turn(queues, rounds):
    """All queues in each round, which begins with another one than the round before."""
    for turn in range(rounds):
        first = turn % len(queues)
        yield from queues[first:] + queues[:first]


def quartiles(values):
    """The first quartile, the median and the third."""
    if len(values) == 1:
        return values[0], values[0], values[0]
    first, middle, third = statistics.quantiles(values, n=4, method="inclusive")
    return first, middle, third


def ratios(rates):
    """The ratios of each queue's rates to those of the first queue, one for each round."""
    base = next(iter(rates.values()))
    return {queue: [it / by for it, by in zip(values, base)] for queue, values in rates.items()}


def how(rates, milliseconds):
    """What a table says of its runs."""
    rounds = len(next(iter(rates.values())))
    return f"{rounds} round{'s' * (rounds > 1)}" + f" of {milliseconds} ms" * bool(milliseconds)


def table(workload, rates):
    """The rates of a workload, and their ratios to those of its first queue."""
    title = workload.title
    unit = "vertices" if "spanning" in title else "times" if ONLY_WORK in title else "calls"
    one = {"vertices": "vertex", "times": "time", "calls": "call"}[unit]
    heads = ["Queue", "Order", f"Million {unit} a second", f"ns a {one}", f"Ratio to {label(next(iter(rates)))}"]
    rows = []
    for queue, its_ratios in ratios(rates).items():
        first, middle, third = quartiles(its_ratios)
        speed = statistics.median(rates[queue])
        figures = [f"{speed / 1e6:.2f}", f"{1e9 / speed:.1f}", f"{middle:.2f}", f"{first:.2f} to {third:.2f}"]
        rows.append([label(queue), ORDERS.get(queue[0], "FIFO"), *figures])
    milliseconds = workload.words[-1] if workload.program == "rates" else 0
    return tables.part_of(title, how(rates, milliseconds), [*heads, "Quartiles"], rows)


def overviews(parts):
    """The lines of tables with a row for each workload and each queue's median ratio to the first queue; a table for
    each first queue."""
    rows = {}
    for it in workloads(0):
        if it.title in parts:
            rows.setdefault(it.queues[0], {})[it.title] = tables.ratios_of(parts[it.title])
    for first, its in rows.items():
        names = dict.fromkeys(name for row in its.values() for name in row if name != label(first))
        yield from tables.table_of(["Workload", *names], ([it, *medians(row, names)] for it, row in its.items()))
        yield ""


def medians(row, names):
    """The median ratios of these queues in a row, each empty where the row has none."""
    return [row[name][1] if name in row else "" for name in names]


def page_parts():
    """The tables of docs/PERFORMANCE.md: the head, the queues, and the title of each row's workload."""

    def calls(kind, capacity, works=WORK):
        names = [(name, work) for work in works for name, *_ in CALLS]
        return {name + ", with work" * bool(work): f"{kind}{name}, {capacity}{between(work)}" for name, work in names}

    def trees(kind=""):
        return {str(n): f"{kind}spanning tree by {n} threads, capacity {TREE_CAPACITY:,}" for n in TREES}

    ours, of_values = (4, 16, 64), "values of 16 bytes, "
    others = ["vyukov", "mutex", "moodycamel", "moodycamel-tokens"]
    numbers = [*(("kfifo", k) for k in ours), *((name, 0) for name in others)]
    values = [*(("kfifo-16", k) for k in ours), *((f"{name}-16", 0) for name in others)]
    tree_of_values = [("kfifo-16", 16), ("kfifo-16", 64), ("kfifo-grows-16", 16)]
    tree_of_values += [(f"{name}-16", 0) for name in ("tbb", "vyukov", "mutex")]
    return [
        ("Workload", numbers, calls("", f"capacity {CAPACITIES[0]:,}")),
        ("Values of 16 bytes", values, calls(of_values, f"capacity {VALUES_CAPACITY:,}", WORK[:1])),
        ("Threads", [("kfifo", 16), ("kfifo", 64), ("tbb", 0), ("vyukov", 0), ("mutex", 0)], trees()),
        ("Threads, values of 16 bytes", tree_of_values, trees(of_values)),
    ]


def column(queue):
    """The head of a queue's column on the page."""
    name, k = queue
    return "grows, " * ("grows" in name) + f"k = {k}" if k else NAMES[name]


def waits():
    """The title of each workload of calls that wait, with its producers and consumers and the work of either."""
    for producers, consumers, works in WAITING:
        for work in works:
            told = "work of {} and {} ns".format(*work) if any(work) else "no work"
            yield f"{WAITING_TITLE}: {producers} + {consumers}, {told}", [producers, consumers, *work]


def waiting(rounds, milliseconds):
    """Yields the title and the table of each workload of calls that wait."""
    for title, words in waits():
        runs = {it: [] for it in WAITERS}
        for queue in in_turn(list(WAITERS), rounds):
            runs[queue].append(printed("waiting", queue, [VALUES_CAPACITY, *words, milliseconds]))
        yield title, waiting_table(title, runs, milliseconds)


def printed(program, queue, words):
    """The numbers that one run of a program prints."""
    words = [str(it) for it in [f"{OUT}/{program}", *queue, *words]]
    ran = subprocess.run(words, capture_output=True, text=True, timeout=120)
    if ran.returncode:
        sys.exit(f"{words}: {ran.stdout or ran.stderr}")
    return [float(it) for it in ran.stdout.split()]


def waiting_table(title, runs, milliseconds):
    """The values a second, the processor time of a value, and the ratios to the channel of one workload."""
    heads = ["Queue", "Million values a second", "Processor, ns a value", "Ratio to crossbeam-channel", "Quartiles"]
    rows = []
    for queue, its_ratios in ratios({it: [rate for rate, _ in run] for it, run in runs.items()}).items():
        first, middle, third = quartiles(its_ratios)
        speed, cost = (statistics.median(column) for column in zip(*runs[queue]))
        figures = [f"{speed / 1e6:.2f}", f"{cost:.0f}", f"{middle:.2f}", f"{first:.2f} to {third:.2f}"]
        rows.append([WAITERS[queue], *figures])
    return tables.part_of(title, how(runs, milliseconds), heads, rows)


def loads_in_queue():
    """The title of each workload of values whose time in the queue is measured, with its threads and its load."""
    for name, *threads in IN_QUEUE:
        for load in LOADS:
            yield f"{IN_QUEUE_TITLE}: {name}, {load} % load", [*threads, load]


def in_queue(rounds, milliseconds):
    """Yields the title and the table of each such workload: the medians over the rounds of the quantiles."""
    milliseconds = min(LONGER * milliseconds, LONGEST)
    heads = ["Queue", *(f"{it}, ns" for it in QUANTILES), "Thousand values a second"]
    for title, words in loads_in_queue():
        runs = {it: [] for it in IN_QUEUE_OF}
        for queue in in_turn(list(IN_QUEUE_OF), rounds):
            its = [VALUES_CAPACITY, *words, WORK_ON_A_VALUE, milliseconds]
            runs[queue].append(printed("time_in_queue", queue, its))
        rows = []
        for queue, run in runs.items():
            *times, speed = (statistics.median(column) for column in zip(*run))
            rows.append([IN_QUEUE_OF[queue], *(f"{it:,.0f}" for it in times), f"{speed / 1000:,.0f}"])
        told = f"{how(runs, milliseconds)}; {WORK_ON_A_VALUE / 1000:g} µs of work on a value"
        yield title, tables.part_of(title, told, heads, rows)


def waking(rounds):
    """The table of hand-overs to a thread that sleeps."""
    words = [f"{OUT}/waking", str(HAND_OVERS), str(REST), str(rounds)]
    ran = subprocess.run(words, check=True, capture_output=True, text=True)
    head, _, *rows = map(tables.cells, ran.stdout.splitlines())
    told = f"{rounds} rounds of {HAND_OVERS:,} hand-overs"
    return tables.part_of(WAKING_TITLE, told, head, rows)


def machine():
    try:
        with open("/proc/cpuinfo") as file:
            model = next(it.split(":", 1)[1].strip() for it in file if it.startswith("model name"))
    except (OSError, StopIteration):
        model = platform.processor() or platform.machine()
    return f"{model}, {len(os.sched_getaffinity(0))} processors, {platform.system()} {platform.release()}"


def titles():
    """The titles of all tables, in their order."""
    return [*(it.title for it in workloads(0)), *(title for title, _ in [*waits(), *loads_in_queue()]), WAKING_TITLE]


def text_of(about, parts):
    """The text of table.md: the overviews, and the tables."""
    return "\n".join([about, *overviews(parts), MARK, *parts.values()])


def merged(text, about, parts):
    """The text of a table.md with these tables in the place of those of the same titles. The line about the machine
    stays where other tables stay too. One that no workload has the title of goes."""
    before, old = tables.parts_of(text)
    known = titles()
    for title in old:
        if title not in known:
            print(f"There is no workload of the title {title}: its table goes.")
    if any(it in known and it not in parts for it in old):
        about = before.partition("\n\n")[0] + "\n"
    both = {**old, **parts}
    return text_of(about, {it: both[it] for it in known if it in both})


def options():
    """The options of the command line."""
    given = argparse.ArgumentParser(description=__doc__, formatter_class=argparse.RawDescriptionHelpFormatter)
    given.add_argument("--rounds", type=int, default=15)
    given.add_argument("--milliseconds", type=int, default=200, help="of each run")
    given.add_argument("--only", default="", metavar="WORD", help="the workloads whose title has this word")
    given.add_argument("--out", default=OUT, metavar="FOLDER", help="where the tables and the pictures go")
    given.add_argument("--merge", metavar="FILE", help="the tables that these ones go into, in place of FOLDER")
    given.add_argument("--library", metavar="FILE", help="the libkfifo.a to measure, in place of c/out/libkfifo.a")
    given.add_argument("--build", action="store_true", help="only builds the programs")
    given.add_argument("--built", action="store_true", help="measures with the programs that an earlier run built")
    words = given.parse_args()
    if not words.build and not importlib.util.find_spec("matplotlib"):
        given.error("it needs python3-matplotlib, for this Python")
    return words


def measured(words):
    """Runs the workloads that are wanted, and yields the titles and the tables."""
    for workload in workloads(words.milliseconds):
        if words.only in workload.title:
            yield workload.title, table(workload, measure(workload, words.rounds))
    if words.only in WAITING_TITLE:
        yield from waiting(words.rounds, words.milliseconds)
    if words.only in IN_QUEUE_TITLE:
        yield from in_queue(words.rounds, words.milliseconds)
    if words.only in WAKING_TITLE:
        yield WAKING_TITLE, waking(words.rounds)


def main():
    words = options()
    if not words.built:
        build(words.library)
    if words.build:
        return
    about, parts = f"{machine()}; load of the machine before: {os.getloadavg()[0]:.1f}.\n", {}
    print(about)
    for title, part in measured(words):
        parts[title] = part
        print(part, flush=True)
    if words.merge:
        file = pathlib.Path(words.merge)
        text = merged(file.read_text(), about, parts)
    else:
        file = pathlib.Path(words.out) / "table.md"
        file.parent.mkdir(parents=True, exist_ok=True)
        text = text_of(about, parts)
    file.write_text(text)
    # Only pictures need it.
    import pictures

    pictures.draw(tables.parts_of(text)[1], file.parent)


if __name__ == "__main__":
    main()
