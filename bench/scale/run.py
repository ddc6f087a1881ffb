#!/usr/bin/env python3
"""Simulates queues on up to 64 cores by scale.cpp, and writes docs/bench/scale.json, its picture, and, with the figures
of the table, the section of docs/PERFORMANCE.md, whose text is section.md, and docs/bench/scale.md, from details.md.

    bench/scale/run.py             simulates all, and writes all
    bench/scale/run.py --page      writes the picture and the pages from the table that is there

It needs a compiler for C++20, and for the picture python3-matplotlib. The same sources give the same table.
"""
import argparse
import itertools
import json
import math
import os
import re
import statistics
import subprocess
import sys
import textwrap
from pathlib import Path

HERE = Path(__file__).resolve().parent
DOCS = HERE.parent.parent / "docs"
PROGRAM = HERE / "out/scale"
TABLE, PICTURE, PAGE = DOCS / "bench/scale.json", DOCS / "bench/scale.svg", DOCS / "PERFORMANCE.md"
MEASURED, DETAILS = DOCS / "bench/table.md", DOCS / "bench/scale.md"
HEADING = "## More processors than four"
CAPACITY, SEEDS = 1024, 3
THREADS = [1, 2, 4, 8, 16, 32, 64]
# One thread that makes no calls works 8.0 to 8.3 million times a second in docs/bench/table.md, with its loop.
WORK = [0, 120]
QUEUES = [("kfifo", 1), ("kfifo", 4), ("kfifo", 16), ("kfifo", 64), ("ring", 0), ("tickets", 0), ("per-producer", 0)]
NAMES = {"kfifo": "kfifo, k = {}", "ring": "Vyukov's ring", "tickets": "tickets", "per-producer": "queue per producer"}
# What threads do: how many of n only put, only take, and alternate both.
LOADS = {
    "alternating": lambda n: (0, 0, n),
    "1 + n-1": lambda n: (1, n - 1, 0),
    "n/2 + n/2": lambda n: (n // 2, n // 2, 0),
    "n-1 + 1": lambda n: (n - 1, 1, 0),
}
# What is measured with up to four threads at a time: its title in table.md, and the load and the threads of it here.
COMPARED = {
    "one thread": ("alternating", 1),
    "1 producer, 1 consumer": ("1 + n-1", 2),
    "2 producers, 2 consumers": ("n/2 + n/2", 4),
    "1 producer, 3 consumers": ("1 + n-1", 4),
    "3 producers, 1 consumer": ("n-1 + 1", 4),
    "4 alternating threads": ("alternating", 4),
    "8 alternating threads": ("alternating", 4),
}


def label(name, k):
    return NAMES[name].format(k)


def build():
    """Builds the simulation."""
    PROGRAM.parent.mkdir(exist_ok=True)
    options = ["-std=c++20", "-O2", "-Wall", "-Wextra", "-Werror"]
    subprocess.run([os.environ.get("CXX", "g++"), *options, HERE / "scale.cpp", "-o", PROGRAM], check=True)


def simulated(name, k, threads, work, capacity=CAPACITY, **costs):
    """Returns the rate in million calls a second, and the transfers a call: medians of runs with other seeds."""
    # Threads that find nothing make many steps in little time.
    microseconds = 2000 if sum(threads) <= 4 else 500 if sum(threads) <= 16 else 250
    runs = []
    for seed in range(1, SEEDS + 1):
        words = ["rate", name, max(k, 1), capacity, *threads, work, microseconds]
        runs.append([float(word) for word in ran(*words, seed=seed, **costs)[0]])
    return [round(statistics.median(run[place] for run in runs), 2) for place in (0, 1)]


def loads():
    """Returns each load with its numbers of threads. One that puts and one that takes stand under `1 + n-1` alone."""
    every = [(load, n) for load in LOADS for n in THREADS]
    return [(load, n) for load, n in every if n > 2 or load == "alternating" or (load, n) == ("1 + n-1", 2)]


def row_of(queue, load, n, work, **costs):
    """Simulates a row of the table."""
    rate, transfers = simulated(*queue, LOADS[load](n), work, **costs)
    row = {"queue": queue[0], "k": queue[1], "load": load, "threads": n, "work": work}
    return row | {"rate": rate, "transfers": transfers}


# Threads that wait at a nearly empty queue: producers and consumers, the nanoseconds of work of either, and the most
# pauses between two looks, as in c/src/wait.c.
WAITS = {"1 + 1": (1, 1), "1 + 3": (1, 3)}
WAITERS_WORK, PAUSES = (300, 100), 8
WAITING = [("kfifo", 16), ("kfifo", 64), ("ring", 0)]
# What was tried to help them, by its name, with its head in the table and the settings of the simulation.
NEAR_TAIL = "a take waits 1.2 µs after a round that it lost near the tail", {"wait_near": 3000}
WAITS_HELP = {
    "none": ("as it is", {}),
    "pauses-64": ("up to 64 pauses", {"pauses": 64}),
    "pauses-1024": ("up to 1,024 pauses", {"pauses": 1024}),
    "stride-1": ("a stride of 1", {"stride": 1}),
    "line": ("the ends on a line of their own", {"first_slot": 8}),
    "wait": ("each lost round is followed by a wait of 1.2 µs", {"wait": 3000}),
    "wait-near": NEAR_TAIL,
}
# What was tried to help many threads.
MANY = [4, 16, 32, 64]
MANY_HELP = {
    "none": ("as it is, with a stride of 3, and 16 segments where k is 64", {}),
    "stride-0": ("no stride", {"stride": 0}),
    "stride-1": ("a stride of 1", {"stride": 1}),
    "stride-7": ("a stride of 7", {"stride": 7}),
    "line": ("the ends on a line of their own", {"first_slot": 8}),
    "few": ("a quarter of the segments", {"capacity": CAPACITY // 4}),
    "many": ("16 times the segments", {"capacity": CAPACITY * 16}),
    "probes": ("an enqueue looks at 2 slots", {"probes": 2}),
    "wait": ("each lost round is followed by a wait of 0.4 µs", {"wait": 1000}),
    "movers": ("three of four threads wait 0.5 µs before they move an end", {"movers": 4, "patience": 1200}),
    "wait-near": NEAR_TAIL,
}
# What a place of a call is called, by the beginning of its name in what the simulation prints.
PLACES = {
    "a give reads the ends": "enqueue done (LoadEnds|Recheck|ReloadEnds|ConfirmFull)",
    "a give holds the head or moves an end": "enqueue done (Hold|Move)",
    "a give looks at slots": "enqueue done (Scan|ReloadSlot)",
    "a give fills a slot": "enqueue done (Put|Undo)",
    "a take reads the ends": "dequeue got (LoadEnds|Recheck)",
    "a take moves an end": "dequeue got Move(Head|Tail)$",
    "a take loses such a move": "dequeue got Move.*Lost",
    "a take looks at slots": "dequeue got Scan",
    "a take empties a slot": "dequeue got Take",
    "takes that find nothing": "dequeue empty",
}
# Transfers of which the one that comes nearest to what is measured is taken.
FITTED = [200, 250, 300, 350]
# Other costs than those of machine.hpp, for 64 alternating threads.
CHANGES = [{}, {"transfer": 150}, {"transfer": 600}, {"shared": 0}, {"shared": 150}, {"shared": 300}, {"update": 36}]


def ran(*words, **settings):
    """Returns the lines of a run as lists of words."""
    words = [*words, *(f"{key}={value}" for key, value in settings.items())]
    done = subprocess.run([PROGRAM, *map(str, words)], check=True, capture_output=True, text=True, timeout=120)
    return [line.split() for line in done.stdout.splitlines()]


def waits(queue, threads, pauses=PAUSES, **settings):
    """Simulates threads that wait, with means over runs with other seeds."""
    runs = [ran("waits", queue[0], max(queue[1], 1), CAPACITY, *WAITS[threads], *WAITERS_WORK, pauses, 1000, seed=seed,
                **settings) for seed in range(1, SEEDS + 1)]
    rate, transfers, inside = (round(statistics.mean(float(run[0][place]) for run in runs), 2) for place in range(3))
    places = {}
    for line in (line for run in runs for line in run[1:]):
        found = next((it for it, pattern in PLACES.items() if re.match(pattern, " ".join(line[:3]))), None)
        if found is None:
            sys.exit(f"no row of the table has {' '.join(line)}")
        places[found] = [old + float(new) / SEEDS for old, new in zip(places.get(found, [0, 0]), line[3:5])]
    steps = {it: [round(value, 2) for value in values] for it, values in places.items()}
    return {"rate": rate, "transfers": transfers, "inside": inside, "places": steps}


def waits_row(queue, k, threads, changed):
    """Simulates a row of threads that wait, with something changed."""
    row = {"queue": queue, "k": k, "threads": threads, "changed": changed}
    return row | waits((queue, k), threads, **WAITS_HELP[changed][1])


def waits_rows():
    """Simulates all of them. What is changed is of this queue."""
    every = itertools.product(WAITING, WAITS, WAITS_HELP)
    return [waits_row(*queue, threads, name) for queue, threads, name in every if queue[0] == "kfifo" or name == "none"]


def many_row(k, load, threads, changed):
    """Simulates a row of many threads, with something changed."""
    rate = simulated("kfifo", k, LOADS[load](threads), 0, **MANY_HELP[changed][1])[0]
    return {"k": k, "load": load, "threads": threads, "changed": changed, "rate": rate}


def many_rows():
    """Simulates all of them."""
    return [many_row(*its) for its in itertools.product((16, 64), ("alternating", "n/2 + n/2"), MANY, MANY_HELP)]


def changed(queue, costs):
    """Simulates 64 alternating threads with other costs."""
    rate = simulated(*queue, LOADS["alternating"](64), 0, **costs)[0]
    return {"queue": queue[0], "k": queue[1], "costs": costs, "rate": rate}


class Table:
    """The rows of docs/bench/scale.json, found by queue, load, threads and work."""

    def __init__(self, rows, changes=(), fits=(), waits=(), many=()):
        self.waits = {(row["queue"], row["k"], row["threads"], row["changed"]): row for row in waits}
        self.many = {(row["k"], row["load"], row["threads"], row["changed"]): row for row in many}
        self.fits = {row["transfer"]: row["factor"] for row in fits}
        self.changes = {(row["queue"], row["k"], *row["costs"].items()): row["rate"] for row in changes}
        self.rows = {(row["queue"], row["k"], row["load"], row["threads"], row["work"]): row for row in rows}

    @staticmethod
    def load():
        read = json.loads(TABLE.read_text())
        return Table(read["rows"], read["changed"], read["fitted"], read["waits"], read["many"])

    def rate(self, queue, load, n, work=0):
        return self.rows[(*queue, load, n, work)]["rate"]

    def transfers(self, queue, load, n, work=0):
        return self.rows[(*queue, load, n, work)]["transfers"]


def measured():
    """Returns the rates of docs/bench/table.md by title, of queues by their names there."""
    found = {}
    for part in MEASURED.read_text().split("\n### ")[1:]:
        title, *lines = part.splitlines()
        cells = [[cell.strip() for cell in line.strip("|").split("|")] for line in lines if line.startswith("| ")]
        head, *rows = cells
        if "Million calls a second" in head:
            rate = head.index("Million calls a second")
            found[title] = {row[0]: float(row[rate]) for row in rows}
    return found


def grid(heads, rows):
    """Returns a table of a page."""
    lines = ["| " + " | ".join(heads) + " |", "|---" * len(heads) + "|"]
    return "\n".join(lines + ["| " + " | ".join(row) + " |" for row in rows])


def rates_grid(table, load, work):
    """Returns the rates of a load, a row for each number of threads."""
    threads = [n for n in THREADS if (QUEUES[0][0], QUEUES[0][1], load, n, work) in table.rows]
    rows = [[str(n)] + [f"{table.rate(queue, load, n, work):.1f}" for queue in QUEUES] for n in threads]
    return grid(["Threads", *(label(*queue) for queue in QUEUES)], rows)


def compared(table):
    """Returns how far the simulation is from what was measured: the simulated rate by the measured one, for each
    queue of a title."""
    queues = [(queue, label(*queue)) for queue in QUEUES[:4]]
    queues += [(("ring", 0), "libcds Vyukov ring"), (("ring", 0), "ArrayQueue")]
    found, ratios = measured(), {}
    for work in WORK:
        for title, (load, n) in COMPARED.items():
            rates = found[f"{title}, capacity 1,024" + ", 100 ns of work between calls" * bool(work)]
            title += ", with work" * bool(work)
            ratios[title] = {name: table.rate(queue, load, n, work) / rates[name] for queue, name in queues}
    return ratios


def off_by(table):
    """Returns by which factor a simulated rate is wrong, in the geometric mean."""
    ratios = [ratio for its in compared(table).values() for ratio in its.values()]
    return round(math.exp(statistics.mean(abs(math.log(ratio)) for ratio in ratios)), 2)


def fit(transfer):
    """Returns the same with this transfer."""
    loads_ = dict.fromkeys(COMPARED.values())
    rows = [row_of(queue, *load, work, transfer=transfer) for work in WORK for load in loads_ for queue in QUEUES[:5]]
    return {"transfer": transfer, "factor": off_by(Table(rows))}


def compared_grid(ratios):
    rows = [[title, *(f"{ratio:.2f}" for ratio in its.values())] for title, its in ratios.items()]
    return grid(["Simulated by measured rate", *next(iter(ratios.values()))], rows)


def changes_grid(table):
    """Returns the rates of 64 alternating threads with other costs."""
    def name(costs):
        return ", ".join(f"{key} {value}" for key, value in costs.items()) or "as above"

    rows = [[name(costs), *(f"{table.changes[(*queue, *costs.items())]:.1f}" for queue in QUEUES)] for costs in CHANGES]
    return grid(["Cycles", *(label(*queue) for queue in QUEUES)], rows)


def places_grid(table):
    """Returns for threads that wait how many steps a value takes, and in brackets how many of them move a line."""
    ours = [(*queue, threads) for threads in WAITS for queue in WAITING if queue[0] == "kfifo"]
    rows = [[place, *(told_place(table.waits[(*it, "none")], place) for it in ours)] for place in PLACES]
    for name, queue in ("in all", None), ("Vyukov's ring, in all", ("ring", 0)):
        rows.append([name, *(f"({table.waits[(*(queue or it[:2]), it[2], 'none')]['transfers']:.1f})" for it in ours)])
    return grid(["Of a value", *(f"k = {k}, {threads}" for _, k, threads in ours)], rows)


def told_place(row, place):
    """Returns the steps of a place, and in brackets how many of them move a line."""
    return "{:.1f} ({:.1f})".format(*row["places"].get(place, (0, 0)))


def waits_grid(table):
    """Returns the rates of threads that wait with something changed."""
    queues = [(*queue, threads) for threads in WAITS for queue in WAITING]
    rows = [[told, *(f"{table.waits[(*it, name)]['rate']:.2f}" if (*it, name) in table.waits else "" for it in queues)]
            for name, (told, _) in WAITS_HELP.items()]
    return grid(["Million values a second", *(f"{label(*queue)}, {threads}" for *queue, threads in queues)], rows)


def many_grid(table, load):
    """Returns the rates of many threads with something changed."""
    columns = [(k, n) for k in (16, 64) for n in MANY]
    rows = [[told, *(f"{table.many[(k, load, n, name)]['rate']:.1f}" for k, n in columns)]
            for name, (told, _) in MANY_HELP.items()]
    return grid(["Million calls a second", *(f"k = {k}, {n} threads" for k, n in columns)], rows)


def span(ratios, title):
    """Returns the least and the greatest ratio of this repository's queue in rows whose title has these words."""
    its = [ratio for row, by_name in ratios.items() if title in row
           for name, ratio in by_name.items() if name.startswith("kfifo")]
    return f"{min(its):.2f} to {max(its):.2f}"


def cost(name):
    """Returns a cost of machine.hpp."""
    return re.search(rf"\b{name} = (\d+);", (HERE / "machine.hpp").read_text())[1]


def queue_of(word):
    """Returns the queue that `kfifo-64` or `ring` stands for."""
    name, _, k = word.rpartition("-")
    return (name, int(k)) if k.isdigit() else (word, 0)


def across(table, queue, other):
    """Returns the least and the greatest ratio of two queues with other costs."""
    its = [table.changes[(*queue, *costs.items())] / table.changes[(*other, *costs.items())] for costs in CHANGES]
    return f"{min(its):.1f} to {max(its):.1f}"


def waits_figure(table, queue, threads, *words):
    """Returns a figure of threads that wait: `rate`, `transfers` or `ends`, how often a value changes the ends; or the
    ratio of the rate with something changed to that as it is."""
    row = table.waits[(*queue_of(queue), threads.replace("+", " + "), "none")]
    if words[0] in row:
        return f"{row[words[0]]:.1f}"
    if words[0] == "ends":
        changes = "a give holds the head or moves an end", "a take moves an end"
        return f"{sum(row['places'][it][0] for it in changes):.1f}"
    changed = table.waits[(row["queue"], row["k"], row["threads"], words[0])]
    return f"{changed['rate'] / row['rate']:.2f}"


def many_figure(table, ks, loads_, threads, names):
    """Returns the least and the greatest ratio of rates with something changed to those as they are, or the only one.
    The words are lists with commas."""
    known = {it.replace(" ", ""): it for it in LOADS}
    rows = itertools.product(map(int, ks.split(",")), loads_.split(","), map(int, threads.split(",")), names.split(","))
    its = [table.many[(k, known[load], n, name)]["rate"] / table.many[(k, known[load], n, "none")]["rate"]
           for k, load, n, name in rows]
    return " to ".join(dict.fromkeys(f"{it:.2f}" for it in (min(its), max(its))))


def figure(table, words):
    """Returns a figure of the text: `cost hit`, `fit 300`, `span alternating`, `across kfifo-64 ring`, `rate kfifo-64
    alternating 64`, `transfers ..` alike, `ratio kfifo-64 ring alternating 64`, `waits kfifo-64 1+3 rate`, `many 64
    alternating 16,64 movers`. A load has no blanks; `work` at the end: with work."""
    kind, *words = words.split()
    if kind == "waits":
        return waits_figure(table, *words)
    if kind == "many":
        return many_figure(table, *words)
    if kind == "cost":
        return cost(words[0])
    if kind == "fit":
        return f"{table.fits[int(words[0])]:.2f}"
    if kind == "span":
        return span(compared(table), " ".join(words))
    if kind == "across":
        return across(table, *map(queue_of, words))
    work = WORK[1] if words[-1] == "work" else 0
    words = words[:-1] if work else words
    queues = [queue_of(word) for word in words[:-2]]
    load = next(it for it in LOADS if it.replace(" ", "") == words[-2])
    values = [(table.transfers if kind == "transfers" else table.rate)(queue, load, int(words[-1]), work)
              for queue in queues]
    value = values[0] / values[1] if kind == "ratio" else values[0]
    return f"{value:.0f}" if value >= 9.95 else f"{value:.1f}"


def filled(table, template):
    """Returns the text of a template with the figures of the table."""
    parts = {"compared": compared_grid(compared(table)), "changed": changes_grid(table)}
    parts |= {"places": places_grid(table), "waits": waits_grid(table)}
    parts |= {f"many {load}": many_grid(table, load) for load in ("alternating", "n/2 + n/2")}
    for load in LOADS:
        for work in WORK:
            parts[f"rates {load}" + " with work" * bool(work)] = rates_grid(table, load, work)
    text = (HERE / template).read_text()
    text = re.sub(r"\{([^}]+)\}", lambda it: parts[it[1]] if it[1] in parts else figure(table, it[1]), text)
    return "\n\n".join(wrapped(part) for part in text.split("\n\n"))


def wrapped(part):
    """Returns a part of a page, whose lines have at most 120 columns if it is a paragraph or a list."""
    if re.match(r"[|#!]", part):
        return part
    items = re.split(r"\n(?=- )", part)
    return "\n".join(
        textwrap.fill(" ".join(it.split()), 120, subsequent_indent="  " * it.startswith("- "), break_long_words=False,
                      break_on_hyphens=False)
        for it in items
    )


def page_with(text, part):
    """Returns a page with this section in place of its own."""
    begin = text.index(HEADING)
    return text[:begin] + part.rstrip("\n") + "\n" + text[text.index("\n## ", begin):]


def dots(found, queue, load, work):
    """Returns what was measured of a queue at a load: numbers of threads and rates."""
    name = "libcds Vyukov ring" if queue[0] == "ring" else label(*queue)
    behind = ", capacity 1,024" + ", 100 ns of work between calls" * bool(work)
    of_load = [(title, n) for title, (its, n) in COMPARED.items() if its == load]
    # Eight threads on four processors are no measure of eight cores.
    rates = [(n, found[title + behind].get(name)) for title, n in of_load if not title.startswith("8")]
    return [(n, rate) for n, rate in rates if rate]


def lines(axis, table, load, work):
    """Draws the rates of a load: a line for each queue, and a dot where it was measured."""
    looks = [("#b8d0ee", "-"), ("#8fb2dd", "-"), ("#5b8bc9", "-"), ("#1f4e8c", "-"), ("black", "--"), ("black", ":")]
    found = measured()
    for queue, (color, line) in zip(QUEUES, [*looks, ("#777777", "-.")]):
        points = [(n, table.rate(queue, load, n, work)) for n in THREADS if (*queue, load, n, work) in table.rows]
        axis.plot(*zip(*points), line, color=color, label=label(*queue), linewidth=1.8)
        if measures := dots(found, queue, load, work):
            axis.plot(*zip(*measures), "o", color=color, markersize=5, markeredgecolor="black", markeredgewidth=0.5)
    axis.set_xscale("log", base=2)
    axis.set_yscale("log")
    axis.set_xticks(THREADS, [str(n) for n in THREADS], fontsize=8)
    axis.set_yticks([1, 2, 5, 10, 20, 50], ["1", "2", "5", "10", "20", "50"], fontsize=8)
    axis.minorticks_off()
    axis.grid(linewidth=0.3)


def draw(table):
    """Draws four loads."""
    from matplotlib import pyplot

    # The same figures give the same file.
    pyplot.rcParams["svg.hashsalt"] = "kfifo"
    drawn, axes = pyplot.subplots(2, 2, figsize=(9, 7), layout="constrained", sharex=True)
    heads = ["alternating", "alternating, with work", "1 producer, n - 1 consumers", "n/2 producers, n/2 consumers"]
    for axis, head, load, work in zip(axes.flat, heads, [*LOADS][:1] + [*LOADS][:3], [0, WORK[1], 0, 0]):
        lines(axis, table, load, work)
        axis.set_title(head, fontsize=9)
    drawn.supxlabel("threads, each on a core of its own", fontsize=8)
    drawn.supylabel("million calls a second: lines are simulated, dots measured", fontsize=8)
    shown = axes.flat[0].get_legend_handles_labels()
    drawn.legend(*shown, fontsize=8, ncols=4, loc="upper center", bbox_to_anchor=(0.5, 0))
    drawn.savefig(PICTURE, metadata={"Date": None}, bbox_inches="tight")


def text_of(tables):
    """Returns tables as JSON, with a row in each line."""
    parts = [f' "{name}": [\n' + ",\n".join(f"  {json.dumps(row)}" for row in rows) + "\n ]"
             for name, rows in tables.items()]
    return "{\n" + ",\n".join(parts) + "\n}\n"


def main():
    parser = argparse.ArgumentParser(description=__doc__, formatter_class=argparse.RawDescriptionHelpFormatter)
    parser.add_argument("--page", action="store_true", help="writes the picture and the pages alone")
    if not parser.parse_args().page:
        build()
        rows = [row_of(queue, *load, work) for work in WORK for load in loads() for queue in QUEUES]
        other = {"changed": [changed(queue, costs) for costs in CHANGES for queue in QUEUES]}
        other |= {"fitted": [fit(transfer) for transfer in FITTED], "waits": waits_rows(), "many": many_rows()}
        TABLE.write_text(text_of({"rows": rows, **other}))
    table = Table.load()
    draw(table)
    PAGE.write_text(page_with(PAGE.read_text(), filled(table, "section.md")))
    DETAILS.write_text(filled(table, "details.md"))


if __name__ == "__main__":
    sys.exit(main())
