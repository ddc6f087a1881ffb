"""Draws the pictures of docs/bench/table.md. The same tables give the same files."""
import dataclasses
import textwrap

from matplotlib import pyplot

import run
import tables

# What pictures show, in this order, and how each of them looks, in black and white too.
SHOWN = [("kfifo", 64), ("kfifo", 16), ("kfifo", 4), ("vyukov", 0), ("tbb", 0), ("boost", 0), ("mutex", 0)]
SHOWN_VALUES = [("kfifo-16", 64), ("kfifo-16", 16), ("kfifo-16", 4), ("mutex-16", 0)]
LOOKS = [("#1f4e8c", ""), ("#5b8bc9", ""), ("#b8d0ee", "")]
LOOKS += [("#e0e0e0", "//"), ("#e0e0e0", "xx"), ("white", ".."), ("white", "")]


@dataclasses.dataclass
class Picture:
    """A picture of all workloads of a kind: its file, its head, their titles and the queues beside ArrayQueue."""

    file: str
    head: str
    title: str
    queues: list


ITEMS = f"{{}}, capacity {run.CAPACITIES[0]:,}"
WORKING = run.between(run.WORK[1])
PICTURES = [
    Picture("items", "Numbers, no work between calls", ITEMS, SHOWN),
    Picture("items_with_work", f"Numbers{WORKING}", ITEMS + WORKING, SHOWN),
    Picture("values", "Values of 16 bytes, no work between calls", f"values of 16 bytes, {ITEMS}", SHOWN_VALUES),
]


def bars(axes, names, queues, shown):
    """Draws a group of bars for each workload: a queue's median ratio to ArrayQueue, with a line between quartiles."""
    width = 0.84 / len(queues)
    for place, queue in enumerate(queues):
        firsts, middles, thirds = zip(*(map(float, ratios[run.label(queue)]) for ratios in shown))
        reach = [[m - f for f, m in zip(firsts, middles)], [t - m for m, t in zip(middles, thirds)]]
        left = [group + (place - (len(queues) - 1) / 2) * width for group in range(len(names))]
        color, hatch = LOOKS[place]
        look = {"color": color, "hatch": hatch, "edgecolor": "black", "linewidth": 0.5}
        axes.bar(left, middles, width, yerr=reach, label=run.label(queue), error_kw={"elinewidth": 0.8}, **look)
    axes.axhline(1, color="black", linewidth=0.8, linestyle="--")
    axes.set_xticks(range(len(names)), [textwrap.fill(name, 13) for name in names], fontsize=8)


def draw_ratios(picture, parts, folder):
    """Draws a picture of workloads."""
    names = [name for name, *_ in run.CALLS]
    figure, axes = pyplot.subplots(figsize=(9, 4), layout="constrained")
    bars(axes, names, picture.queues, [tables.ratios_of(parts[picture.title.format(it)]) for it in names])
    axes.set_title(picture.head, fontsize=10)
    axes.set_ylabel("rate beside ArrayQueue (dashed)", fontsize=8)
    axes.legend(fontsize=8, ncols=4, loc="upper center", bbox_to_anchor=(0.5, -0.14))
    figure.savefig(f"{folder}/{picture.file}.svg", metadata={"Date": None})
    pyplot.close(figure)


def draw_in_queue(parts, folder):
    """Draws the quantiles of each queue, a part of the picture for each workload."""
    figure, grid = pyplot.subplots(2, 2, figsize=(10.5, 6), layout="constrained", sharex=True, sharey=True)
    names = [textwrap.fill(it.replace(" †", "").replace("kfifo, ", ""), 10) for it in run.IN_QUEUE_OF.values()]
    for axes, (title, _) in zip(grid.flat, run.loads_in_queue()):
        rows = tables.rows_of(parts[title])
        times = [[float(rows[it][f"{quantile}, ns"].replace(",", "")) for quantile in run.QUANTILES]
                 for it in run.IN_QUEUE_OF.values()]
        for quantile, name, mark in zip(zip(*times), run.QUANTILES, "osv"):
            axes.plot(range(len(names)), quantile, mark, color=LOOKS[0][0], label=name, ms=5)
        for place, its in enumerate(times):
            axes.plot([place] * 2, [its[0], its[2]], color=LOOKS[1][0], linewidth=0.8)
        axes.set_yscale("log")
        axes.set_title(title.partition(": ")[2], fontsize=9)
        axes.set_xticks(range(len(names)), names, fontsize=7)
        axes.grid(axis="y", linewidth=0.3)
    for axes in grid[:, 0]:
        axes.set_ylabel("nanoseconds in the queue", fontsize=8)
    grid[0, 0].legend(fontsize=8, loc="upper left")
    figure.savefig(f"{folder}/time_in_queue.svg", metadata={"Date": None})
    pyplot.close(figure)


def draw(parts, folder):
    """Draws those pictures whose workloads were all measured."""
    pyplot.rcParams["svg.hashsalt"] = "kfifo"
    for picture in PICTURES:
        if all(picture.title.format(name) in parts for name, *_ in run.CALLS):
            draw_ratios(picture, parts, folder)
    if all(title in parts for title, _ in run.loads_in_queue()):
        draw_in_queue(parts, folder)
