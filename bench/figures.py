#!/usr/bin/env python3
"""Compares the figures of docs/PERFORMANCE.md, README.md, docs/WORK.md and docs/bench/costs.md with the tables of
docs/bench. Four things count:

- A table of a page that is made of measured tables is what they give, and so are the overviews of docs/bench/table.md.
- A figure in a sentence stands in the tables that its section is about, rounded. Where its clause names a queue or a k,
  it is a figure of that queue or k. Figures are decimals, and whole numbers with a unit.
- The section on work is what bench/work.py writes of docs/bench/work.md, and docs/WORK.md has how many tasks a stack
  the searches took.
- Of made-up sentences about a made-up table the true ones pass, and the false ones do not.

    bench/figures.py              prints what differs, and ends with the line 'N passed, M failed'
    bench/figures.py --write      writes the tables into the pages

bench/scale/check does the same for the section on more processors.
"""
import pathlib
import re
import sys

import run
import tables
import work

ROOT = pathlib.Path(__file__).resolve().parent.parent
TABLES = ROOT / "docs/bench"
PERFORMANCE, README, COSTS = ROOT / "docs/PERFORMANCE.md", ROOT / "README.md", TABLES / "costs.md"
# What a section of a page is about: files of docs/bench, and words in the titles of the parts that count.
SOURCES = {
    (PERFORMANCE, "When it pays"): [("table.md", "capacity 1,024")],
    (PERFORMANCE, "How to choose"): [("table.md", "capacity 1,024")],
    (PERFORMANCE, "Beside other queues"): [("table.md", "capacity")],
    (PERFORMANCE, "Calls that wait"): [("table.md", run.WAITING_TITLE), ("table.md", run.IN_QUEUE_TITLE)],
    (PERFORMANCE, "A queue that grows"): [("growth.md", "")],
    (PERFORMANCE, "Work that spawns work"): [("work.md", "")],
    (PERFORMANCE, "Instructions and times"): [("costs.md", ""), ("calls.md", ""), ("holding.md", "")],
    (PERFORMANCE, "How it was measured"): [("table.md", run.ONLY_WORK)],
    (README, "What it costs"): [("table.md", "capacity 1,024")],
}
CHECKED_BY_SCALE = "More processors than four"
# What sentences call a queue or a way to use it, and how the tables call it.
NAMES = {it: it for it in ("channel", "mutex", "ArrayQueue", "TBB", "moodycamel", "tokens", "random", "SegmentedQueue")}
NAMES |= {"that queue's rate": "ArrayQueue", "that rate": "ArrayQueue", "rayon's scope_fifo": "rayon's scope_fifo"}
UNIT = r"\s(?:ns|µs|ms|s|million|microseconds|nanoseconds|instructions|times)\b"
FIGURE = re.compile(rf"(?<![\w.,])(\d[\d,]*\.\d+|\d[\d,]*(?={UNIT}|\s%))(?![\w.]*\d)({UNIT})?")
# What is no measurement: versions, and the work and the load of a workload.
NO_FIGURES = re.compile(
    r"Linux [\d.]+|Rust [\d.]+|glibc \([^)]*\)|\*Work\* is \d+ ns|\d+( and \d+)? [nµ]s of work"
    r"|[Tt]asks? of [\d.]+( and [\d.]+)* µs|\*[\d.]+ µs\*|jobs of \d+ µs|\*\d+ % busy\*|[Aa]t \d+ %"
)
MADE_UP = "| Queue | Median, ns |\n|---|---|\n| kfifo, k = 4 | 4272 |\n| the channel | 5041 |\n| mutex | 4363 |\n"
TRUE = "It takes 4.3 microseconds with k = 4, by crossbeam's channel 5.0, by a mutex 4363 ns. It has 4 threads."
FALSE = ["by crossbeam's channel 4.4 microseconds", "4.3 with k = 64", "5 ns", "43 %", "it takes 4.5"]


def waiting(parts):
    """The table of calls that wait: the million values a second, in brackets the nanoseconds of a value, and the better
    ratio to the channel's rate with what would be good enough."""
    rows = []
    for title, (producers, *_) in run.waits():
        its = tables.rows_of(parts[title])
        best = max(float(its[name]["Ratio to crossbeam-channel"]) for name in its if name.startswith("kfifo"))
        figures = [f"{float(it['Million values a second']):.1f} ({it['Processor, ns a value']})" for it in its.values()]
        rows.append([title.partition(": ")[2], *figures, f"{best:.2f} ({0.75 if producers == 1 else 1:.2f})"])
    return tables.table_of(["Calls that wait", *its, "beside the channel"], rows)


def in_queue(parts):
    """The table of times in the queue: the median and in brackets the 99.9th percentile, in microseconds."""
    rows = []
    for title, _ in run.loads_in_queue():
        its, work = tables.rows_of(parts[title]), re.search(r"([\d.]+ µs of work) on a value", parts[title])[1]
        times = [[float(it[f"{of}, ns"].replace(",", "")) / 1000 for of in run.QUANTILES[::2]] for it in its.values()]
        told = f"{title.partition(': ')[2]}, {work}"
        rows.append([told, *(f"{middle:,.1f} ({late:,.0f})" for middle, late in times)])
    return tables.table_of(["Time in the queue, µs", *its], rows)


def hand_overs(parts):
    """The table of hand-overs to a thread that sleeps."""
    names, rows = {"kfifo": "this queue", "crossbeam-channel": "crossbeam's channel"}, []
    for name, its in tables.rows_of(parts[run.WAKING_TITLE]).items():
        rows.append([names.get(name, name), *(f"{float(it) / 1000:.1f} microseconds" for it in its.values())])
    return tables.table_of(["", "Median", "99th percentile"], rows)


def goals(parts):
    """The table of goals of values that is there, with what was measured."""
    head, _, *rows = next(it for it in tables.tables_of(COSTS.read_text()) if "| Goal | Measured |" in it[0])
    rows = list(map(tables.cells, rows))
    for row in rows:
        for place, work in (2, 0), (4, run.WORK[1]):
            title = f"values of 16 bytes, {row[0]}, capacity {run.VALUES_CAPACITY:,}{run.between(work)}"
            row[place] = tables.ratios_of(parts[title])["kfifo, k = 64"][1]
    return tables.table_of(tables.cells(head), rows)


def of_ratios(parts):
    """Yields the tables of ratios whose workloads were measured."""
    for head, queues, titles in run.page_parts():
        rows = {name: tables.ratios_of(parts[title]) for name, title in titles.items() if title in parts}
        labels = list(map(run.label, queues))
        if rows:
            lines = [[name, *run.medians(row, labels)] for name, row in rows.items()]
            yield tables.table_of([head, *map(run.column, queues)], lines)


def page_tables(parts):
    """The tables of each page that are made of what was measured, in their order."""
    return {
        PERFORMANCE: [*of_ratios(parts), waiting(parts), in_queue(parts)],
        COSTS: [goals(parts), hand_overs(parts)],
    }


def key_of(table):
    """What tells a table of a page from the others: the first cell, or where that is empty the one below it."""
    return tables.cells(table[0])[0] or tables.cells(table[2])[0]


def written(text, made):
    """The text of a page with these tables, each in its place, or where it has none after the one before it."""
    before = []
    for table in made:
        there = {key_of(it): it for it in tables.tables_of(text)}.get(key_of(table))
        replaced, by = (there, table) if there else (before, [*before, "", *table])
        text, before = text.replace("\n".join(replaced), "\n".join(by)), table
    return text


def sections(text):
    """The text of each section of a page by its heading."""
    return {it.partition("\n")[0]: it.partition("\n")[2] for it in re.split(r"^## ", text, flags=re.M)}


def clauses(text):
    """The clauses of a text without its tables, its code, and what is no figure."""
    text = re.sub(r"^\|.*$|^```[^`]*```$|`[^`]*`|\]\([^)]*\)", "", text, flags=re.M)
    return re.split(r"[:;.,](?=\s|$)|\sand\s", NO_FIGURES.sub("", " ".join(text.split())))


def stated(text, words=""):
    """Yields each number of the parts of a text whose titles have these words, with what it is a number of: its row and
    the head of its column, or its clause."""
    before, parts = tables.parts_of(text)
    for title, part in {"": before, **parts}.items():
        if words in title:
            said = [(cell, f"{head} {row}") for lines in tables.tables_of(part) for row in lines[2:]
                    for head, cell in zip(tables.cells(lines[0])[1:], tables.cells(row)[1:])]
            for numbers, of in said + [(it, it) for it in clauses(part)]:
                yield from ((float(it.replace(",", "")), of) for it in re.findall(r"\d[\d,]*(?:\.\d+)?", numbers))


def is_rounded(figure, unit, number):
    """Whether a figure is this number, rounded to its decimals, in its unit or a thousand of it."""
    places = len(figure.partition(".")[2])
    units = (1, 1000) if places or unit.strip() in ("µs", "microseconds", "million") else (1,)
    return any(f"{number / it:.{places}f}" == figure.replace(",", "") for it in units)


def unfounded(text, numbers):
    """Yields for each figure of a text None where it is one of these numbers, of what its clause names, else what is
    wrong with it."""
    for clause in clauses(text):
        names = [*(name for said, name in NAMES.items() if said in clause), *re.findall(r"k = \d+", clause)]
        known = [number for number, of in numbers if all(re.search(rf"{it}(?!\d)", of) for it in names)]
        for figure, unit in FIGURE.findall(clause):
            is_known = any(is_rounded(figure, unit, it) for it in known)
            yield None if is_known else f"{figure} of `{clause.strip()}` is in no table that it is about"


def of_sections(page):
    """Yields the same for the sections of a page."""
    for heading, text in sections(page.read_text()).items():
        sources = [((TABLES / file).read_text(), words) for file, words in SOURCES.get((page, heading), [])]
        numbers = [it for measured, words in sources for it in stated(measured, words)]
        if heading != CHECKED_BY_SCALE:
            yield from (it and f"{page.relative_to(ROOT)}: {it}" for it in unfounded(text, numbers))


def of_tables(is_written):
    """Yields the same for the tables of pages and of docs/bench/table.md."""
    measured = (TABLES / "table.md").read_text()
    before, parts = tables.parts_of(measured)
    again = run.text_of(before.partition("\n\n")[0] + "\n", parts)
    yield None if again == measured else "docs/bench/table.md: an overview is not that of the tables"
    for page, made in page_tables(parts).items():
        if is_written:
            page.write_text(written(page.read_text(), made))
        there = list(tables.tables_of(page.read_text()))
        name = page.relative_to(ROOT)
        for it in made:
            yield None if it in there else f"{name}: the table of {key_of(it)} is not that of docs/bench"


def of_work():
    """Yields the same for what is written of docs/bench/work.md."""
    _, measured = work.read(TABLES / "work.md")
    said = work.section(measured) in PERFORMANCE.read_text()
    yield None if said else "bench/work.py --again --out docs/bench --page writes another section on work"
    _, found = measured[0]
    tasks = [work.median(found, it, "tasks") for it in work.OURS]
    told = f"{min(tasks):.3f} to {max(tasks):.3f} tasks a stack"
    yield None if told in (ROOT / "docs/WORK.md").read_text() else f"docs/WORK.md: docs/bench/work.md has {told}"


def of_made_up():
    """Yields the same for made-up sentences."""
    numbers = list(stated(MADE_UP))
    yield from unfounded(TRUE, numbers)
    yield from (None if any(unfounded(it, numbers)) else f"no figure of `{it}` is refused" for it in FALSE)


def main():
    found = [*of_tables("--write" in sys.argv[1:]), *of_work(), *of_sections(PERFORMANCE), *of_sections(README)]
    found += of_made_up()
    failed = [it for it in found if it]
    print("\n".join([*failed, f"{len(found) - len(failed)} passed, {len(failed)} failed"]))
    sys.exit(bool(failed))


if __name__ == "__main__":
    main()
