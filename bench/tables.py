"""Reads and writes tables of pages. docs/bench/table.md has a part with one for each workload."""
import pathlib
import re

HEADING = "### "


def cells(line):
    """The cells of a line of a table."""
    return [it.strip() for it in line.strip().strip("|").split("|")]


def tables_of(text):
    """Yields each table of a page as its lines."""
    table = []
    for line in [*text.splitlines(), ""]:
        if line.startswith("|"):
            table.append(line)
        elif table:
            yield table
            table = []


def table_of(heads, rows):
    """The lines of a table."""
    return [line_of(heads), "|---" * len(heads) + "|", *map(line_of, rows)]


def line_of(cells_of_line):
    """The line of a table with these cells."""
    return f"| {' | '.join(cells_of_line)} |"


def part_of(title, told, heads, rows):
    """The text of a part: its heading, the lines on its runs, and its table."""
    return "\n".join([f"{HEADING}{title}", "", f"{told}.", "", *table_of(heads, rows), ""])


def parts_of(text):
    """The text before the first heading, and each part under a heading, with it, by its title."""
    before, *parts = re.split(rf"^(?={HEADING})", text, flags=re.M)
    return before, {it.partition("\n")[0].removeprefix(HEADING): it.rstrip("\n") + "\n" for it in parts}


def rows_of(part):
    """The rows of the first table of a part: by the first cell the others, each by the head of its column."""
    head, _, *rows = next(tables_of(part))
    return {cells(row)[0]: dict(zip(cells(head)[1:], cells(row)[1:])) for row in rows}


def ratios_of(part):
    """The ratios of a part by queue, each with its quartiles: the first quartile, the median and the third, as text."""
    found = {}
    for queue, row in rows_of(part).items():
        ratio = next((row[head] for head in row if head.startswith("Ratio to ")), None)
        if ratio:
            first, _, third = row["Quartiles"].partition(" to ")
            found[queue] = first, ratio, third
    return found


def put_rows(file, rows):
    """Puts rows of two cells and more into a page, each in the place of the row that begins with the same two."""
    path = pathlib.Path(file)
    lines = path.read_text().splitlines()
    places = {tuple(cells(line)[:2]): place for place, line in enumerate(lines) if line.startswith("|")}
    for row in rows:
        if tuple(row[:2]) not in places:
            raise SystemExit(f"{file} has no row of {row[0]}, {row[1]}")
        lines[places[tuple(row[:2])]] = line_of(row)
    path.write_text("\n".join(lines) + "\n")
