#!/usr/bin/env python3
"""Measures how fast the judge is.

    bench/judge_calls.py [--seconds N] [--rounds N]
    bench/judge_calls.py --long [--program PATH] [--calls N] [--rounds N]

The first prints how many calls a second libkfifo_judge judges in one thread, and where its instructions go, as a table
in Markdown: legal runs of 200 calls of 4 threads, and of 65,536 calls of 8, for k = 1 and 4. A rate is the median of N
rounds (5) of N seconds (1). The shares are of instructions, by callgrind where valgrind is there: *log* sorts the calls
and makes the record, *items* counts what each item does, *evidence* looks for it, *order* finds a legal order, *text*
counts and writes. `make -C c` builds the library first.

With --long the program judges two logs of N calls (10,000,000) of 8 threads for k = 1, whose items are distinct: a
legal one, and one in whose last tenth an item comes out too early. PATH is crates/kfifo/out/kfifo where it is left out.
The times are medians, and the memory is the most of all rounds. The logs take 60 bytes a call in the folder for
temporary files.
"""
import argparse
import os
import pathlib
import re
import shutil
import statistics
import subprocess
import sys
import tempfile
import time

ROOT = pathlib.Path(__file__).resolve().parent.parent
LIBRARY = ROOT / "c/out/libkfifo_judge.a"
PROGRAM = ROOT / "crates/kfifo/out/kfifo"
# The goals of a long log.
LONG_SECONDS, LONG_GB = 12, 3
CASES = [(200, 4), (65_536, 8)]
# What callgrind calls the functions whose instructions, with those below them, make a share.
SHARES = {
    "log": r"kfifo_judge_c::calls::log_from",
    "items": r"kfifo_verdict::presences::Items::of",
    "evidence": r"kfifo_verdict::finding::evidence_by",
    "order": r"kfifo_verdict::(?:walking::search|turns::order_of_plain)",
    "all": r"kfifo_judge_c_calls",
}


def build(folder):
    """Builds the program that is measured."""
    program = folder / "judge_calls"
    source = ROOT / "bench/judge_calls.c"
    words = ["cc", "-O2", "-std=gnu11", "-Wall", "-Wextra", f"-I{ROOT / 'c/include'}", "-o", program, source, LIBRARY]
    subprocess.run([str(it) for it in words], check=True)
    return program


def rate(program, calls, threads, k, options):
    """Returns the median rate of the rounds, in calls a second."""
    rates = []
    for _ in range(options.rounds):
        said = subprocess.run(
            [program, str(calls), str(threads), str(k), str(options.seconds)],
            capture_output=True,
            text=True,
            check=True,
        ).stdout
        rates.append(float(said.split()[0]))
    return statistics.median(rates)


def shares(program, calls, threads, k, folder):
    """Returns the shares of instructions as a text, or a hyphen where valgrind is missing."""
    if not shutil.which("valgrind"):
        return "-"
    out = folder / "callgrind.out"
    words = ["valgrind", "--tool=callgrind", f"--callgrind-out-file={out}", program, str(calls), str(threads), str(k)]
    subprocess.run([*words, "0.5"], capture_output=True, check=True)
    said = subprocess.run(
        ["callgrind_annotate", "--inclusive=yes", "--threshold=100", out], capture_output=True, text=True, check=True
    ).stdout
    count = {}
    for line in said.splitlines():
        found = re.match(r" *([\d,]+) .*?:((?:\w+::)*\w+)(?:'\d+)?(?: \[|$)", line)
        for name, pattern in SHARES.items():
            if found and re.fullmatch(pattern, found[2]):
                count[name] = max(count.get(name, 0), int(found[1].replace(",", "")))
    whole = count.pop("all")
    # The compiler may have made one function of the order for k = 1 and what calls it.
    count["text" if "order" in count else "order and text"] = whole - sum(count.values())
    return ", ".join(f"{name} {100 * part / whole:.0f} %" for name, part in count.items())


def short_runs(maker, folder, options):
    print("| Calls, threads | k | million calls a second | nanoseconds a call | shares of instructions |")
    print("|---|---|---|---|---|")
    for calls, threads in CASES:
        for k in (1, 4):
            found = rate(maker, calls, threads, k, options)
            parts = shares(maker, calls, threads, k, folder)
            print(f"| {calls:,}, {threads} | {k} | {found / 1e6:.2f} | {1e9 / found:.0f} | {parts} |", flush=True)


def judged(program, log):
    """Returns the seconds and the processor time of the program, its memory in GB, and the first lines it prints."""
    begin = time.monotonic()
    with subprocess.Popen([program, "judge", log], stdout=subprocess.PIPE, text=True) as running:
        said = running.stdout.read().splitlines()[:2]
        _, status, used = os.wait4(running.pid, 0)
        running.returncode = os.waitstatus_to_exitcode(status)
    if running.returncode not in (0, 3):
        sys.exit(f"bench/judge_calls.py: {program} ended with status {running.returncode}")
    return time.monotonic() - begin, used.ru_utime + used.ru_stime, used.ru_maxrss * 1024 / 1e9, said


def long_logs(maker, folder, options):
    print("| Log | seconds | processor time | memory | the program says |\n|---|---|---|---|---|")
    for kind in ("legal", "wrong"):
        log = folder / f"{kind}.csv"
        with log.open("w") as file:
            subprocess.run([maker, str(options.calls), "8", "1", kind], stdout=file, check=True)
        rounds = [judged(options.program, log) for _ in range(options.rounds)]
        log.unlink()
        seconds, used = (statistics.median(it[place] for it in rounds) for place in (0, 1))
        memory, said = max(it[2] for it in rounds), ", ".join(rounds[0][3])
        print(f"| {kind} | {seconds:.1f} s | {used:.1f} s | {memory:.2f} GB | {said} |", flush=True)
    print(f"\nThe goals for 10,000,000 calls are {LONG_SECONDS} s and {LONG_GB} GB.")


def main():
    parser = argparse.ArgumentParser(description=__doc__.splitlines()[0])
    parser.add_argument("--seconds", type=float, default=1)
    parser.add_argument("--rounds", type=int, default=5)
    parser.add_argument("--long", action="store_true")
    parser.add_argument("--program", type=pathlib.Path, default=PROGRAM)
    parser.add_argument("--calls", type=int, default=10_000_000)
    options = parser.parse_args()
    if not LIBRARY.exists():
        sys.exit(f"bench/judge_calls.py: there is no {LIBRARY.relative_to(ROOT)}: run `make -C c`")
    with tempfile.TemporaryDirectory() as folder:
        place = pathlib.Path(folder)
        (long_logs if options.long else short_runs)(build(place), place, options)
    return 0


if __name__ == "__main__":
    sys.exit(main())
