"""Schedules of a model of the queue, and the steps that the program makes for them."""
import itertools
import re
import subprocess

# Each place of a call, where it loads or wins or loses, and with and without an answer where it may have one: 20 of an
# enqueue and 10 of a dequeue. Busy, which ends a call wherever its last round ends, is none of these answers.
KINDS = 30


def picks_of(steps):
    """Returns the threads of these steps as kfifo takes them."""
    threads = [re.search(r"thread (\d+)", step)[1] for step in steps]
    return ",".join(f"{thread}x{len(list(group))}" for thread, group in itertools.groupby(threads))


def trace(program, options, scripts, steps):
    """Returns the lines that the program prints for the steps of a replay with these options, scripts and picks."""
    command = [program, "replay", "--trace", *options, "--picks", picks_of(steps), *scripts]
    ran = subprocess.run(list(map(str, command)), capture_output=True, text=True, timeout=60)
    if ran.returncode:
        return [f"status {ran.returncode}: {ran.stderr.strip()}"]
    return [line for line in ran.stdout.splitlines() if re.match(r" *\d+ thread ", line)]


def step_of(line):
    """Returns a line of a trace without its number, and without words and items."""
    return " ".join(re.sub(r"^ *\d+ |( to)? \([\d,]+\)|(?<= got) \d+", "", line).split())


def kind_of(step):
    """Returns a step without its thread, and without which word it is of."""
    return re.sub(r"^thread \d+ | ends| slot \d+\.\d+", "", step)


def lacking_kinds(kinds):
    """Says how many kinds of steps these are, where they are not all."""
    answered = {kind for kind in kinds if not kind.endswith(" busy")}
    return "" if len(answered) == KINDS else f"{len(answered)} kinds of steps, not {KINDS}: {sorted(answered)}"


def difference(wanted, found):
    """Returns the first step at which two lists differ, in words; nothing where they are the same."""
    for number, (own, other) in enumerate(itertools.zip_longest(wanted, found)):
        if own != other:
            return f"step {number} of the model is `{own}`, and of the program `{other}`"
    return ""
