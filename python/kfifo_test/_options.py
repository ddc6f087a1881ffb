"""The options of a check."""
from __future__ import annotations

import concurrent.futures
from dataclasses import dataclass
from typing import Optional

from ._judge import TRIES, is_whole, needs_k
from ._log import MAX_ITEM

MOST_BEFORE = 32  # how many items are put before a round that begins half full
SPARE = 64  # how many more calls than there are items may be needed to empty a queue
_MAX_ROUND_CALLS = 65_536


@dataclass(frozen=True)
class Options:
    """What a check is to do. `check` and `run_check` take these as keyword arguments."""

    name: str = "queue"  # of the queue, in the report and in the names of the files
    k: int = 1  # for which k each round is judged, 1 to 64
    sized: bool = False  # whether make takes a capacity: the rounds then use queues of 2, 4, 8 and 64
    threads: Optional[int] = None  # how many make calls, 2 to 64: None draws 3, 4 or 8 for each round
    calls: Optional[int] = None  # of each thread in a round: None draws 50, 100 or 200, of a round that is traced 25
    seconds: float = 5.0  # when rounds end; the first is made in any case
    rounds: Optional[int] = None  # after how many rounds they end, where the time is not up before
    seed: Optional[int] = None  # what the designs are drawn by; it repeats the designs, not the schedules
    folder: Optional[str] = None  # of the log and the picture of a failure: None is the one for temporary files
    one_producer: bool = False  # whether the last thread alone puts, and puts only
    one_consumer: bool = False  # whether thread 0 alone gets, and gets only
    repeated: Optional[int] = None  # how many different items there are: None gives each put an item of its own
    undecided_fails: bool = False  # whether a round without a verdict fails; it is counted in any case
    hang_seconds: float = 0.5  # of processor time that one call may take, or ten times as long on the clock
    bytecode_switches: bool = True  # whether a fifth of the rounds is traced: threads give way between bytecodes
    tries: int = TRIES  # how many choices the search for an order may take back in a round
    quiet: bool = False  # whether nothing is printed
    executor: Optional[concurrent.futures.Executor] = None  # what judges rounds: None is this thread, in between

    def check(self) -> None:
        """Raises ValueError where an option is out of range."""
        needs_k(self.k, self.tries)
        self._check_ranges()
        if 2 * self.most_calls() + SPARE > _MAX_ROUND_CALLS:
            text = f"{self.calls} calls of each of {self.most_threads()} threads are more than the {_MAX_ROUND_CALLS}"
            raise ValueError(f"{text} of a round, with those that empty the queue: take fewer")
        if self.one_producer and self.one_consumer and self.most_threads() != 2:
            raise ValueError(f"threads is {self.threads}, but has to be 2 with one producer and one consumer")
        if not isinstance(self.name, str) or not self.name or "/" in self.name or "\0" in self.name:
            allowed = "a text for the names of files: not empty, without /"
            raise ValueError(f"name is {self.name!r}, but has to be {allowed}")

    def _check_ranges(self) -> None:
        """Raises ValueError where a number is out of range."""
        for name, least, most in (("threads", 2, 64), ("calls", 1, _MAX_ROUND_CALLS), ("repeated", 1, MAX_ITEM)):
            number = getattr(self, name)
            if number is not None and not is_whole(number, least, most):
                allowed = f"a whole number from {least:,} to {most:,}, or None"
                raise ValueError(f"{name} is {number!r}, but has to be {allowed}")
        if self.rounds is not None and not (isinstance(self.rounds, int) and self.rounds >= 1):
            raise ValueError(f"rounds is {self.rounds!r}, but has to be a whole number from 1 on, or None")
        if self.seed is not None and not isinstance(self.seed, int):
            raise ValueError(f"seed is {self.seed!r}, but has to be a whole number, or None")
        if not (isinstance(self.seconds, (int, float)) and self.seconds >= 0):
            raise ValueError(f"seconds is {self.seconds!r}, but has to be a number from 0 on")
        if not (isinstance(self.hang_seconds, (int, float)) and self.hang_seconds > 0):
            raise ValueError(f"hang_seconds is {self.hang_seconds!r}, but has to be a number over 0")

    def most_threads(self) -> int:
        """The greatest number of threads in a round."""
        if self.threads is not None:
            return self.threads
        return 2 if self.one_producer and self.one_consumer else 8

    def most_calls(self) -> int:
        """How many calls all threads make in a round at most, with the puts before it."""
        calls = 200 if self.calls is None else self.calls
        return calls * self.most_threads() * (1 + self.one_producer + self.one_consumer) + MOST_BEFORE
