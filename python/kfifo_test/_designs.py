"""How the rounds of a check differ: what is drawn for each."""
from __future__ import annotations

import random
from dataclasses import dataclass
from typing import Optional

from ._options import MOST_BEFORE, Options

_CAPACITIES = (2, 4, 8, 64)
MIXES = ("alternating", "apart", "bursts", "nearly empty", "nearly full", "half full")
# Seconds after which a thread gives way to another. None leaves the interpreter's own, 5 ms: longer than most rounds.
_INTERVALS = (None, 1e-4, 1e-5, 1e-6, 1e-6)


@dataclass(frozen=True)
class Design:
    """How a round is made."""

    threads: int
    calls: int
    mix: str
    capacity: int
    interval: Optional[float]
    traced: bool
    before: int
    one_producer: bool
    one_consumer: bool

    def text(self) -> str:
        """What the report says of it."""
        lone = [word for word, one in (("one producer", self.one_producer), ("one consumer", self.one_consumer)) if one]
        capacity = f", capacity {self.capacity}" if self.capacity else ""
        switches = ", switches between bytecodes" if self.traced else ""
        callers = " and ".join(lone) or self.mix
        return f"{self.threads} threads, {self.calls} calls each, {callers}{capacity}{switches}"

    def role(self, thread: int) -> Optional[bool]:
        """Whether a thread only puts (True) or only gets (False); None where it does both."""
        if self.one_consumer:
            return thread != 0
        if self.one_producer:
            return thread == self.threads - 1
        return None

    def calls_of(self, thread: int) -> int:
        """How many calls a thread makes. A lone producer makes as many as all consumers, a lone consumer likewise."""
        lone = (self.one_consumer and thread == 0) or (self.one_producer and thread == self.threads - 1)
        return self.calls * (self.threads - 1 if lone else 1)

    def puts(self) -> int:
        """How many items a thread may put, as a bound for all threads."""
        return self.calls * (self.threads - 1 if self.one_producer else 1)

    def items(self) -> int:
        """How many different items the round needs."""
        return self.threads * self.puts() + self.before

    def plan(self, thread: int, dice: random.Random) -> list[bool]:
        """Which of a thread's calls are puts."""
        count, role = self.calls_of(thread), self.role(thread)
        if role is not None:
            return [role] * count
        put = dice.random() < 0.5
        if self.mix == "alternating":
            return [(place % 2 == 0) == put for place in range(count)]
        if self.mix == "apart":
            return [thread % 2 == 1] * count
        if self.mix == "bursts":
            plan: list[bool] = []
            while len(plan) < count:
                put = not put
                plan += [put] * dice.randint(1, 16)
            return plan[:count]
        share = {"nearly empty": 3 / 8, "nearly full": 5 / 8, "half full": 1 / 2}[self.mix]
        return [dice.random() < share for _ in range(count)]


def draw_design(options: Options, dice: random.Random) -> Design:
    drawn = options.threads is None and options.most_threads() == 8
    mix = dice.choice(MIXES)
    capacity = dice.choice(_CAPACITIES) if options.sized else 0
    traced = options.bytecode_switches and dice.randrange(5) == 0
    counts = (25,) if traced else (50, 100, 200)  # a call that is traced takes fifty times as long
    return Design(
        threads=dice.choice((3, 4, 4, 8)) if drawn else options.most_threads(),
        calls=dice.choice(counts) if options.calls is None else options.calls,
        mix=mix,
        capacity=capacity,
        interval=dice.choice(_INTERVALS),
        traced=traced,
        before=0 if mix != "half full" else capacity // 2 if options.sized else MOST_BEFORE,
        one_producer=options.one_producer,
        one_consumer=options.one_consumer,
    )
