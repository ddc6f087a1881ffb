"""What the threads of a check do in a round."""
from __future__ import annotations

import itertools
import random
import threading
from dataclasses import dataclass, field
from typing import Any, Optional

from ._designs import Design
from ._options import SPARE
from ._tracing import tracer
from ._workers import EMPTYING, MAKING_CALLS, WAITING, Lane


@dataclass
class Round:
    """What the workers of a round need to know."""

    design: Design
    shared: Any
    base: int  # the least item of the round, where items do not repeat
    seed: int
    repeated: Optional[int]
    start: threading.Barrier = field(init=False)

    def __post_init__(self) -> None:
        self.start = threading.Barrier(self.design.threads)

    def _item(self, number: int, dice: random.Random) -> int:
        return number if self.repeated is None else dice.randint(1, self.repeated)

    def take_part(self, lane: Lane) -> None:
        """Makes one worker's calls."""
        try:
            dice = random.Random(self.seed * 64 + lane.number)
            plan = self.design.plan(lane.number, dice)
            if lane.number == self.design.threads - 1:
                lane.phase = MAKING_CALLS
                first = self.base + self.design.threads * self.design.puts()
                for number in range(first, first + self.design.before):
                    lane.make_put(self.shared, self._item(number, dice))
            first = self.base + lane.number * self.design.puts()
            numbers = (self._item(number, dice) for number in itertools.count(first))
            items = [next(numbers) if is_put else 0 for is_put in plan]
            lane.tracer = tracer(dice) if self.design.traced else None
            lane.phase = WAITING
            self._wait()
            lane.phase = MAKING_CALLS
            for item in items:
                if item:
                    lane.make_put(self.shared, item)
                else:
                    lane.make_get(self.shared)
        except BaseException:
            self.start.abort()  # the others need not wait for this one
            raise
        finally:
            lane.tracer = None

    def _wait(self) -> None:
        try:
            self.start.wait()
        except threading.BrokenBarrierError:
            pass  # another thread has failed, and the report will name it

    def empty(self, lane: Lane) -> None:
        """Gets until the queue says that it is empty, or has given more items than it can have had."""
        lane.phase = EMPTYING
        for _ in range(self.design.threads * self.design.calls_of(0) + self.design.items() + SPARE):
            if lane.make_get(self.shared) == "empty":
                lane.is_empty = True
                return
