"""The check: rounds of calls, each of which is judged."""
from __future__ import annotations

import collections
import concurrent.futures
import contextlib
import itertools
import operator
import os
import pathlib
import queue
import random
import sys
import tempfile
import time
from typing import Any, Callable, NamedTuple, Optional

from ._designs import Design, draw_design
from ._hangs import LOOK, Watch, stop
from ._judge import Least, Verdict, draw, judge_packed, least_packed
from ._library import Fault, load, packed
from ._log import MAX_ITEM, Call, csv
from ._options import Options
from ._report import Report
from ._rounds import Round
from ._workers import WAITING, Get, Lane, Make, Put

_KEPT_ROUNDS = 2_000  # faults of an index that wraps show in an old queue alone
_SAMPLED, _SAMPLED_FOR_K = 8, 16  # of how many rounds one is looked at for overlaps, and for its least k
_MOST_PENDING = 64  # how many rounds an executor may have to judge
_TO_JUDGE = 10.0  # seconds in which an executor ends rounds that nobody asks for any more
_files = itertools.count()


class _Kept:
    """A queue that is used again."""

    def __init__(self, shared: Any) -> None:
        self.shared = shared
        self.rounds = 0
        self.next_item = 1


class _Pending(NamedTuple):
    """A round that is judged."""

    number: int
    design: Design
    calls: list[Call]
    judging: concurrent.futures.Future[tuple[Verdict, Optional[Least]]]


def judge_round(data: bytes, count: int, k: int, tries: int, wants_least: bool) -> tuple[Verdict, Optional[Least]]:
    """Judges the calls of a round, wherever an executor runs it."""
    verdict = judge_packed(data, count, k, tries)
    has_least = wants_least and verdict.status != "no order"
    return verdict, least_packed(data, count, tries) if has_least else None


class _Check:
    """Rounds until the time is up or a fault is found."""

    def __init__(self, make: Make, put: Put, get: Get, options: Options) -> None:
        self.make = make
        self.options = options
        seed = random.SystemRandom().randrange(2**32) if options.seed is None else options.seed
        self.dice = random.Random(seed)
        self.report = Report(options.name, options.k, seed)
        self.done: queue.SimpleQueue[int] = queue.SimpleQueue()
        self.lanes = [Lane(number, put, get, self.done) for number in range(options.most_threads())]
        self.kept: dict[int, _Kept] = {}
        self.pending: collections.deque[_Pending] = collections.deque()
        self.sampled = self.overlapped = 0
        self.told = time.monotonic()
        self.has_told = False

    def run(self) -> Report:
        start = time.monotonic()
        interval = sys.getswitchinterval()
        try:
            while self.report.passed:
                self._make_round(interval)
                self._tell()
                is_last = self.options.rounds is not None and self.report.rounds >= self.options.rounds
                if is_last or time.monotonic() - start >= self.options.seconds:
                    break
            self._collect(0)
        finally:
            sys.setswitchinterval(interval)
            for lane in self.lanes:
                lane.inbox.put(None)
            # The executor may end after this: it has no round of this check any more.
            concurrent.futures.wait([it.judging for it in self.pending], timeout=_TO_JUDGE)
        if self.report.passed and self.report.undecided == self.report.rounds:
            self.report.outcome = "undecided"
        if self.report.passed and not self.report.taken:
            self.report.outcome = "nothing taken"
        if self.has_told:
            print("\r\033[K", end="", file=sys.stderr, flush=True)
        if self.report.passed and not self.options.quiet:
            print(self.report)
        return self.report

    def _queue_for(self, design: Design) -> _Kept:
        """The queue for a round: a new one where the old one has served, or has no numbers left."""
        kept = self.kept.get(design.capacity)
        if kept is None or kept.rounds >= _KEPT_ROUNDS or kept.next_item + design.items() > MAX_ITEM:
            kept = _Kept(self.make(design.capacity) if self.options.sized else self.make())
            self.kept[design.capacity] = kept
        kept.rounds += 1
        return kept

    def _make_round(self, interval: float) -> None:
        design = draw_design(self.options, self.dice)
        kept = self._queue_for(design)
        seed = self.dice.getrandbits(32)
        turn = Round(design, kept.shared, kept.next_item, seed, self.options.repeated)
        kept.next_item += design.items()
        lanes = self.lanes[: design.threads]
        for lane in self.lanes:
            lane.log, lane.begun, lane.error, lane.latest, lane.is_empty = [], None, None, 0, False
        sys.setswitchinterval(interval if design.interval is None else design.interval)
        hang = self._run_jobs(lanes, turn.take_part)
        sys.setswitchinterval(interval)
        if not hang and not any(lane.error for lane in lanes):
            hang = self._run_jobs(lanes[:1], turn.empty)
        self.report.rounds += 1
        self._end_round(turn, lanes, hang)
        if not lanes[0].is_empty:
            self.kept.pop(design.capacity, None)

    def _run_jobs(self, lanes: list[Lane], job: Callable[[Lane], None]) -> str:
        """Has each of these workers do the job, and returns what they are in if one hangs, else nothing."""
        for lane in lanes:
            lane.phase = WAITING
        for lane in lanes:
            lane.inbox.put(job)
        watch, left, looked = Watch(lanes, self.options.hang_seconds), len(lanes), time.monotonic()
        while left:
            try:
                self.done.get(timeout=LOOK)
                left -= 1
            except queue.Empty:
                pass
            if left and time.monotonic() - looked >= LOOK:
                looked = time.monotonic()
                if watch.sees_hang():
                    return watch.describe()
        return ""

    def _end_round(self, turn: Round, lanes: list[Lane], hang: str) -> None:
        design = turn.design
        calls = [call for lane in lanes for call in list(lane.log)]
        begun = [(lane.number, lane.begun) for lane in lanes if lane.begun]
        calls += [Call(number, op, item, first, 0, "") for number, (op, item, first) in begun]
        calls.sort(key=operator.attrgetter("first"))
        self.report.calls += len(calls)
        self.report.taken += sum(call.answer == "got" for call in calls)
        errors = [lane for lane in lanes if lane.error]
        if errors or hang:
            self._collect(0)  # a round before this one may already have no order, and says more
        if not self.report.passed:
            pass
        elif errors:
            text = f"thread {errors[0].number}: {errors[0].error}"
            self._fail("raised", text, self.report.rounds, design, calls)
        elif hang:
            self._fail("hang", hang, self.report.rounds, design, calls)
        else:
            self._judge(design, calls)
        if hang:
            turn.start.abort()  # who waits for the others to begin goes on, and ends at its first call
            stop(lanes)

    def _judge(self, design: Design, calls: list[Call]) -> None:
        number, options = self.report.rounds, self.options
        if number % _SAMPLED == 1:
            self._count_overlaps(calls)
        wants_least = options.k > 1 and number % _SAMPLED_FOR_K == 1
        arguments = (*packed(calls), options.k, options.tries, wants_least)
        judging: concurrent.futures.Future[tuple[Verdict, Optional[Least]]]
        if options.executor is not None:
            judging = options.executor.submit(judge_round, *arguments)
        else:
            judging = concurrent.futures.Future()
            try:
                judging.set_result(judge_round(*arguments))
            except Exception as fault:
                judging.set_exception(fault)
        self.pending.append(_Pending(number, design, calls, judging))
        self._collect(_MOST_PENDING)

    def _collect(self, most: int) -> None:
        """Looks at the rounds that have been judged, in their order, and waits until no more than these are left."""
        while self.report.passed and self.pending and (len(self.pending) > most or self.pending[0].judging.done()):
            self._look_at(self.pending.popleft())

    def _look_at(self, judged: _Pending) -> None:
        try:
            verdict, found = judged.judging.result()
        except Fault as fault:
            self._fail("fault", str(fault), judged.number, judged.design, judged.calls)
            return
        if verdict.status == "undecided":
            self.report.undecided += 1
            self.report.tries = max(self.report.tries, verdict.tries)
        if verdict.status == "no order" or (verdict.status == "undecided" and self.options.undecided_fails):
            self.report.headline, self.report.evidence = verdict.headline, verdict.evidence
            self.report.evidence_name, self.report.named = verdict.evidence_name, verdict.named
            self._fail(verdict.status, verdict.text, judged.number, judged.design, judged.calls)
        elif found and found.at_least is not None:
            low, high = self.report.least or (1, 1)
            most = None if high is None or found.at_most is None else max(high, found.at_most)
            self.report.least = (max(low, found.at_least), most)

    def _count_overlaps(self, calls: list[Call]) -> None:
        latest = 0
        for call, after in itertools.zip_longest(calls, calls[1:]):
            self.overlapped += latest >= call.first or (after is not None and after.first <= call.last)
            latest = max(latest, call.last)
        self.sampled += len(calls)
        self.report.overlapping = self.overlapped / max(self.sampled, 1)

    def _fail(self, outcome: str, text: str, number: int, design: Design, calls: list[Call]) -> None:
        report = self.report
        report.outcome, report.text = outcome, text
        report.failed_round = f"round {number}: {design.text()}; times are nanoseconds"
        folder = self.options.folder or tempfile.gettempdir()
        stem = os.path.join(folder, f"kfifo-{report.name}-{os.getpid()}-{next(_files)}")
        report.log = self._written(f"{stem}.csv", csv(calls))
        part = {"no order": "evidence", "hang": "all", "raised": "all"}.get(outcome)
        if part:
            with contextlib.suppress(Fault):  # of too many calls there is no picture
                report.picture = self._written(f"{stem}.svg", draw(calls, report.k, part))

    def _written(self, name: str, content: str) -> Optional[str]:
        """Writes a file, and returns its name, or notes why it cannot be written."""
        try:
            os.makedirs(os.path.dirname(name), exist_ok=True)
            pathlib.Path(name).write_text(content)
        except OSError as fault:
            self.report.unwritten.append(f"{name}: {fault.strerror}")
            return None
        return name

    def _tell(self) -> None:
        """Says on a terminal how far the check is."""
        if self.options.quiet or time.monotonic() - self.told < 0.5 or not sys.stderr.isatty():
            return
        self.told, self.has_told = time.monotonic(), True
        print(f"\r\033[K{self.report.name}: {self.report.counts()}", end="", file=sys.stderr, flush=True)


def run_check(make: Make, put: Put, get: Get, **options: Any) -> Report:
    """As check, and returns the report instead of an AssertionError."""
    chosen = Options(**options)
    chosen.check()
    load()
    return _Check(make, put, get, chosen).run()


def check(make: Make, put: Put, get: Get, **options: Any) -> Report:
    """Checks a queue: makes it by `make()`, and has threads call `put(queue, item)` and `get(queue)`.

    Items are numbers from 1 to MAX_ITEM. The head of kfifo_test says what puts and gets return, and Options which
    options there are. It takes `seconds`, 5 where it is left out.

    Raises AssertionError with the report where a round has no legal order, a call does not return or raises, or no get
    took an item; ValueError where an option is out of range; LibraryMissing where the judge is not there.
    """
    report = run_check(make, put, get, **options)
    if not report.passed:
        raise AssertionError(str(report))
    return report
