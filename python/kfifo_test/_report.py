"""The report of a check."""
from __future__ import annotations

from dataclasses import dataclass, field
from typing import Optional

from ._log import NamedCall

_FEW = 0.2  # below this share of overlapping calls the report says that there are few


@dataclass
class Report:
    """What came of a check, and how much was looked at. As a text it says all of it."""

    name: str
    k: int
    seed: int
    outcome: str = "passed"  # "no order", "undecided", "hang", "raised", "nothing taken" or "fault"
    text: str = ""  # the judge's reason, or what the threads were in
    headline: str = ""  # of "no order", what the evidence says of the queue
    evidence: int = 0  # and the number of its kind, 1 to 7, as docs/JUDGE.md has it
    evidence_name: str = ""  # and its name, as "too young"
    named: tuple[NamedCall, ...] = ()  # and the calls that it rests on, in the order of the text
    rounds: int = 0
    calls: int = 0
    taken: int = 0  # how many gets took an item
    overlapping: float = 0.0  # the share of calls that overlapped one of another thread, over a sample of rounds
    undecided: int = 0  # how many rounds had neither an order nor a reason against each
    tries: int = 0  # after how many tries the search gave up in them at most
    # For k > 1 the greatest bounds of the least k, over a sample of rounds; the upper one is None where some round had
    # none.
    least: Optional[tuple[int, Optional[int]]] = None
    failed_round: str = ""
    log: Optional[str] = None  # the file with the log of the round that failed
    picture: Optional[str] = None  # and that with a picture of the calls that rule out an order, or of all calls
    unwritten: list[str] = field(default_factory=list)  # the files that could not be written, each with the reason

    @property
    def passed(self) -> bool:
        """Whether no fault was found."""
        return self.outcome == "passed"

    def counts(self) -> str:
        """How much was looked at, and after how many tries the search gave up in the undecided rounds, at most."""
        tried = f" after at most {self.tries} tries each" if self.undecided else ""
        share = f"{100 * self.overlapping:.0f} % overlapping"
        return f"{self.rounds} rounds, {self.calls} calls, {share}, {self.undecided} undecided{tried}"

    def _head(self) -> str:
        return {
            "passed": "no fault found",
            "no order": f"no legal order: {self.headline}",
            "undecided": "a round is undecided" if self.failed_round else "no round has a verdict",
            "hang": "a call did not return",
            "raised": "a call failed",
            "nothing taken": "no get took an item, so nothing was tested",
            "fault": "a log cannot be judged: the check or its functions are wrong, not the queue",
        }[self.outcome]

    def __str__(self) -> str:
        lines = [f"kfifo check of {self.name} for k = {self.k}: {self._head()}"]
        if self.failed_round:
            lines.append(self.failed_round)
        elif self.overlapping < _FEW:
            lines.append("few calls overlapped, so few faults could show: try more processors or more seconds")
        if self.text:
            lines.append(self.text.rstrip())
        lines += [f"log: {self.log}"] if self.log else []
        lines += [f"not written: {it}" for it in self.unwritten]
        lines += [f"picture: {self.picture}"] if self.picture else []
        last = f"{self.counts()}, seed {self.seed}"
        if self.least:
            low, high = self.least
            last += f"; of a sample the least k is at least {low} and at most {high or 'unknown'}"
        return "\n".join(lines + [last])
