"""The judge: verdicts on logs, bounds of the least k, and pictures."""
from __future__ import annotations

from dataclasses import dataclass
from typing import Any, Iterable, Optional

from ._library import LEGAL, NO_ORDER, UNDECIDED, Answer, ask, name_of_evidence, packed
from ._log import Call, NamedCall

TRIES = 1_000_000


@dataclass(frozen=True)
class Verdict:
    """What the judge says of a log. `text` is what the program `kfifo judge` prints of it."""

    status: str  # "legal" or "no order", which are proved, or "undecided"
    text: str
    calls: int = 0  # how many were judged
    left: int = 0  # how many items are left at their end
    evidence: int = 0  # of "no order", the number of the kind of its evidence, 1 to 7, as docs/JUDGE.md has it; else 0
    evidence_name: str = ""  # and its name, as "too young"
    headline: str = ""  # and what it says of the queue, as "item 2 came out, and item 1, which went in before, had not"
    named: tuple[NamedCall, ...] = ()  # and the calls that it rests on, in the order of the text
    least: Optional[tuple[int, Optional[int]]] = None  # and the bounds of the least k, where the text says them
    tries: int = 0  # of "undecided", after how many tries the search gave up: how many choices it took back; else 0


@dataclass(frozen=True)
class Least:
    """Between which bounds the least k lies for which a log has a legal order."""

    at_least: Optional[int]  # it is no less, which is proved; None where no k has an order
    at_most: Optional[int]  # it is no greater, 1 to 64; None where no order was found
    text: str


def is_whole(number: Any, least: int, most: int) -> bool:
    """Whether this is a whole number in this range."""
    return isinstance(number, int) and least <= number <= most


def needs_k(k: int, tries: int) -> None:
    if not is_whole(k, 1, 64):
        raise ValueError(f"k is {k!r}, but has to be a whole number from 1 to 64")
    if not is_whole(tries, 0, 2**64 - 1):
        raise ValueError(f"tries is {tries!r}, but has to be a whole number from 0 to 2**64 - 1")


def judge(calls: Iterable[Call], k: int = 1, tries: int = TRIES) -> Verdict:
    """Judges calls, in any order and MAX_CALLS at most, for a queue whose gets may give any of its k oldest items.

    k is 1 to 64; `tries` is how many choices the search may take back. Raises Fault where the calls are no log, and
    ValueError where an argument is out of range.

    >>> verdict = judge([Call(0, "put", 1, 10, 20, "done"), Call(1, "get", 0, 30, 40, "empty")])
    >>> verdict.status, verdict.headline, [named.line for named in verdict.named]
    ('no order', 'a get found nothing, while the queue held item 1', [3, 2])
    """
    needs_k(k, tries)
    return judge_packed(*packed(calls), k, tries)


def judge_text(text: str, k: int = 1, tries: int = TRIES) -> Verdict:
    """As judge, of the text of a log in CSV or of a record in JSON."""
    needs_k(k, tries)
    return judge_bytes(text.encode(), k, tries)


def least(calls: Iterable[Call], tries: int = TRIES) -> Least:
    """Between which bounds the least k lies for which these calls have a legal order. Raises as judge does."""
    needs_k(1, tries)
    return least_packed(*packed(calls), tries)


def draw(calls: Iterable[Call], k: int = 1, part: str = "evidence", style: str = "svg") -> str:
    """Draws calls, and returns the picture.

    `part` is "evidence", the calls that rule out this k, marked, and those near them, or "all", 4,096 calls at most;
    `style` is "svg" or "text". Raises as judge does.
    """
    needs_k(k, TRIES)
    parts, styles = ("all", "evidence"), ("svg", "text")
    if part not in parts or style not in styles:
        raise ValueError('a part is "all" or "evidence", and a style "svg" or "text"')
    return ask("kfifo_draw_calls", *packed(calls), k, parts.index(part), styles.index(style)).text


def judge_packed(data: bytes, count: int, k: int, tries: int) -> Verdict:
    """As judge, of calls as the library reads them."""
    return _verdict(ask("kfifo_judge_calls", data, count, k, tries))


def judge_bytes(data: bytes, k: int, tries: int) -> Verdict:
    """As judge_text, of the bytes of a text."""
    return _verdict(ask("kfifo_judge_text", data, len(data), k, tries))


def _verdict(answer: Answer) -> Verdict:
    return Verdict(
        status={LEGAL: "legal", NO_ORDER: "no order", UNDECIDED: "undecided"}[answer.status],
        text=answer.text,
        calls=answer.calls,
        left=answer.left,
        evidence=answer.evidence,
        evidence_name=name_of_evidence(answer.evidence),
        headline=answer.headline,
        named=answer.named,
        least=answer.bounds(),
        tries=answer.tries,
    )


def least_packed(data: bytes, count: int, tries: int) -> Least:
    """As least, of calls as the library reads them."""
    answer = ask("kfifo_least_calls", data, count, tries)
    if answer.status == NO_ORDER:
        return Least(None, None, answer.text)
    return Least(answer.at_least, answer.at_most or None, answer.text)
