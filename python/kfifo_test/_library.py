"""The library of the judge by ctypes: how it is found, and what it is told and answers."""
from __future__ import annotations

import ctypes
import ctypes.util
import functools
import os
import pathlib
import struct
from typing import Any, Iterable, NamedTuple, Optional

from ._log import Call, NamedCall

# The numbers of the header kfifo_judge.h.
_OPS = ("put", "get")
_ANSWERS = ("", "done", "full", "got", "empty", "busy", "worn")
_OP_NUMBERS = {op: number for number, op in enumerate(_OPS)}
_ANSWER_NUMBERS = {answer: number for number, answer in enumerate(_ANSWERS)}
LEGAL, NO_ORDER, UNDECIDED, _DRAWN, _FAULT, _BAD_CALL, _NO_MEMORY = range(7)
# The layout of a `kfifo_judge_call`: first, last, item, thread, op, answer.
_CALL = struct.Struct("@QQQIBBxx")
# The layout of a `kfifo_judge_named`: number, line, and the call.
_NAMED = struct.Struct("@NQQQQIBBxx")


class LibraryMissing(RuntimeError):
    """The shared library of the judge was not found."""

    __module__ = "kfifo_test"  # so a traceback shows the name by which callers catch it


class Fault(ValueError):
    """A log cannot be judged. It is never the fault of the queue that was logged.

    `number` is the number of the fault, 1 to 8, as docs/JUDGE.md has it, or 0; `place` is the line of the log, from 1,
    or 0.
    """

    __module__ = "kfifo_test"

    def __init__(self, text: str, number: int = 0, place: int = 0) -> None:
        super().__init__(text)
        self.number = number
        self.place = place


class _Report(ctypes.Structure):
    """A `kfifo_judge_report`."""

    _fields_ = (
        ("status", ctypes.c_int),
        ("fault", ctypes.c_uint32),
        ("place", ctypes.c_uint64),
        ("text", ctypes.c_void_p),
        ("length", ctypes.c_size_t),
        ("evidence", ctypes.c_int),
        ("headline", ctypes.c_void_p),
        ("headline_length", ctypes.c_size_t),
        ("named", ctypes.c_void_p),
        ("named_count", ctypes.c_size_t),
        ("calls", ctypes.c_size_t),
        ("left", ctypes.c_size_t),
        ("at_least", ctypes.c_size_t),
        ("at_most", ctypes.c_uint32),
        ("tries", ctypes.c_uint64),
    )


@functools.lru_cache(maxsize=None)
def load() -> ctypes.CDLL:
    """The library: where KFIFO_JUDGE_LIBRARY says, else beside this folder, else where the system looks."""
    named = os.environ.get("KFIFO_JUDGE_LIBRARY")
    beside = pathlib.Path(__file__).resolve().parent.with_name("libkfifo_judge.so")
    if named:
        places = [named]
    else:
        places = [str(beside)] if beside.exists() else []
        places += [ctypes.util.find_library("kfifo_judge") or "libkfifo_judge.so.1"]
    faults = []
    for place in places:
        try:
            return _with_types(ctypes.CDLL(place))
        except (OSError, AttributeError) as fault:
            faults.append(f"  {place}: {fault}")
    raise LibraryMissing(
        "the library of the judge was not found. Put libkfifo_judge.so beside the folder kfifo_test, install it, or "
        "set KFIFO_JUDGE_LIBRARY to its path.\n" + "\n".join(faults)
    )


def _with_types(library: ctypes.CDLL) -> ctypes.CDLL:
    """Declares the calls of the library."""
    report: Any = ctypes.POINTER(_Report)
    size: Any = ctypes.c_size_t
    library.kfifo_judge_calls.argtypes = [ctypes.c_char_p, size, ctypes.c_uint32, ctypes.c_uint64, report]
    library.kfifo_judge_text.argtypes = [ctypes.c_char_p, size, ctypes.c_uint32, ctypes.c_uint64, report]
    library.kfifo_least_calls.argtypes = [ctypes.c_char_p, size, ctypes.c_uint64, report]
    draw_types = [ctypes.c_char_p, size, ctypes.c_uint32, ctypes.c_int, ctypes.c_int, report]
    library.kfifo_draw_calls.argtypes = draw_types
    library.kfifo_judge_clear.argtypes = [report]
    library.kfifo_judge_clear.restype = None
    library.kfifo_judge_evidence_name.argtypes = [ctypes.c_int]
    library.kfifo_judge_evidence_name.restype = ctypes.c_char_p
    return library


class Answer(NamedTuple):
    """A report, in Python's own memory."""

    status: int
    text: str
    evidence: int
    headline: str
    named: tuple[NamedCall, ...]
    calls: int
    left: int
    at_least: int
    at_most: int
    tries: int

    def bounds(self) -> Optional[tuple[int, Optional[int]]]:
        return (self.at_least, self.at_most or None) if self.at_least else None


def _text_at(place: Optional[int], length: int) -> str:
    return ctypes.string_at(place, length).decode(errors="replace") if place else ""


def _named_in(report: _Report) -> tuple[NamedCall, ...]:
    """The calls that a report names."""
    data = ctypes.string_at(report.named, report.named_count * _NAMED.size) if report.named_count else b""
    return tuple(
        NamedCall(number, line, Call(thread, _OPS[op], item, first, last, _ANSWERS[answer]))
        for number, line, first, last, item, thread, op, answer in _NAMED.iter_unpack(data)
    )


def ask(function: str, *arguments: Any) -> Answer:
    """Calls the library, and raises what is no verdict."""
    library = load()
    report = _Report()
    status = getattr(library, function)(*arguments, ctypes.byref(report))
    try:
        text, headline = _text_at(report.text, report.length), _text_at(report.headline, report.headline_length)
        found = (report.calls, report.left, report.at_least, report.at_most, report.tries)
        answer = Answer(status, text, report.evidence, headline, _named_in(report), *found)
        number, place = report.fault, report.place
    finally:
        library.kfifo_judge_clear(ctypes.byref(report))
    if status == _FAULT:
        raise Fault(text.rstrip(), number, place)
    if status == _NO_MEMORY:
        raise MemoryError("the judge had not enough memory")
    if status == _BAD_CALL:
        raise ValueError("the judge refused an argument")
    return answer


def packed(calls: Iterable[Call]) -> tuple[bytes, int]:
    """The calls as the library reads them, and how many there are. What does not fit the fields is a ValueError."""
    parts = []
    for thread, op, item, first, last, answer in calls:
        try:
            op_number, answer_number = _OP_NUMBERS[op], _ANSWER_NUMBERS[answer]
            parts.append(_CALL.pack(first, last, item, thread, op_number, answer_number))
        except (KeyError, struct.error) as fault:
            raise ValueError(f"call {len(parts)} is none: {fault}") from None
    return b"".join(parts), len(parts)


def name_of_evidence(kind: int) -> str:
    """The name of a kind of evidence by its number, as "too young"; empty of 0."""
    name: bytes = load().kfifo_judge_evidence_name(kind)
    return name.decode()
