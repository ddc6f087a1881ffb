"""Many logs in files, which threads, processes or machines judge."""
from __future__ import annotations

import concurrent.futures
import os
import pathlib
from typing import Any, Iterable, Iterator, NamedTuple, Optional

from ._judge import TRIES, Verdict, judge_bytes, needs_k
from ._library import Fault

_BATCH = 16  # how many logs an executor gets at a time


class JudgedLog(NamedTuple):
    """What the judge says of a log in a file, or why it says nothing."""

    path: str
    verdict: Optional[Verdict]
    fault: str  # why there is no verdict: the file cannot be read, or is no log; empty where there is one


def judge_logs(
    paths: Iterable[Any], executor: Optional[concurrent.futures.Executor] = None, k: int = 1, tries: int = TRIES
) -> Iterator[JudgedLog]:
    """Judges logs in CSV and records in JSON, each in a file, and returns what is found in the order of the paths.

    The executor runs batches of them: threads of this process where it is left out, for the judge lets other threads
    run; or concurrent.futures.ProcessPoolExecutor; or a cluster's, whose machines have kfifo_test, its library and the
    logs. Raises ValueError where k or tries is out of range.

    >>> [judged.fault for judged in judge_logs(["no/such/log.csv"])]
    ["[Errno 2] No such file or directory: 'no/such/log.csv'"]
    """
    needs_k(k, tries)
    names = [os.fspath(path) for path in paths]
    batches = [names[at : at + _BATCH] for at in range(0, len(names), _BATCH)]
    return _judged_batches(batches, executor, k, tries)


def _judged_batches(
    batches: list[list[str]], executor: Optional[concurrent.futures.Executor], k: int, tries: int
) -> Iterator[JudgedLog]:
    own = concurrent.futures.ThreadPoolExecutor(os.cpu_count()) if executor is None else None
    try:
        for judged in [(own or executor).submit(_judge_files, batch, k, tries) for batch in batches]:
            yield from judged.result()
    finally:
        if own:
            own.shutdown(wait=True)


def _judge_files(paths: list[str], k: int, tries: int) -> list[JudgedLog]:
    """Judges a batch of files, wherever an executor runs it."""
    found = []
    for path in paths:
        try:
            found.append(JudgedLog(path, judge_bytes(pathlib.Path(path).read_bytes(), k, tries), ""))
        except (OSError, Fault) as fault:
            found.append(JudgedLog(path, None, str(fault)))
    return found
