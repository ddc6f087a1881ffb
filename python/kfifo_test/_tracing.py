"""How a thread gives way between two bytecodes."""
from __future__ import annotations

import random
import time
import traceback
from typing import Any, Callable

_TRACER = "trace"  # what the function is called by which a thread gives way


def tracer(dice: random.Random) -> Callable[..., Any]:
    """A function for sys.settrace by which a thread gives way between two bytecodes, at one of sixteen places."""

    def trace(frame: Any, event: str, _argument: Any) -> Any:
        if event == "call":
            frame.f_trace_opcodes = True
            frame.f_trace_lines = False
        elif event == "opcode" and dice.random() < 1 / 16:
            time.sleep(1e-6 if dice.random() < 1 / 8 else 0)
        return trace

    return trace


def is_tracing(frame: traceback.FrameSummary) -> bool:
    """Whether a frame is that of a tracer."""
    return (frame.filename, frame.name) == (__file__, _TRACER)
