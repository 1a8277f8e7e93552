"""The lines that the command prints: each entry, its refusal's name and what it answers."""

from __future__ import annotations

from typing import Callable, Dict, List, Optional

from . import names, numbers
from .layout import Answer, Entry, float_of
from .text import written

SAID: Dict[int, Callable[[Answer], str]] = {
    numbers.READ: lambda x: f"0x{x.a:08x}",
    numbers.NEXT: lambda x: f"{float_of(x.a)!r} bits 0x{x.a:016x}",
    numbers.PENDING: lambda x: f"interrupt {x.a}" if x.a else "no interrupt",
    numbers.SOUND: lambda x: f"time {float_of(x.a)!r} frequency {float_of(x.b)!r} duty {float_of(x.c)!r}",
    numbers.COUNTERS: lambda x: f"frames {x.a} flash writes {x.b} {'off' if x.c else 'on'}",
    numbers.COLOUR: lambda x: f"red {x.a >> 16} green {x.a >> 8 & 255} blue {x.a & 255}",
}


def said(entry: Entry, answer: Answer) -> str:
    return SAID[entry.kind](answer) if answer.refusal == numbers.DONE and entry.kind in SAID else ""


def table(rows: List[List[str]]) -> List[str]:
    """Columns two spaces apart; numbers stand at the right, words at the left."""
    widths = [max(len(cell) for cell in column) for column in zip(*rows)]
    cells = [[c.rjust(w) if c.isdigit() else c.ljust(w) for c, w in zip(row, widths)] for row in rows]
    return ["  ".join(row).rstrip() for row in cells]


def answer_lines(entries: List[Entry], line_numbers: Optional[List[int]], answers: List[Answer]) -> List[str]:
    rows = []
    for i, (entry, answer) in enumerate(zip(entries, answers)):
        line = [f"line {line_numbers[i]}"] if line_numbers else []
        rows.append([str(i + 1), *line, written(entry), names.refusal_name(answer.refusal), said(entry, answer)])
    return table(rows)
