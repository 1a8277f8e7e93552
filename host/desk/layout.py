"""The binary form of scripts and answers: Format.antt of crates/runner/specs and Answers.antt of crates/entries/specs;
and the chains of scripts that host/runner.c takes."""

from __future__ import annotations

import struct
from typing import List, NamedTuple

from .numbers import ANSWER_BYTES, MOST_PRESSES, MOST_STEPS, PRESS, PRESS_BYTES, STEP_BYTES


class Entry(NamedTuple):
    """A press or a step. A press has kind 0: its key is the address, the bits of its time the value. A step's two
    unused bytes are left out: nothing looks at them."""

    kind: int
    size: int = 0
    address: int = 0
    value: int = 0


class Answer(NamedTuple):
    refusal: int
    a: int
    b: int
    c: int


def float_of(bits: int) -> float:
    return struct.unpack("<d", struct.pack("<Q", bits))[0]


def bits_of(number: float) -> int:
    return struct.unpack("<Q", struct.pack("<d", number))[0]


def packed(presses: List[Entry], steps: List[Entry]) -> bytes:
    first = [struct.pack("<BQ", e.address, e.value) for e in presses]
    rest = [struct.pack("<BBxxIQ", e.kind, e.size, e.address, e.value) for e in steps]
    return struct.pack("<I", len(first)) + b"".join(first) + struct.pack("<I", len(rest)) + b"".join(rest)


def unpacked(script: bytes) -> List[Entry]:
    """Of a script that was not refused."""
    presses = struct.unpack_from("<I", script, 0)[0]
    steps = struct.unpack_from("<I", script, 4 + PRESS_BYTES * presses)[0]
    entries = [Entry(PRESS, 0, *struct.unpack_from("<BQ", script, 4 + PRESS_BYTES * i)) for i in range(presses)]
    first = 8 + PRESS_BYTES * presses
    return entries + [Entry(*struct.unpack_from("<BBxxIQ", script, first + STEP_BYTES * i)) for i in range(steps)]


def answers_in(out: bytes) -> List[Answer]:
    count = struct.unpack_from("<I", out, 0)[0]
    return [Answer(*struct.unpack_from("<BQQQ", out, 4 + ANSWER_BYTES * i)) for i in range(count)]


# ---- chains


def parts(entries: List[Entry], most: int) -> List[List[Entry]]:
    """One at least, and none with more than so many."""
    return [entries[i:i + most] for i in range(0, len(entries), most)] or [[]]


def chain(presses: List[Entry], steps: List[Entry]) -> List[bytes]:
    """Scripts that do all of them in this order, the last presses with the first steps."""
    first, rest = parts(presses, MOST_PRESSES), parts(steps, MOST_STEPS)
    pairs = [(p, []) for p in first[:-1]] + [(first[-1], rest[0])] + [([], s) for s in rest[1:]]
    return [packed(*pair) for pair in pairs]


def framed(scripts: List[bytes]) -> bytes:
    return b"".join(struct.pack("<Q", len(script)) + script for script in scripts)


def joined(outs: bytes) -> bytes:
    """Answers of scripts, one behind the other, as those of one script."""
    answers, count, at = [], 0, 0
    while at < len(outs):
        more = struct.unpack_from("<I", outs, at)[0]
        answers.append(outs[at + 4:at + 4 + ANSWER_BYTES * more])
        at += 4 + ANSWER_BYTES * more
        count += more
    return struct.pack("<I", count) + b"".join(answers)
