"""The text form of scripts: a line a press or a step. host/README.md says what the lines look like."""

from __future__ import annotations

import math
import re
from typing import Callable, Dict, List, NamedTuple, Tuple

from . import names, numbers
from .layout import Entry, bits_of, float_of

WHOLE = re.compile(r"0x[0-9a-f]+(_[0-9a-f]+)*|[0-9]+(_[0-9]+)*", re.ASCII)
DECIMAL = re.compile(r"[+-]?([0-9]+(_[0-9]+)*(\.([0-9]+(_[0-9]+)*)?)?|\.[0-9]+(_[0-9]+)*)(e[+-]?[0-9]+)?", re.ASCII)
MOST_ERRORS = 20
MOST_DIGITS = 100
BYTE, WORD, WIDE = 8, 32, 64


class BadLine(Exception):
    """What is wrong with a line."""


class Line(NamedTuple):
    number: int
    is_press: bool
    entry: Entry


class Words:
    """The words of a line behind its first, taken one after the other."""

    def __init__(self, words: List[str]):
        self.words = words

    def word(self, what: str) -> str:
        if not self.words:
            raise BadLine(f"{what} is missing")
        return self.words.pop(0)

    def whole(self, what: str, bits: int) -> int:
        word = self.word(what)
        if not WHOLE.fullmatch(word):
            raise BadLine(f"{what} is not a number: {word}")
        # Python refuses to turn thousands of decimal digits into a number.
        base = 16 if word.startswith("0x") else 10
        number = int(word.replace("_", ""), base) if len(word) <= MOST_DIGITS else 1 << bits
        if number >> bits:
            raise BadLine(f"{what} does not fit {bits} bits: {word[:MOST_DIGITS]}")
        return number

    def key(self, bits: int) -> int:
        if self.words and self.words[0].upper() in names.KEYS:
            return names.KEYS.index(self.words.pop(0).upper())
        return self.whole("the key", bits)

    def float(self, what: str) -> int:
        word = self.word(what)
        if word == "bits":
            return self.whole(f"the bits of {what}", WIDE)
        if not DECIMAL.fullmatch(word):
            raise BadLine(f"{what} is neither a decimal number nor 'bits' and a number: {word}")
        number = float(word)
        if math.isinf(number):
            raise BadLine(f"{what} is too large for a float: {word}")
        return bits_of(number)

    def down(self) -> int:
        word = self.word("down or up")
        if word not in ("down", "up"):
            raise BadLine(f"down or up is due here: {word}")
        return int(word == "down")

    def end(self) -> None:
        if self.words:
            raise BadLine(f"more than there should be: {' '.join(self.words)}")


def read_step(w: Words) -> Entry:
    return Entry(w.whole("the kind", BYTE), w.whole("the size", BYTE), w.whole("the address", WORD),
                 w.whole("the value", WIDE))


READERS: Dict[str, Callable[[Words], Entry]] = {
    "press": lambda w: Entry(numbers.PRESS, 0, w.key(BYTE), w.float("the time")),
    "read": lambda w: Entry(numbers.READ, w.whole("the size", BYTE), w.whole("the address", WORD)),
    "write": lambda w: Entry(numbers.WRITE, w.whole("the size", BYTE), w.whole("the address", WORD),
                             w.whole("the value", WORD)),
    "advance": lambda w: Entry(numbers.ADVANCE, value=w.float("the time")),
    "next": lambda w: Entry(numbers.NEXT),
    "pending": lambda w: Entry(numbers.PENDING),
    "turbo": lambda w: Entry(numbers.TURBO, value=w.float("the factor")),
    "key": lambda w: Entry(numbers.KEY, 0, w.key(WORD), w.down()),
    "hold": lambda w: Entry(numbers.HOLD, 0, w.key(WORD), w.float("the time")),
    "sound": lambda w: Entry(numbers.SOUND),
    "counters": lambda w: Entry(numbers.COUNTERS),
    "colour": lambda w: Entry(numbers.COLOUR, 0, w.whole("the pixel", WORD)),
    "wipe": lambda w: Entry(numbers.WIPE),
    "step": read_step,
}


def read_entry(line: str) -> Tuple[bool, Entry]:
    """Whether it is a press, and the entry. A step may have any kind, 0 too, which is then refused with the whole
    script."""
    words = line.lower().split()
    if words[0] not in READERS:
        raise BadLine(f"no such word: {words[0]}; there are {', '.join(READERS)}")
    rest = Words(words[1:])
    entry = READERS[words[0]](rest)
    rest.end()
    return words[0] == "press", entry


def read_script(text: bytes) -> Tuple[List[Line], List[Tuple[int, str]]]:
    """The entries with their line numbers, and what is wrong with which lines."""
    lines: List[Line] = []
    errors: List[Tuple[int, str]] = []
    steps_began = False
    for number, raw in enumerate(text.split(b"\n"), 1):
        try:
            line = raw.decode("utf-8").split("#", 1)[0].strip()
            if not line:
                continue
            is_press, entry = read_entry(line)
            if is_press and steps_began:
                raise BadLine("a press behind a step: presses are entered before the first step, so they stand there")
            steps_began = steps_began or not is_press
            lines.append(Line(number, is_press, entry))
        except UnicodeDecodeError:
            errors.append((number, "not UTF-8"))
        except BadLine as bad:
            errors.append((number, str(bad)))
    return lines, errors


# ---- the other way


def key_text(key: int) -> str:
    return names.KEYS[key] if key < len(names.KEYS) else str(key)


def float_text(bits: int) -> str:
    number = float_of(bits)
    return repr(number) if math.isfinite(number) else f"bits 0x{bits:016x}"


def step_text(e: Entry) -> str:
    return f"step {e.kind} {e.size} 0x{e.address:08x} 0x{e.value:x}"


WRITERS: Dict[int, Callable[[Entry], str]] = {
    numbers.PRESS: lambda e: f"press {key_text(e.address)} {float_text(e.value)}",
    numbers.READ: lambda e: f"read {e.size} 0x{e.address:08x}",
    numbers.WRITE: lambda e: f"write {e.size} 0x{e.address:08x} 0x{e.value:x}",
    numbers.ADVANCE: lambda e: f"advance {float_text(e.value)}",
    numbers.NEXT: lambda e: "next",
    numbers.PENDING: lambda e: "pending",
    numbers.TURBO: lambda e: f"turbo {float_text(e.value)}",
    numbers.KEY: lambda e: f"key {key_text(e.address)} {'down' if e.value else 'up'}",
    numbers.HOLD: lambda e: f"hold {key_text(e.address)} {float_text(e.value)}",
    numbers.SOUND: lambda e: "sound",
    numbers.COUNTERS: lambda e: "counters",
    numbers.COLOUR: lambda e: f"colour {e.address}",
    numbers.WIPE: lambda e: "wipe",
}


def written(entry: Entry) -> str:
    """The line that is read as this entry. What the kind's own word cannot say, such as a read with a value, `step`
    says."""
    line = WRITERS[entry.kind](entry) if entry.kind in WRITERS else step_text(entry)
    try:
        same = read_entry(line)[1] == entry
    except BadLine:
        same = False
    return line if same else step_text(entry)
