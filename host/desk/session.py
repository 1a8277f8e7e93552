"""What `./tg18 show` prints of a session, from what host/runner.c gives: the bytes before the memories, of which it has
made zero what is not to be shown. docs/SESSIONS.md has the layout. And the file of a later session."""

from __future__ import annotations

import contextlib
import os
import secrets
import struct
from typing import Iterator, List

from . import names, numbers
from .lines import table
from .trouble import OTHER, USAGE, Trouble

# Own words by their slots: eight of each timer, then the named ones.
TIMER_WORDS = ["control", "", "reload", "compare", "counter", "", "", ""]
NAMED_WORDS = [
    "RTC_IRQ_STATUS", "RTC_IRQ_ENABLE", "SPI2_SEND", "SPI2_STATUS", "SPI2_ANSWER", "RTC_ADDRESS", "RTC_DATA",
    "RTC_COMMAND", "RTC_READY", "RTC_OUT", "ADC_CONTROL", "ADC_RESULT", "SPIFC_SELECT", "SPIFC_STATUS", "SPIFC_SEND",
    "SPIFC_ANSWER", "CLOCK_SWITCH", "CLOCK_STATUS", "POWER_REG", "INTC_PENDING", "INTC_PENDING_FIQ", "INTC_MASK",
    "INTC_DISABLE", "LCD_CONTROL", "LCD_DATA", "LCD_ENABLE", "LCD_STATUS", "LCD_DMA",
]
COMMANDS = {
    0x02: "program", 0x03: "read", 0x04: "write disable", 0x05: "read status", 0x06: "write enable", 0x0B: "fast read",
    0x15: "read status 3", 0x20: "erase 4 KiB", 0x35: "read status 2", 0x4B: "read unique number", 0x52: "erase 32 KiB",
    0x60: "erase all", 0x90: "read maker and device", 0x9F: "read JEDEC number", 0xAB: "read device", 0xC7: "erase all",
    0xD8: "erase 64 KiB",
}
# What the last byte sent went through; the runner has made them zero.
NOT_SHOWN = ["RTC_DATA", "SPIFC_SEND", "LCD_DATA"]
NO_BYTE = 256
MEMORY_SIZES = [numbers.RAM_SIZE, numbers.SRAM_SIZE, numbers.GPIO_SIZE, numbers.FRAMEBUFFER_SIZE]


class Reader:
    """Takes what stands there, one after the other."""

    def __init__(self, content: bytes):
        self.content = content
        self.at = 0

    def take(self, form: str) -> tuple:
        fields = struct.unpack_from(f"<{form}", self.content, self.at)
        self.at += struct.calcsize(f"<{form}")
        return fields

    def one(self, form: str) -> int:
        return self.take(form)[0]


def word_name(slot: int) -> str:
    timer, word = divmod(slot, len(TIMER_WORDS))
    if timer < numbers.TIMER_COUNT:
        return f"timer {timer} {TIMER_WORDS[word]}".rstrip()
    return NAMED_WORDS[slot - len(TIMER_WORDS) * numbers.TIMER_COUNT]


def word_address(slot: int) -> int:
    timer, word = divmod(slot, len(TIMER_WORDS))
    if timer < numbers.TIMER_COUNT:
        return numbers.TIMER_BASE + numbers.TIMER_STEP * timer + 4 * word
    return getattr(numbers, word_name(slot))


def under(head: str, rows: List[List[str]]) -> List[str]:
    """A line, and rows set in below it."""
    return [head, *[f"  {line}" for line in (table(rows) if rows else [])]]


def keys_text(flags: List[int]) -> str:
    return " ".join(name for name, flag in zip(names.KEYS, flags) if flag) or "none"


def timer_lines(starts: tuple, pending: tuple, slots: tuple) -> List[str]:
    rows = []
    for i, start in enumerate(starts):
        control, _, reload = slots[len(TIMER_WORDS) * i:len(TIMER_WORDS) * i + 3]
        words = f"control 0x{control:08x} reload 0x{reload:08x}"
        rows.append([str(i), f"started {start!r}", "pending" if pending[i] else "not pending", words])
    return under("timers", rows)


def word_lines(slots: tuple, others: List[tuple]) -> List[str]:
    own = [[f"0x{word_address(i):08x}", f"0x{word:08x}", word_name(i)] for i, word in enumerate(slots) if word]
    rest = [[f"0x{address:08x}", f"0x{word:08x}"] for address, word in others]
    head = f"own words that are not 0: {len(own)} ({', '.join(NOT_SHOWN)} are not shown)"
    return under(head, own) + under(f"other words: {len(rest)}", rest)


def panel_lines(r: Reader) -> List[str]:
    command, *arguments, count = r.take("I5B")
    x0, x1, y0, y1, x, y, half, frames = r.take("7IQ")
    came = " ".join(f"0x{argument:02x}" for argument in arguments[:count]) or "none"
    said = "no command" if command == NO_BYTE else f"command 0x{command:02x}, arguments {came}"
    waits = "no half pixel" if half == NO_BYTE else "half a pixel waits"
    return [f"panel: {said}", f"  window {x0} to {x1}, {y0} to {y1}; at {x}, {y}; {waits}; frames {frames}"]


def clock_lines(r: Reader, day: int, next_event: float) -> List[str]:
    now, game, turbo, day_set, rtc_set = r.take("5d")
    ticks, day_base, syncs, rtc_base, *_ = r.take("QIQQI256B")
    clock = f"{day // 3600:02}:{day // 60 % 60:02}:{day % 60:02}"
    return [
        f"time {now!r}, game time {game!r}, turbo {turbo!r}; the next event is at {next_event!r}",
        f"  ticks of a second {ticks}, vertical syncs {syncs}",
        f"  time of day {clock}; it was second {day_base} at game time {day_set!r}",
        f"  RTC base {rtc_base}, set at game time {rtc_set!r}; the chip's memory is not shown",
    ]


def flash_lines(r: Reader) -> List[str]:
    selected, enabled, writes, _, command, _, _, _, come, is_long, *_ = r.take("BBQBBBBBIB256B")
    name = COMMANDS.get(command, "no known command")
    last = f"command 0x{command:02x}, {name}" if come else "no byte has come"
    place = f"place {come}{', more than 260 bytes have come' if is_long else ''}"
    chosen, enable = "selected" if selected else "not selected", "on" if enabled else "off"
    return [f"flash {chosen}, write enable {enable}, writes {writes}",
            f"  {last}; {place}; later bytes, page and answer are not shown"]


def key_lines(r: Reader, held: int) -> List[str]:
    *down, applied = r.take("4B")
    holds = r.take("3d")
    until = ", ".join(f"{name} {time!r}" for name, time in zip(names.KEYS, holds))
    bits = [held >> i & 1 for i in range(len(names.KEYS))]
    return [f"keys held now: {keys_text(bits)}",
            f"  down: {keys_text(down)}; held until: {until}; lines 0x{applied:02x}"]


def page_lines(content: bytes) -> List[str]:
    r = Reader(content)
    interrupt, held, day, next_event = r.take("QQQd")
    starts, pending = r.take("I6d")[1:], r.take("6B")
    count = r.one("I")
    slots = r.take("76I")
    others = [r.take("II") for _ in range(count)]
    converting, off = r.take("I2B")[1:]
    r.one("I")
    panel = panel_lines(r)
    r.one("I")
    clocks = clock_lines(r, day, next_event)
    frequency, duty = r.take("I2d")[1:]
    r.one("I")
    flash = flash_lines(r)
    r.one("I")
    keys = key_lines(r, held)
    presses = [r.take("Bd") for _ in range(r.one("I"))]
    events = [r.take("3d") for _ in range(r.one("I"))]
    return [
        *clocks,
        f"interrupt {interrupt} waits" if interrupt else "no interrupt waits",
        *timer_lines(starts, pending, slots),
        *word_lines(slots, others),
        f"ADC {'converting' if converting else 'idle'}, power {'off' if off else 'on'}",
        *panel,
        f"tone: frequency {frequency!r} duty {duty!r}",
        *flash,
        *keys,
        *under(f"presses: {len(presses)}", [[names.KEYS[key], f"at {time!r}"] for key, time in presses]),
        *under(f"sound events: {len(events)}",
               [[f"time {t!r}", f"frequency {f!r}", f"duty {d!r}"] for t, f, d in events]),
        *under("memories, not shown",
               [[name, f"{size:,} bytes"] for name, size in zip(names.MEMORIES, MEMORY_SIZES)]),
    ]


# ---- files


def file_trouble(path: str, error: OSError) -> Trouble:
    return Trouble(USAGE, f"{path}: {error.strerror or error}")


@contextlib.contextmanager
def opened(path: str) -> Iterator[int]:
    """A session that is to be read."""
    try:
        file = os.open(path, os.O_RDONLY | os.O_CLOEXEC)
    except OSError as error:
        raise file_trouble(path, error) from error
    try:
        if os.path.isdir(file):
            raise Trouble(USAGE, f"{path}: Is a directory")
        yield file
    finally:
        os.close(file)


@contextlib.contextmanager
def replacing(path: str) -> Iterator[int]:
    """A session that is to be written, for its owner alone: under another name beside it, and by its own once all has
    gone well, so that the file of that name is the old one or the new one, and whole."""
    target = os.path.realpath(path)
    folder = os.path.dirname(target)
    part = os.path.join(folder, f".tg18-{secrets.token_hex(8)}")
    if os.path.exists(target) and not os.path.isfile(target):
        raise Trouble(USAGE, f"{path}: not an ordinary file")
    try:
        file = os.open(part, os.O_WRONLY | os.O_CREAT | os.O_EXCL | os.O_CLOEXEC, 0o600)
    except OSError as error:
        raise file_trouble(path, error) from error
    try:
        os.fchmod(file, 0o600)
        yield file
        renamed(part, target, path)
    finally:
        os.close(file)
        with contextlib.suppress(FileNotFoundError):
            os.unlink(part)


def renamed(part: str, target: str, path: str) -> None:
    """The answers are told by then, so that a failure is no bad usage any more."""
    try:
        os.replace(part, target)
        folder = os.open(os.path.dirname(target), os.O_RDONLY | os.O_DIRECTORY | os.O_CLOEXEC)
        try:
            os.fsync(folder)
        finally:
            os.close(folder)
    except OSError as error:
        raise Trouble(OTHER, f"{path}: {error.strerror or error}") from error
