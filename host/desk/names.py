"""What numbers are called in the command's lines: refusals, keys, memories."""

from . import numbers

REFUSALS = {
    numbers.DONE: "done",
    numbers.BAD_TIME: "BadTime",
    numbers.BAD_TURBO: "BadTurbo",
    numbers.KEYS_FULL: "KeysFull",
    numbers.REGISTERS_FULL: "RegistersFull",
    numbers.SOUND_FULL: "SoundFull",
    numbers.STRAY_WRITE: "StrayWrite",
    numbers.BAD_MEMORY: "BadMemory",
    numbers.BAD_KEY: "BadKey",
    numbers.BAD_SIZE: "BadSize",
    numbers.BAD_SCRIPT: "BadScript",
    numbers.OUT_TOO_SHORT: "OutTooShort",
    numbers.NO_EVENT: "NoEvent",
    numbers.NO_NEXT_TIME: "NoNextTime",
    numbers.BAD_SAVE: "BadSave",
    numbers.SAVE_TOO_SHORT: "SaveTooShort",
}

KEYS = ["A", "B", "C"]
MEMORIES = ["ram", "sram", "gpio", "framebuffer"]


def refusal_name(number: int) -> str:
    return REFUSALS.get(number, f"refusal {number}")
