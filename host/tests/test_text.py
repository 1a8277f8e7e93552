"""The text form: what lines are read as, what is wrong with them, and that an entry's line is read as the entry."""

import random
import struct
import unittest

from desk import numbers
from desk.layout import Answer, Entry, answers_in, bits_of, chain, joined, packed, unpacked
from desk.lines import answer_lines, said
from desk.text import read_entry, read_script, written

HALF = 0x3FE0000000000000


class Reading(unittest.TestCase):
    def entry(self, line, *fields):
        self.assertEqual(read_entry(line)[1], Entry(*fields), line)

    def test_every_word(self):
        self.entry("press B 0.5", numbers.PRESS, 0, 1, HALF)
        self.entry("read 4 0x20000000", numbers.READ, 4, 0x20000000, 0)
        self.entry("write 2 0xF8000000 65535", numbers.WRITE, 2, 0xF8000000, 65535)
        self.entry("advance 0.5", numbers.ADVANCE, 0, 0, HALF)
        self.entry("next", numbers.NEXT)
        self.entry("pending", numbers.PENDING)
        self.entry("turbo 1024", numbers.TURBO, 0, 0, bits_of(1024.0))
        self.entry("key C down", numbers.KEY, 0, 2, 1)
        self.entry("key A up", numbers.KEY, 0, 0, 0)
        self.entry("hold A 1.5", numbers.HOLD, 0, 0, bits_of(1.5))
        self.entry("sound", numbers.SOUND)
        self.entry("counters", numbers.COUNTERS)
        self.entry("colour 16383", numbers.COLOUR, 0, 16383)
        self.entry("wipe", numbers.WIPE)
        self.entry("step 255 254 0xFFFFFFFF 0xFFFFFFFFFFFFFFFF", 255, 254, 0xFFFFFFFF, 0xFFFFFFFFFFFFFFFF)

    def test_numbers(self):
        self.entry("READ 4 0X2000_0000", numbers.READ, 4, 0x20000000)
        self.entry("read 255 1_000", numbers.READ, 255, 1000)
        self.entry("press 255 bits 0x3FE0_0000_0000_0000", numbers.PRESS, 0, 255, HALF)
        self.entry("hold 4294967295 1_0.2_5", numbers.HOLD, 0, 0xFFFFFFFF, bits_of(10.25))
        self.entry("advance -0.0", numbers.ADVANCE, 0, 0, 1 << 63)
        self.entry("advance 1e-3", numbers.ADVANCE, 0, 0, bits_of(0.001))
        self.entry("advance 2097152.0000000001", numbers.ADVANCE, 0, 0, bits_of(2097152.0))

    def test_comments_and_blank_lines(self):
        lines, errors = read_script(b"# one\n\n  press a 0 # two\r\n\twipe\n#")
        self.assertEqual([(line.number, line.entry.kind) for line in lines], [(3, numbers.PRESS), (4, numbers.WIPE)])
        self.assertEqual(errors, [])


class Errors(unittest.TestCase):
    def error(self, line, part):
        lines, errors = read_script(b"wipe\n\n" + line.encode() + b"\n")
        self.assertEqual([number for number, _ in errors], [3], line)
        self.assertIn(part, errors[0][1], line)

    def test_words(self):
        self.error("jump 1", "no such word: jump")
        self.error("read 4", "the address is missing")
        self.error("read", "the size is missing")
        self.error("wipe now", "more than there should be: now")
        self.error("key A", "down or up is missing")
        self.error("key A sideways", "down or up is due here: sideways")
        self.error("advance bits", "the bits of the time is missing")

    def test_numbers(self):
        self.error("read 256 0", "the size does not fit 8 bits: 256")
        self.error("read 4 0x100000000", "the address does not fit 32 bits")
        self.error("write 4 0 0x100000000", "the value does not fit 32 bits")
        self.error("step 1 1 1 0x10000000000000000", "the value does not fit 64 bits")
        self.error("read 4 " + "9" * 9000, "the address does not fit 32 bits")
        for word in ("-1", "1.5", "0x", "_1", "1_", "1__0", "x", "0b1", "\u0661"):
            self.error(f"read 4 {word}", "the address is not a number")
        for word in ("nan", "inf", "0x10", "1e", ".", "_1.0", "half"):
            self.error(f"advance {word}", "neither a decimal number")
        self.error("advance 1e999", "too large for a float")

    def test_press_behind_a_step(self):
        self.error("press A 0", "a press behind a step")

    def test_not_utf8_and_many(self):
        _, errors = read_script(b"wipe\n\xff\n" + b"what\n" * 30)
        self.assertEqual(errors[0], (2, "not UTF-8"))
        self.assertEqual(len(errors), 31)


class Both(unittest.TestCase):
    def test_a_line_is_read_as_its_entry(self):
        source = random.Random(1)
        values = [0, 1, 2, HALF, bits_of(0.1), 1 << 63, 0x7FF0000000000000, 0x7FF8000000000001, (1 << 64) - 1]
        for _ in range(20000):
            kind = source.randrange(256) if source.random() < 0.1 else source.randrange(numbers.READ, numbers.WIPE + 1)
            size = source.choice([0, 0, 1, 2, 3, 4, 255])
            address = source.choice([0, 0, 1, 2, 3, 0x20000000, 0xFFFFFFFF, source.getrandbits(32)])
            value = source.choice(values + [source.getrandbits(64), source.getrandbits(32)])
            entry = Entry(kind, size, address, value) if kind else Entry(numbers.PRESS, 0, address & 255, value)
            self.assertEqual(read_entry(written(entry))[1], entry)

    def test_binary_and_back(self):
        presses = [Entry(numbers.PRESS, 0, 255, 7), Entry(numbers.PRESS, 0, 0, HALF)]
        steps = [Entry(numbers.READ, 4, 0x20000000, 0), Entry(255, 255, 0xFFFFFFFF, (1 << 64) - 1)]
        script = packed(presses, steps)
        self.assertEqual(len(script), 8 + numbers.PRESS_BYTES * 2 + numbers.STEP_BYTES * 2)
        self.assertEqual(unpacked(script), presses + steps)

    def test_answers(self):
        out = struct.pack("<IBQQQBQQQ", 2, numbers.DONE, 1, 2, 3, numbers.NO_NEXT_TIME, 0, 0, 0) + b"later"
        self.assertEqual(answers_in(out), [Answer(numbers.DONE, 1, 2, 3), Answer(numbers.NO_NEXT_TIME, 0, 0, 0)])


class Chains(unittest.TestCase):
    def counts(self, presses, steps):
        """Of presses and steps in each script, where each entry has its own number."""
        first = [Entry(numbers.PRESS, 0, 1, i) for i in range(presses)]
        rest = [Entry(numbers.READ, 4, 0, i) for i in range(steps)]
        scripts = [unpacked(script) for script in chain(first, rest)]
        self.assertEqual([entry for script in scripts for entry in script], first + rest)
        kinds = [[entry.kind for entry in script] for script in scripts]
        return [(kind.count(numbers.PRESS), kind.count(numbers.READ)) for kind in kinds]

    def test_how_lists_are_cut(self):
        self.assertEqual(self.counts(0, 0), [(0, 0)])
        self.assertEqual(self.counts(4096, 4096), [(4096, 4096)])
        self.assertEqual(self.counts(0, 4097), [(0, 4096), (0, 1)])
        self.assertEqual(self.counts(4097, 0), [(4096, 0), (1, 0)])
        self.assertEqual(self.counts(8193, 8192), [(4096, 0), (4096, 0), (1, 4096), (0, 4096)])

    def test_answers_are_joined(self):
        one = struct.pack("<BQQQ", numbers.DONE, 1, 2, 3)
        outs = struct.pack("<I", 2) + one * 2 + struct.pack("<I", 0) + struct.pack("<I", 1) + one
        self.assertEqual(joined(outs), struct.pack("<I", 3) + one * 3)


class Lines(unittest.TestCase):
    def test_what_each_kind_says(self):
        self.assertEqual(said(Entry(numbers.READ), Answer(0, 0xAB, 0, 0)), "0x000000ab")
        self.assertEqual(said(Entry(numbers.NEXT), Answer(0, HALF, 0, 0)), "0.5 bits 0x3fe0000000000000")
        self.assertEqual(said(Entry(numbers.PENDING), Answer(0, 0, 0, 0)), "no interrupt")
        event = Answer(0, HALF, bits_of(440.0), HALF)
        self.assertEqual(said(Entry(numbers.SOUND), event), "time 0.5 frequency 440.0 duty 0.5")
        self.assertEqual(said(Entry(numbers.COUNTERS), Answer(0, 1, 2, 1)), "frames 1 flash writes 2 off")
        self.assertEqual(said(Entry(numbers.COLOUR), Answer(0, 0x010203, 0, 0)), "red 1 green 2 blue 3")
        self.assertEqual(said(Entry(numbers.READ), Answer(numbers.BAD_SIZE, 0, 0, 0)), "")

    def test_columns(self):
        lines = answer_lines([Entry(numbers.WIPE)] * 10, list(range(1, 20, 2)), [Answer(0, 0, 0, 0)] * 10)
        self.assertEqual(lines[0], " 1  line 1   wipe  done")
        self.assertEqual(lines[9], "10  line 19  wipe  done")
        self.assertEqual(answer_lines([], None, []), [])
