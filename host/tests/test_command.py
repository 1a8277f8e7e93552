"""./tg18 from outside: what it prints, its statuses, its files."""

import os
import random
import struct
import subprocess
import zlib

from desk import build, numbers
from desk.build import ROOT
from desk.layout import Entry, bits_of, packed
from desk.text import written
from outside import Outside, tg18

WIPE = struct.pack("<BBxxIQ", numbers.WIPE, 0, 0, 0)
FOUR_BYTES = b"write 4 0x20000000 0x11223344\nread 4 0x20000000\n"


def picture_in(png):
    """Width, height and colours of a truecolour PNG whose rows have filter 0."""
    chunks, at = {}, 8
    while at < len(png):
        size, kind = struct.unpack_from(">I4s", png, at)
        data = png[at + 8:at + 8 + size]
        if struct.unpack_from(">I", png, at + 8 + size)[0] != zlib.crc32(kind + data):
            raise ValueError("a chunk's checksum is wrong")
        chunks[kind] = data
        at += 12 + size
    width, height, *form = struct.unpack(">IIBBBBB", chunks[b"IHDR"])
    rows = zlib.decompress(chunks[b"IDAT"])
    if png[:8] != b"\x89PNG\r\n\x1a\n" or form != [8, 2, 0, 0, 0] or len(rows) != height * (3 * width + 1):
        raise ValueError("another form")
    return width, height, b"".join(rows[y * (3 * width + 1) + 1:(y + 1) * (3 * width + 1)] for y in range(height))


def any_press(source):
    return Entry(numbers.PRESS, 0, source.randrange(4), bits_of(source.randrange(80000) / 80))


# The flash's and the panel's words, so that transactions and pictures are begun in one script and ended in the next.
WORDS = [0xC0150000, 0xC0150008, 0xC015000C, 0xD0500140, 0xD050016C, 0xD050033C, 0xC0020080, 0xC0020088, 0xC0080008]


def any_step(source, i):
    """Time goes on with the number of the step."""
    kind = source.choice([numbers.WRITE] * 6 + [numbers.ADVANCE] * 2 + list(range(numbers.READ, numbers.WIPE)))
    address = source.choice(WORDS + [0x20000000 + source.randrange(64), 0xC0100000 + 4 * source.randrange(400)])
    if kind in (numbers.ADVANCE, numbers.TURBO):
        return Entry(kind, value=bits_of(i / 10 if kind == numbers.ADVANCE else source.choice([0.5, 1.0, 2.0, 5000.0])))
    if kind in (numbers.KEY, numbers.HOLD):
        return Entry(kind, 0, source.randrange(4), bits_of(source.randrange(8000) / 8))
    if kind == numbers.WRITE:
        return Entry(kind, source.choice([1, 2, 4, 4, 4]), address, source.choice([0, 2, 6, 0x40, 0xA1, 0xD1, 0x6000]))
    return Entry(kind, 4 if kind == numbers.READ else 0, address if kind in (numbers.READ, numbers.COLOUR) else 0)


class Command(Outside):
    def test_examples(self):
        examples = sorted((ROOT / "examples").glob("*.steps"))
        self.assertGreaterEqual(len(examples), 3)
        for example in examples:
            done = tg18("run", example)
            self.expect(done, 0)
            self.assertEqual(done.stdout.decode(), example.with_suffix(".answers").read_text(), example.name)

    def test_examples_in_c(self):
        kit = build.Kit()
        expected = (ROOT / "examples" / "live.answers").read_text()
        for name in ("example_c", "example_cpp"):
            done = subprocess.run(kit.starts(build.program(kit, name)), stdout=subprocess.PIPE, text=True)
            self.assertEqual((done.returncode, done.stdout), (0, expected), name)

    def test_standard_input_and_nothing(self):
        done = tg18("run", "-", stdin=FOUR_BYTES)
        self.expect(done, 0)
        second = done.stdout.decode().splitlines()[1]
        self.assertEqual(second, "2  line 2  read 4 0x20000000              done  0x11223344")
        self.assertEqual(tg18("run", "-").stdout, b"")

    def test_binary_script_and_answers(self):
        script = struct.pack("<IIBBxxIQBBxxIQ", 0, 2, 2, 4, 0x20000000, 0x11223344, 1, 4, 0x20000000, 5)
        done = tg18("run", self.file("script", script))
        self.assertEqual(done.stdout.decode().splitlines()[1], "2  step 1 4 0x20000000 0x5        done  0x11223344")
        done = tg18("run", "--binary", self.file("script", script))
        self.expect(done, 0)
        self.assertEqual(done.stdout, struct.pack("<IBQQQBQQQ", 2, 0, 0, 0, 0, 0, 0x11223344, 0, 0))

    def test_refused_as_a_whole(self):
        self.expect(tg18("run", "-", stdin=b"\0" * 9), 1, "refused as a whole: BadScript (10)")
        self.expect(tg18("run", "-", stdin=b"step 13 0 0 0\n"), 1, "BadScript")
        self.expect(tg18("run", "-", stdin=b"step 0 0 0 0\n"), 1, "BadScript")
        too_many = struct.pack("<II", 0, numbers.MOST_STEPS + 1) + WIPE * (numbers.MOST_STEPS + 1)
        self.expect(tg18("run", "-", stdin=too_many), 1, "BadScript")
        late = b"wipe\n" * numbers.MOST_STEPS + b"step 13 0 0 0\n"
        self.expect(tg18("run", "-", stdin=late), 1, "refused as a whole: BadScript (10)")
        self.expect(tg18("run", "-", stdin=bytes(3000000)), 1, "BadScript")
        dump = self.folder / "dump"
        tg18("run", "-", "--dump", f"ram={dump}", "--screen", dump, stdin=b"\0")
        tg18("run", "-", "--dump", f"ram={dump}", "--screen", dump, stdin=late)
        self.assertFalse(dump.exists())

    def test_as_many_as_there_may_be(self):
        done = tg18("run", "-", stdin=b"press A 0\n" * numbers.MOST_PRESSES + b"next\n" * numbers.MOST_STEPS)
        self.expect(done, 0)
        self.assertEqual(len(done.stdout.splitlines()), numbers.MOST_PRESSES + numbers.MOST_STEPS)

    def long_run(self, presses, steps):
        """By live calls on one unit, with no script at all."""
        kit = build.Kit()
        words = kit.starts(build.program(kit, "live_long"))
        return subprocess.run(words, input=packed(presses, steps), stdout=subprocess.PIPE, check=True).stdout

    def chain(self, presses, steps, scripts):
        """A text of so many is answered as the live calls answer, and runs as so many scripts."""
        source = random.Random(presses + steps)
        first = [any_press(source) for _ in range(presses)]
        rest = [any_step(source, i) for i in range(steps)]
        text = self.file("long.steps", "".join(written(entry) + "\n" for entry in first + rest).encode())
        done = tg18("run", text, "--binary")
        said = f"tg18: {presses + steps} presses and steps ran as {scripts} scripts on one unit"
        self.expect(done, 0, *([said] if scripts > 1 else []))
        self.assertEqual("scripts on one unit" in done.stderr.decode(), scripts > 1)
        self.assertEqual(done.stdout, self.long_run(first, rest))
        return text

    def test_chains(self):
        self.chain(3, numbers.MOST_STEPS, 1)
        self.chain(0, numbers.MOST_STEPS + 1, 2)
        self.chain(numbers.MOST_PRESSES, 2 * numbers.MOST_STEPS, 2)
        self.chain(numbers.MOST_PRESSES + 1, 0, 2)
        self.chain(2 * numbers.MOST_PRESSES + 1, 2 * numbers.MOST_STEPS + 1, 5)

    def test_chains_that_break_off(self):
        kit = build.Kit()
        words = kit.starts(build.program(kit, "runner"))
        script = packed([], [Entry(numbers.WIPE)])
        whole = struct.pack("<Q", len(script)) + script
        for cut in range(1, len(whole)):
            done = subprocess.run(words, input=whole + whole[:cut], stdout=subprocess.PIPE, stderr=subprocess.PIPE)
            self.assertEqual((done.returncode, done.stderr), (3, b"standard input: ends within a script\n"), cut)
        done = subprocess.run(words, input=whole * 3, stdout=subprocess.PIPE)
        self.assertEqual((done.returncode, len(done.stdout)), (0, 3 * (4 + numbers.ANSWER_BYTES)))

    def test_lines_of_a_chain(self):
        lines = tg18("run", self.chain(0, 10000, 3)).stdout.decode().splitlines()
        self.assertEqual([line.split()[:3] for line in lines], [[str(i), "line", str(i)] for i in range(1, 10001)])

    def test_memories_behind_a_chain(self):
        dump, screen = self.folder / "dump", self.folder / "screen.png"
        lines = [f"write 2 0x{0x20000000 + 2 * i:08x} {i}" for i in range(5000)]
        text = self.file("long.steps", "\n".join(lines).encode())
        self.expect(tg18("run", text, "--dump", f"ram={dump}", "--screen", screen), 0)
        self.assertEqual(dump.read_bytes()[:10002], struct.pack("<5000Hxx", *range(5000)))
        self.assertEqual(picture_in(screen.read_bytes()), (numbers.LCD_W, numbers.LCD_H, bytes(49152)))

    def test_bad_lines(self):
        bad = self.file("bad.steps", b"wipe\nread 4\n\npress A 0\n")
        self.expect(tg18("run", bad), 2, f"{bad}:2: the address is missing", f"{bad}:4: a press behind a step")
        done = tg18("run", "-", stdin=b"what\n" * 30)
        self.expect(done, 2, "standard input:20: no such word", "standard input: and 10 more")
        self.assertNotIn("input:21:", done.stderr.decode())

    def test_bad_usage(self):
        self.expect(tg18(), 2, "usage")
        self.expect(tg18("walk"), 2, "usage")
        self.expect(tg18("run"), 2, "usage")
        self.expect(tg18("run", "-", "--memory", "rom=x"), 2, "NAME=FILE is due here")
        self.expect(tg18("run", "-", "--dump", "ram"), 2, "NAME=FILE is due here")
        self.expect(tg18("run", "-", "--memory", "ram=a", "--memory", "RAM=b"), 2, "--memory ram is given twice")

    def test_files_that_cannot_be_used(self):
        nowhere = self.folder / "no" / "where"
        self.expect(tg18("run", nowhere), 2, str(nowhere), "No such file")
        self.expect(tg18("run", "-", "--memory", f"ram={nowhere}"), 2, str(nowhere))
        self.expect(tg18("run", "-", "--dump", f"ram={nowhere}"), 2, str(nowhere))
        self.expect(tg18("run", "-", "--screen", nowhere), 2, str(nowhere))
        long = self.file("long", bytes(numbers.GPIO_SIZE + 1))
        self.expect(tg18("run", "-", "--memory", f"gpio={long}"), 2, f"{long}: longer than the memory")

    def test_no_kit(self):
        self.expect(tg18("run", "-", env={**os.environ, "PATH": ""}), 2, "rt is not on PATH")

    def test_memories_in_and_out(self):
        sizes = {"ram": numbers.RAM_SIZE, "sram": numbers.SRAM_SIZE, "gpio": numbers.GPIO_SIZE,
                 "framebuffer": numbers.FRAMEBUFFER_SIZE}
        words = []
        for name, size in sizes.items():
            content = bytes([len(name)]) * (size if name == "gpio" else 1000)
            words += ["--memory", f"{name}={self.file(name, content)}", "--dump", f"{name}={self.folder / name}.out"]
        self.expect(tg18("run", "-", *words, stdin=b"write 1 0x20000001 0xEE\n"), 0)
        for name, size in sizes.items():
            content = bytearray((self.folder / name).read_bytes().ljust(size, b"\0"))
            content[1] = 0xEE if name == "ram" else content[1]
            self.assertEqual((self.folder / f"{name}.out").read_bytes(), bytes(content), name)

    def test_screen(self):
        pixels = [(i * 40503) & 0xFFFF for i in range(numbers.LCD_W * numbers.LCD_H)]
        memory = self.file("memory", struct.pack(f"<{len(pixels)}H", *pixels))
        screen = self.folder / "screen.png"
        self.expect(tg18("run", "-", "--memory", f"framebuffer={memory}", "--screen", screen), 0)
        width, height, colours = picture_in(screen.read_bytes())
        self.assertEqual((width, height), (numbers.LCD_W, numbers.LCD_H))
        expected = [((v >> 11) * 255 // 31, (v >> 5 & 63) * 255 // 63, (v & 31) * 255 // 31) for v in pixels]
        self.assertEqual(list(zip(*[iter(colours)] * 3)), expected)
