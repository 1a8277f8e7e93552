"""./tg18 over saved sessions, from outside: runs that go on, files, what is refused, and what is shown."""

import os
import random
import stat
import struct
import subprocess
import sys

from desk import build, numbers
from desk.build import ROOT
from desk.layout import joined
from desk.session import NAMED_WORDS, page_lines, word_address, word_name
from desk.text import written
from outside import Outside, tg18
from test_command import any_press, any_step

MOST = 17872533
FRESH = 17863765
EXAMPLE = ROOT / "examples" / "session"


class Sessions(Outside):
    def session(self, name="unit.session", steps=b"advance 1.0\n", *words):
        path = self.folder / name
        self.expect(tg18("run", "-", "--save", path, *words, stdin=steps), 0)
        return path

    def alone(self, *names):
        """Nothing else is left in the folder."""
        self.assertEqual(sorted(os.listdir(self.folder)), sorted(names))

    def test_example(self):
        path = self.folder / "unit.session"
        evening = tg18("run", EXAMPLE / "evening.steps", "--save", path)
        page = tg18("show", path)
        morning = tg18("run", EXAMPLE / "morning.steps", "--resume", path, "--save", path)
        for done, name in ((evening, "evening.answers"), (page, "evening.page"), (morning, "morning.answers")):
            self.expect(done, 0)
            self.assertEqual(done.stdout.decode(), (EXAMPLE / name).read_text(), name)
        self.alone("unit.session")

    def test_a_chain_of_runs_is_one_run(self):
        """Without timers' words: how many periods a timer has seen is counted anew by a resume."""
        source = random.Random(9)
        presses = [any_press(source) for _ in range(60)]
        steps = [step for step in (any_step(source, i) for i in range(9000)) if step.address >> 16 != 0xC002]
        one = "".join(written(entry) + "\n" for entry in presses + steps)
        whole = tg18("run", "-", "--binary", stdin=one.encode())
        path, answers, cuts = self.folder / "unit.session", b"", [0, 1, 500, 4596, 4597, 8000, len(steps)]
        for first, last in zip(cuts, cuts[1:]):
            part = (presses if first == 0 else []) + steps[first:last]
            text = "".join(written(entry) + "\n" for entry in part).encode()
            resume = ["--resume", path] if first else []
            done = tg18("run", "-", "--binary", *resume, "--save", path, stdin=text)
            self.expect(done, 0)
            answers += done.stdout
        self.assertEqual(joined(answers), whole.stdout)

    def test_memories_are_the_sessions(self):
        content = bytes(range(256)) * 4
        memory, dump = self.file("memory", content), self.folder / "dump"
        path = self.session("one", b"", "--memory", f"ram={memory}", "--memory", f"gpio={memory}")
        self.expect(tg18("run", "-", "--resume", path, "--dump", f"ram={dump}", stdin=b"write 1 0x20000002 7\n"), 0)
        self.assertEqual(dump.read_bytes()[:1024], content[:2] + b"\x07" + content[3:])
        self.expect(tg18("run", "-", "--resume", path, "--dump", f"gpio={dump}"), 0)
        self.assertEqual(dump.read_bytes(), content.ljust(numbers.GPIO_SIZE, b"\0"))

    def test_owner_alone_and_whole(self):
        before = os.umask(0)
        self.addCleanup(os.umask, before)
        path = self.session()
        self.assertEqual(stat.S_IMODE(path.stat().st_mode), 0o600)
        self.assertEqual(path.stat().st_size, FRESH)
        other, link = self.file("other", b"old"), self.folder / "link"
        os.chmod(other, 0o644)
        os.link(other, link)
        os.umask(0o777)
        self.session("other")
        os.umask(before)
        self.assertEqual((stat.S_IMODE(other.stat().st_mode), link.read_bytes()), (0o600, b"old"))
        self.assertEqual(other.read_bytes(), path.read_bytes())
        self.alone("unit.session", "other", "link")

    def test_a_link_is_followed(self):
        place = self.folder / "place"
        place.mkdir()
        (self.folder / "link").symlink_to("place/unit.session")
        self.session("link")
        self.assertTrue((self.folder / "link").is_symlink())
        self.assertEqual(os.listdir(place), ["unit.session"])
        self.alone("link", "place")

    def test_none_of_a_refused_script(self):
        path = self.session()
        content = path.read_bytes()
        for words in (["--resume", path], []):
            self.expect(tg18("run", "-", *words, "--save", path, stdin=b"step 13 0 0 0\n"), 1, "BadScript (10)")
        late = b"wipe\n" * numbers.MOST_STEPS + b"step 13 0 0 0\n"
        self.expect(tg18("run", "-", "--save", self.folder / "new", stdin=late), 1, "BadScript (10)")
        self.expect(tg18("run", "-", "--save", path, stdin=b"what\n"), 2)
        nowhere = self.folder / "no" / "where"
        self.expect(tg18("run", "-", "--save", path, "--dump", f"ram={nowhere}"), 2, str(nowhere))
        self.expect(tg18("run", "-", "--save", path, "--screen", nowhere), 2, str(nowhere))
        self.assertEqual(path.read_bytes(), content)
        self.alone("unit.session")

    def test_none_where_the_answers_cannot_be_told(self):
        path = self.session()
        content = path.read_bytes()
        with open("/dev/full", "wb") as full:
            done = tg18("run", "-", "--resume", path, "--save", path, stdin=b"advance 2.0\n", stdout=full)
        self.expect(done, 3)
        self.assertEqual(path.read_bytes(), content)
        self.alone("unit.session")

    def test_none_where_there_is_no_room(self):
        path = self.session()
        content = path.read_bytes()
        limit = ["sh", "-c", 'ulimit -f 1000 && exec "$@"', "sh", sys.executable, "-B", str(ROOT / "tg18")]
        done = subprocess.run([*limit, "run", "-", "--save", str(path)], input=b"advance 2.0\n", capture_output=True)
        self.expect(done, 3, "the runner failed")
        self.assertEqual(path.read_bytes(), content)
        self.alone("unit.session")

    def test_bad_usage(self):
        path = self.session()
        self.expect(tg18("run", "-", "--resume", path, "--memory", "ram=x"), 2, "--memory and --resume in one run")
        self.expect(tg18("run", "-", "--save", self.folder), 2, "not an ordinary file")
        self.expect(tg18("run", "-", "--save", self.folder / "no" / "where"), 2, "No such file")
        self.expect(tg18("run", "-", "--resume", self.folder / "none"), 2, "No such file")
        self.expect(tg18("run", "-", "--resume", self.folder), 2, "Is a directory")
        self.expect(tg18("show"), 2, "usage")
        self.expect(tg18("show", self.folder / "none"), 2, "No such file")
        self.expect(tg18("show", self.folder), 2, "Is a directory")
        self.alone("unit.session")

    def test_no_session(self):
        right = self.session().read_bytes()
        turned = bytearray(right)
        turned[56] = 2  # a timer is pending, or not
        for content in (b"", b"wipe\n", right[:-1], right + b"\0", right + bytes(MOST), bytes(turned), bytes(FRESH)):
            path = self.file("no session", content)
            for words in (["show", path], ["run", "-", "--resume", path, "--save", self.folder / "new"]):
                self.expect(tg18(*words, stdin=b"next\n"), 1, f"{path}: no saved session: BadSave (14)")
        self.alone("unit.session", "no session")

    def shown(self, path):
        """What comes from the runner."""
        kit = build.Kit()
        with open(path, "rb") as file:
            words = [*kit.starts(build.program(kit, "runner")), "show", str(file.fileno())]
            return subprocess.run(words, stdout=subprocess.PIPE, pass_fds=[file.fileno()], check=True).stdout

    def test_what_is_not_shown(self):
        """Bytes that stand in the memories, the page, the answer, the clock chip and half a pixel come from the runner
        as zero or not at all, so that no page can have them."""
        byte = 0xE7
        sent = [0x02, byte, byte, byte, byte, byte]
        lines = ["write 4 0xC0150000 0x40", *[f"write 1 0xC0150008 {b}" for b in sent]]
        lines += ["write 4 0xC0090004 0x80", f"write 4 0xC0090008 {byte}"]
        lines += ["write 4 0xC009000C 1", "write 4 0xC009000C 2"]
        lines += ["write 4 0xD050016C 0x2C", "write 4 0xD0500140 0x81", f"write 4 0xD050016C {byte}",
                  "write 4 0xD0500140 0x20A1", f"write 1 0x20000000 {byte}"]
        path = self.session("secret", "\n".join(lines).encode())
        self.assertGreater(path.read_bytes().count(byte), 8)
        self.assertEqual(self.shown(path).count(byte), 0)
        read = [f"write 1 0x20000000 {byte}", "write 4 0xC0150000 0x40", *["write 1 0xC0150008 " + b for b in "30000"]]
        answer = self.session("answer", "\n".join([*read, "read 4 0xC015000C"]).encode())
        self.assertEqual(answer.read_bytes().count(byte), 2)
        self.assertEqual(self.shown(answer).count(byte), 0)
        page = tg18("show", path).stdout.decode()
        self.assertIn("half a pixel waits", page)
        self.assertIn("command 0x02, program; place 6;", page)
        self.assertNotIn(f"{byte:x}", page)

    def test_words_that_the_runner_does_not_know(self):
        kit = build.Kit()
        words = kit.starts(build.program(kit, "runner"))
        for wrong in (["what", "1"], ["resume", "x"], ["save", ""], ["show"], ["show", "1x"], ["load", "ram"]):
            done = subprocess.run(words + wrong, stdin=subprocess.DEVNULL, stderr=subprocess.PIPE)
            self.assertEqual(done.returncode, 2, wrong)


class Page(Outside):
    def test_full_tables(self):
        lines = [f"press {'ABC'[i % 3]} {100 + i}" for i in range(64)]
        lines += [f"write 4 0x{0xC0100000 + 4 * i:08x} {i + 1}" for i in range(256)]
        lines += [f"write 4 0xC0020080 {0x2000 if i % 2 == 0 else 0}" for i in range(256)]
        lines += ["key A down", "hold C 3.5", "turbo 2.0", "write 4 0xC00C0004 0x4000", "write 4 0xD0000078 0"]
        path = self.folder / "full"
        self.expect(tg18("run", "-", "--save", path, stdin="\n".join(lines).encode()), 0)
        self.assertEqual(path.stat().st_size, MOST)
        longer = self.file("longer", path.read_bytes() + b"\0")
        self.expect(tg18("show", longer), 1, "no saved session: BadSave (14)")
        page = tg18("show", path).stdout.decode()
        for part in ("presses: 64\n  A  at 100.0\n", "other words: 256\n  0xc0100000  0x00000001\n",
                     "sound events: 256\n  time 0.0  frequency ", "down: A; held until: A 0.0, B 0.0, C 3.5",
                     "turbo 2.0", "keys held now: A C", "ADC converting, power off"):
            self.assertIn(part, page)

    def test_words_have_their_names(self):
        self.assertEqual(len(NAMED_WORDS), 28)
        self.assertEqual((word_name(0), word_address(0)), ("timer 0 control", numbers.TIMER_BASE))
        self.assertEqual((word_name(34), word_address(34)), ("timer 4 reload", 0xC0020088))
        self.assertEqual((word_name(48), word_address(48)), ("RTC_IRQ_STATUS", numbers.RTC_IRQ_STATUS))
        self.assertEqual((word_name(75), word_address(75)), ("LCD_DMA", numbers.LCD_DMA))

    def test_every_number_has_its_place(self):
        """Each from a session that is written by hand."""
        head = struct.pack("<QQQd", 27, 5, 3661, 9.5)
        timers = struct.pack("<I6d6B", 6, *[i / 2 for i in range(6)], 0, 1, 0, 0, 0, 0)
        words = struct.pack("<I76I2I", 1, *range(76), 0xC0100004, 77) + struct.pack("<I2B", 2, 1, 0)
        panel = struct.pack("<II5B7IQ", 45, 0x2A, 1, 2, 0, 0, 2, 3, 4, 5, 6, 7, 8, 256, 9)
        clocks = struct.pack("<I5dQIQQI256x", 328, 1.5, 2.5, 0.5, 0.25, 0.125, 2, 11, 90, 12, 0)
        tone = struct.pack("<I2d", 2, 440.0, 0.25)
        flash = struct.pack("<IBBQB4BIB256x", 276, 1, 0, 13, 0, 0x9F, 0, 0, 0, 4, 0)
        keys = struct.pack("<I4B3d", 28, 0, 1, 0, 0x40, 0.5, 0.75, 1.0)
        tables = struct.pack("<IBd", 1, 2, 6.5) + struct.pack("<I3d", 1, 1.0, 2.0, 0.5)
        page = "\n".join(page_lines(head + timers + words + panel + clocks + tone + flash + keys + tables))
        for part in ("time 1.5, game time 2.5, turbo 0.5; the next event is at 9.5",
                     "ticks of a second 2, vertical syncs 90",
                     "time of day 01:01:01; it was second 11 at game time 0.25", "RTC base 12, set at game time 0.125",
                     "interrupt 27 waits", "1  started 0.5  pending      control 0x00000008 reload 0x0000000a",
                     "0xd050033c  0x0000004b  LCD_DMA", "0xc0100004  0x0000004d", "ADC converting, power on",
                     "panel: command 0x2a, arguments 0x01 0x02",
                     "window 3 to 4, 5 to 6; at 7, 8; no half pixel; frames 9",
                     "tone: frequency 440.0 duty 0.25", "flash selected, write enable off, writes 13",
                     "command 0x9f, read JEDEC number; place 4;", "keys held now: A C",
                     "down: B; held until: A 0.5, B 0.75, C 1.0; lines 0x40", "presses: 1\n  C  at 6.5",
                     "sound events: 1\n  time 1.0  frequency 2.0  duty 0.5"):
            self.assertIn(part, page)
