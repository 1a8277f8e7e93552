"""Builds and runs all tests of host/: one line a test, and how many passed and failed. host/test starts it."""

import os
import subprocess
import sys
import unittest
from pathlib import Path

sys.dont_write_bytecode = True
sys.path.insert(0, str(Path(__file__).resolve().parents[1]))

from desk import build
from desk.trouble import Trouble

PROGRAMS = ["scrub", "depth", "key", "guard", "replay", "live_alike", "live_looks", "live_wipe", "live_threads",
            "live_key", "session", "session_damaged", "session_key", "replay_session"]
GIVEN = {name: Path(__file__).with_name(f"{name}.list") for name in ("replay", "replay_session")}
# What looks at the process itself: it needs x86-64, as the kit's emulator breaks off where a program opens
# /proc/self/maps.
NOT_EMULATED = ["key", "live_key", "session_key"]


class Count:
    passed = failed = 0

    def line(self, line: str) -> None:
        """`seen` tells what was found where nothing is promised, `not run` what was left out; they are neither."""
        self.passed += line.startswith("ok ")
        self.failed += line.startswith("FAILED ")
        print(line, flush=True)


class Result(unittest.TestResult):
    def __init__(self, count: Count):
        super().__init__()
        self.count = count

    def name(self, test: unittest.TestCase) -> str:
        _, kind, name = test.id().rsplit(".", 2)
        return f"desk: {kind.lower()}, {name[len('test_'):].replace('_', ' ')}"

    def addSuccess(self, test: unittest.TestCase) -> None:
        self.count.line(f"ok {self.name(test)}")

    def addFailure(self, test, error) -> None:
        self.count.line(f"FAILED {self.name(test)}: {self._exc_info_to_string(error, test)}")

    addError = addFailure

    def addSkip(self, test, reason) -> None:
        self.count.line(f"FAILED {self.name(test)}: skipped, {reason}")


def run_program(kit: build.Kit, name: str, count: Count) -> None:
    before = count.failed
    with open(GIVEN.get(name, os.devnull), "rb") as given:
        done = subprocess.Popen(kit.starts(build.program(kit, name)), stdin=given, stdout=subprocess.PIPE, text=True)
    for line in done.stdout or []:
        count.line(line.rstrip("\n"))
    if done.wait() != 0 and count.failed == before:
        count.line(f"FAILED {name}: status {done.returncode}")


def main() -> int:
    count = Count()
    try:
        kit = build.Kit()
        build.program(kit, "runner")
        for name in PROGRAMS:
            if kit.emulates() and name in NOT_EMULATED:
                count.line(f"not run {name}: it needs x86-64, and this is an emulator")
            else:
                run_program(kit, name, count)
        unittest.defaultTestLoader.discover(str(Path(__file__).parent)).run(Result(count))
    except Trouble as trouble:
        for line in trouble.lines:
            print(line, file=sys.stderr)
        count.line("FAILED build")
    print(f"host: {count.passed} passed, {count.failed} failed")
    return 0 if count.failed == 0 and count.passed > 0 else 1


sys.exit(main())
