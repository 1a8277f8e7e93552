"""./tg18 run and ./tg18 show: their options, and what they do with them."""

from __future__ import annotations

import argparse
import contextlib
import os
import subprocess
import sys
import tempfile
import traceback
from pathlib import Path
from typing import List, Optional, Tuple

from . import build, names, numbers
from .layout import Entry, answers_in, chain, framed, joined, unpacked
from .lines import answer_lines
from .png import png_of
from .session import file_trouble, opened, page_lines, replacing
from .text import MOST_ERRORS, read_script
from .trouble import OTHER, RAN, REFUSED, USAGE, Trouble

# host/runner.c
RUNNER_BAD_FILE = 3
RUNNER_REFUSED = 64


def memory_file(word: str) -> Tuple[str, str]:
    name, equals, path = word.partition("=")
    if not equals or name.lower() not in names.MEMORIES or not path:
        raise argparse.ArgumentTypeError(f"NAME=FILE is due here, NAME one of {', '.join(names.MEMORIES)}: {word}")
    return name.lower(), path


def parser() -> argparse.ArgumentParser:
    whole = argparse.ArgumentParser(prog="tg18", description="Runs scripts on the proved tg18 register bus.")
    commands = whole.add_subparsers(dest="command", required=True, metavar="run | show")
    run = commands.add_parser("run", help="run a script")
    run.add_argument("file", metavar="FILE", help="the script, text or binary; - is standard input")
    run.add_argument("--screen", metavar="FILE", help="write the screen as PNG afterwards")
    run.add_argument("--memory", metavar="NAME=FILE", type=memory_file, action="append", default=[],
                     help="a memory's first bytes before the run (ram, sram, gpio, framebuffer); the rest is zero")
    run.add_argument("--dump", metavar="NAME=FILE", type=memory_file, action="append", default=[],
                     help="write a memory as it is afterwards")
    run.add_argument("--resume", metavar="SESSION", help="start from this saved session, its memories too")
    run.add_argument("--save", metavar="SESSION", help="save the session afterwards; may be the one resumed")
    run.add_argument("--binary", action="store_true", help="print the raw answers and no lines")
    show = commands.add_parser("show", help="show what a saved session holds, but no byte of a memory")
    show.add_argument("file", metavar="SESSION", help="the saved session")
    return whole


def script_bytes(path: str) -> bytes:
    try:
        return sys.stdin.buffer.read() if path == "-" else Path(path).read_bytes()
    except OSError as error:
        raise file_trouble(path, error) from error


def scripts_in(path: str, content: bytes) -> Tuple[List[bytes], Optional[List[Entry]], Optional[List[int]]]:
    """The binary scripts, and of a text its entries and their lines. Every script that is not refused has a byte 0, and
    no text has. A text of any length is a chain of scripts; a binary file is one script, and what is too much for one
    is for the port to refuse."""
    if b"\0" in content:
        return [content], None, None
    lines, errors = read_script(content)
    if errors:
        where = "standard input" if path == "-" else path
        more = [f"{where}: and {len(errors) - MOST_ERRORS} more"] if len(errors) > MOST_ERRORS else []
        raise Trouble(USAGE, *[f"{where}:{number}: {what}" for number, what in errors[:MOST_ERRORS]], *more)
    entries = [line.entry for line in lines]
    presses = sum(line.is_press for line in lines)
    return chain(entries[:presses], entries[presses:]), entries, [line.number for line in lines]


def runner_ran(words: List[str], given: bytes, files: List[int], session: Optional[str]) -> bytes:
    """What host/runner.c writes. The files stay open for it."""
    done = subprocess.run(words, input=given, stdout=subprocess.PIPE, stderr=subprocess.PIPE, pass_fds=files)
    said = done.stderr.decode(errors="replace").splitlines()
    if done.returncode >= RUNNER_REFUSED:
        number = done.returncode - RUNNER_REFUSED
        is_session = number == numbers.BAD_SAVE
        what = f"{session}: no saved session" if is_session else "tg18: the script was refused as a whole"
        raise Trouble(REFUSED, f"{what}: {names.refusal_name(number)} ({number})")
    if done.returncode == RUNNER_BAD_FILE:
        raise Trouble(USAGE, *said)
    if done.returncode != 0:
        raise Trouble(OTHER, *said, f"tg18: the runner failed: {done.returncode}")
    return done.stdout


def write_screen(path: str, colours: Path) -> None:
    picture = png_of(numbers.LCD_W, numbers.LCD_H, colours.read_bytes())
    try:
        Path(path).write_bytes(picture)
    except OSError as error:
        raise file_trouble(path, error) from error


def check_memories(options: argparse.Namespace) -> None:
    loaded = [name for name, _ in options.memory]
    for name in loaded:
        if loaded.count(name) > 1:
            raise Trouble(USAGE, f"tg18: --memory {name} is given twice")
    if loaded and options.resume is not None:
        raise Trouble(USAGE, "tg18: --memory and --resume in one run: the memories are the session's")


def print_answers(out: bytes, entries: List[Entry], line_numbers: Optional[List[int]], is_binary: bool) -> None:
    if is_binary:
        sys.stdout.buffer.write(out)
    else:
        for line in answer_lines(entries, line_numbers, answers_in(out)):
            print(line)
    sys.stdout.flush()


def run(options: argparse.Namespace) -> None:
    """The later session gets its name last, so that who could not be told the answers can run the script again."""
    check_memories(options)
    scripts, entries, line_numbers = scripts_in(options.file, script_bytes(options.file))
    kit = build.Kit()
    words = kit.starts(build.program(kit, "runner"))
    for verb, paths in (("load", options.memory), ("dump", options.dump)):
        words += [word for name, path in paths for word in (verb, f"{name}={path}")]
    with contextlib.ExitStack() as open_files:
        files = []
        for verb, path, way in (("resume", options.resume, opened), ("save", options.save, replacing)):
            if path is not None:
                files.append(open_files.enter_context(way(path)))
                words += [verb, str(files[-1])]
        folder = open_files.enter_context(tempfile.TemporaryDirectory())
        colours = Path(folder) / "colours"
        words += ["screen", str(colours)] if options.screen else []
        out = joined(runner_ran(words, framed(scripts), files, options.resume))
        if options.screen:
            write_screen(options.screen, colours)
        if len(scripts) > 1:
            build.said(f"{len(entries or [])} presses and steps ran as {len(scripts)} scripts on one unit")
        print_answers(out, unpacked(scripts[0]) if entries is None else entries, line_numbers, options.binary)


def show(options: argparse.Namespace) -> None:
    kit = build.Kit()
    words = kit.starts(build.program(kit, "runner"))
    with opened(options.file) as file:
        content = runner_ran([*words, "show", str(file)], b"", [file], options.file)
    for line in page_lines(content):
        print(line)
    sys.stdout.flush()


def main(words: List[str]) -> int:
    options = parser().parse_args(words)
    try:
        show(options) if options.command == "show" else run(options)
    except Trouble as trouble:
        for line in trouble.lines:
            print(line, file=sys.stderr)
        return trouble.status
    except BrokenPipeError:
        # Whoever read the answers has gone; Python would complain once more when it ends.
        os.dup2(os.open(os.devnull, os.O_WRONLY), sys.stdout.fileno())
        return OTHER
    except (Exception, KeyboardInterrupt):
        # Python's own status would be 1, which is a refused script's.
        traceback.print_exc()
        return OTHER
    return RAN
