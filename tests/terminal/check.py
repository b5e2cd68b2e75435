#!/usr/bin/env python3
"""Runs the built program with a terminal and with a file as standard error.

On a terminal the help of each kind is to stand behind the fault's line. Into a file that line alone is to come, and what
the program writes and its status are to be the same both ways.
"""

import argparse
import os
import pty
import subprocess
import sys
import tempfile
import tty
from typing import NamedTuple

SECONDS = 120
WAV_LIMIT = 68157440

CAPTURE = (
    "version 2",
    "card s1 duplex c",
    "open c0 s1",
    "hw c0 s1 RW_INTERLEAVED U8 1 8000 4 4",
)


class Case(NamedTuple):
    """What is run, and what it is to say: the fault's line, and lines of the help, in order."""

    name: str
    words: list
    script: bytes
    fault: str
    help: list
    stdin: str = ""
    stdout: str = ""


def lines(*texts):
    return "".join(f"{text}\n" for text in texts).encode()


def marked(line, at, size):
    return [f"    {line}", "    " + " " * at + "^" * size]


CASES = [
    Case("usage", ["nothing"], b"", "usage", ["  pcm run", "  pcm play IN OUT PERIOD PERIODS"]),
    Case("a word", ["run"], lines("open c0 s16"), "bad line 1: word at 8",
         [*marked("open c0 s16", 8, 3), "  form: open CLIENT SUB", "  SUB is s and a number below 16, as s0"]),
    Case("the words that may stand there", ["run"], lines("card s0 basic x"), "bad line 1: word at 14",
         [*marked("card s0 basic x", 14, 1), "  DIRECTION is p or c"]),
    Case("a number", ["run"], lines("long 1023", "move s0 01"), "bad line 2: number at 8",
         [*marked("move s0 01", 8, 2), "  form: move SUB FRAMES", "  FRAMES is a number,"]),
    Case("a missing word", ["run"], lines("open c0"), "bad line 1: short",
         [*marked("open c0", 7, 1), "  SUB is missing: "]),
    Case("a word too many", ["run"], lines("irq s0 x"), "bad line 1: long at 7",
         [*marked("irq s0 x", 7, 1), "  nothing more may follow"]),
    Case("no keyword", ["run"], lines("opne c0 s0"), "bad line 1: word at 0",
         [*marked("opne c0 s0", 0, 4), "  a line begins with one of: version long card open"]),
    Case("a line of another command", ["run"], lines("threads"), "bad line 1: word at 0",
         [*marked("threads", 0, 7), "  beat, wire, threads and join are lines of live plans, not of run"]),
    Case("a line that refine lacks", ["refine"], lines("card s0 basic p"), "bad line 1: word at 0",
         [*marked("card s0 basic p", 0, 4), "  refine has space lines alone", "  form: space MODEL"]),
    Case("a carriage return", ["run"], b"long 1023\r\n", "bad line 1: number at 5",
         [*marked("long 1023\\r", 5, 6), "  \\r is a carriage return"]),
    Case("a tab", ["run"], b"long\t1023\n", "bad line 1: word at 0", [*marked("long\\t1023", 0, 10), "  \\t is a tab"]),
    Case("two spaces", ["run"], lines("long  1023"), "bad line 1: number at 5",
         [*marked("long  1023", 5, 1), "  two spaces stand side by side"]),
    Case("a last space", ["run"], lines("long 1023 "), "bad line 1: long at 10",
         [*marked("long 1023 ", 10, 1), "  the line ends in a space"]),
    Case("a remark without version 2", ["run"], lines("# four frames"), "bad line 1: word at 0",
         [*marked("# four frames", 0, 1), "  a script has remarks where"]),
    Case("a line far on", ["run"], b"version 2\n" + b"\n" * 300000 + b"irq x\n", "bad line 300002: word at 4",
         [*marked("irq x", 4, 1), "  SUB is s"]),
    Case("a last line without its feed", ["run"], b"long 1023\nirq", "bad line 2: short", [*marked("irq", 3, 1), "  SUB is missing"]),
    Case("a missing file of a script", ["run"], lines(*CAPTURE, "", "# to hear", "feed s1 none.wav"), "missing none.wav",
         ["  line 7: feed s1 none.wav", "  none.wav is no file of the current folder"]),
    Case("a file that is none", ["run"], lines(*CAPTURE, "feed s1 text.wav", "irq s1"), "bad wav text.wav: not RIFF",
         ["  line 5: feed s1 text.wav", "  wanted is a RIFF file"]),
    Case("a file that is too long", ["run"], lines(*CAPTURE, "feed s1 long.wav"), f"limit WavBytes {WAV_LIMIT + 1}",
         ["  line 5: feed s1 long.wav", "  long.wav has more than 68,157,440 bytes"]),
    Case("a folder in a file's place", ["run"], lines(*CAPTURE, "feed s1 folder"), "file access failed",
         ["  line 5: feed s1 folder", "  folder could not be read"]),
    Case("a missing file of a command", ["play", "none.wav", "out.wav", "4", "4"], b"", "missing none.wav",
         ["  none.wav is no file of the current folder"]),
    Case("too many lines", ["run"], b"version 2\n" + b"\n" * 1048576, "limit ScriptLines 1048577",
         ["  a script has at most 1,048,576 lines"]),
    Case("a great number", ["gen", "1001"], b"", "limit GenNumber 1001", ["  N is at most 1000"]),
    Case("a refused configuration", ["play", "tone.wav", "out.wav", "1", "2"], b"", "refused EINVAL 22",
         ["  the card's model does not allow this configuration", "  it allows rates of 4000 to 192000 Hz"]),
    Case("an input that cannot be read", ["run"], b"", "read failed", ["  standard input could not be read"], stdin="."),
    Case("an output that cannot be written", ["gen", "0"], b"", "write failed",
         ["  standard output could not be written"], stdout="/dev/full"),
]


def tone():
    """A WAV file of four frames of U8."""
    form = b"fmt \x10\0\0\0\1\0\1\0\x40\x1f\0\0\x40\x1f\0\0\1\0\x08\0"
    data = b"data\4\0\0\0\x80\x81\x82\x83"
    return b"RIFF" + (4 + len(form) + len(data)).to_bytes(4, "little") + b"WAVE" + form + data


def fill(folder):
    """Lays the files that the cases name."""
    with open(f"{folder}/text.wav", "wb") as it:
        it.write(b"no sound at all\n")
    with open(f"{folder}/tone.wav", "wb") as it:
        it.write(tone())
    with open(f"{folder}/long.wav", "wb") as it:
        it.truncate(WAV_LIMIT + 1)
    os.mkdir(f"{folder}/folder")


def told(case, program, folder, errors):
    """Runs the case with this standard error, and returns its status and what it wrote."""
    with tempfile.TemporaryFile() as script, open(case.stdout or os.devnull, "wb") as sink:
        script.write(case.script)
        script.seek(0)
        source = os.open(case.stdin, os.O_RDONLY) if case.stdin else os.dup(script.fileno())
        try:
            done = subprocess.run([program, *case.words], stdin=source, stdout=sink if case.stdout else subprocess.PIPE,
                                  stderr=errors, cwd=folder, timeout=SECONDS, check=False)
        finally:
            os.close(source)
    return done.returncode, done.stdout


def on_terminal(case, program, folder):
    """The status, the output, and what came on a terminal as standard error."""
    main, other = pty.openpty()
    tty.setraw(other)
    try:
        status, output = told(case, program, folder, other)
    finally:
        os.close(other)
    text = b""
    while True:
        try:
            more = os.read(main, 4096)
        except OSError:
            break
        if not more:
            break
        text += more
    os.close(main)
    return status, output, text.decode()


def into_file(case, program, folder):
    """The same, with a file as standard error."""
    with tempfile.TemporaryFile() as errors:
        status, output = told(case, program, folder, errors)
        errors.seek(0)
        return status, output, errors.read().decode()


def faults(case, program, folder):
    """What is wrong with the case, if anything."""
    first = f"pcm: {case.fault}\n"
    status, output, text = on_terminal(case, program, folder)
    piped = into_file(case, program, folder)
    if piped[2] != first:
        yield f"into a file it said {piped[2]!r}"
    if (status, output) != piped[:2] or status == 0:
        yield f"status {status} on a terminal, {piped[0]} without, or another output"
    if not text.startswith(first):
        yield f"on a terminal it said {text!r}"
    at = 0
    found = text.splitlines()
    for wanted in case.help:
        at = next((i + 1 for i in range(at, len(found)) if found[i].startswith(wanted)), 0)
        if not at:
            yield f"no line {wanted!r} in {text!r}"
            return


def main():
    parser = argparse.ArgumentParser(description=__doc__)
    parser.add_argument("--program", required=True, help="the built program")
    program = os.path.abspath(parser.parse_args().program)
    passed = failed = 0
    with tempfile.TemporaryDirectory() as folder:
        fill(folder)
        for case in CASES:
            wrong = list(faults(case, program, folder))
            for it in wrong:
                print(f"{case.name}: {it}")
            passed, failed = passed + (not wrong), failed + bool(wrong)
    print(f"{passed} passed, {failed} failed")
    return failed > 0


if __name__ == "__main__":
    sys.exit(main())
