#!/usr/bin/env python3
"""Works out, from the grammar in docs/FORMATS.md, what one line of every form is when it is cut after each byte.

It prints the table of crates/pcm_line/src/cut_tests.rt: a line, and a letter for each count of bytes that are left, from
none to all. The letter tells what these bytes are: `w` a Word, `n` a Number or `l` a Long at their last piece, `s` a
Short, `.` a line. It knows nothing of the reader.
"""

import re

ACCESSES = ["RW_INTERLEAVED", "RW_NONINTERLEAVED", "MMAP_INTERLEAVED", "MMAP_NONINTERLEAVED"]
FORMATS = ["S8", "U8", "S16_LE", "S16_BE", "S24_LE", "S32_LE", "S32_BE", "S24_3LE"]
MODELS = ["basic", "duplex", "studio", "nopause", "noresume", "indirect"]


def below(letter):
    return lambda piece: re.fullmatch(letter + r"(0|[1-9][0-9]*)", piece) is not None and int(piece[1:]) < 16


KINDS = {
    "number": lambda piece: re.fullmatch(r"0|[1-9][0-9]*", piece) is not None and int(piece) < 2**63,
    "client": below("c"),
    "sub": below("s"),
    "mode": lambda piece: piece in ("b", "n"),
    "direction": lambda piece: piece in ("p", "c"),
    "model": lambda piece: piece in MODELS,
    "access": lambda piece: piece in ACCESSES,
    "format": lambda piece: piece in FORMATS,
    "hex": lambda piece: piece == "-" or re.fullmatch(r"([0-9a-f]{2})+", piece) is not None,
    "name": lambda piece: re.fullmatch(r"[a-z0-9_-][a-z0-9._-]{0,63}", piece) is not None,
}

FORMS = {
    "long": "number",
    "card": "sub model direction",
    "hw": "client sub access format number number number number",
    "sw": "client sub number number number number number",
    "drain": "client sub mode",
    "writei": "client sub mode hex",
    "writen": "client sub mode hex",
    "readi": "client sub mode number",
    "readn": "client sub mode number",
    "rewind": "client sub number",
    "forward": "client sub number",
    "sync": "client sub number",
    "store": "client sub number hex",
    "load": "client sub number number",
    "link": "client sub sub",
    "go": "client",
    "move": "sub number",
    "irq": "sub",
    "unplug": "sub",
    "fail": "sub number",
    "give": "sub hex",
    "feed": "sub name",
    "save": "sub name",
    "space": "model" + 12 * " number",
    "beat": "sub number number",
    "threads": "",
    "join": "",
    "version": "number",
    "carry": "sub sub",
    "wire": "sub sub",
}
for plain in (
    "open close hwfree prepare start drop pause release suspend resume xrun hwsync delay status page poll mmap munmap"
    " unlink"
).split():
    FORMS[plain] = "client sub"

LINES = [
    "long 1023",
    "card s0 duplex p",
    "card s1 indirect c",
    "open c0 s10",
    "close c15 s15",
    "hw c0 s0 RW_INTERLEAVED S24_3LE 2 48000 10 4",
    "hwfree c0 s0",
    "sw c0 s0 2 1 16 0 9",
    "prepare c0 s0",
    "start c0 s0",
    "drop c0 s0",
    "pause c0 s0",
    "release c0 s0",
    "suspend c0 s0",
    "resume c0 s0",
    "xrun c0 s0",
    "drain c0 s0 b",
    "writei c0 s0 n 00ff",
    "writen c0 s0 b -",
    "readi c0 s0 b 80",
    "readn c0 s0 n 0",
    "rewind c0 s0 3",
    "forward c0 s0 3",
    "hwsync c0 s0",
    "delay c0 s0",
    "status c0 s0",
    "page c0 s0",
    "poll c0 s0",
    "sync c0 s0 7",
    "mmap c0 s0",
    "munmap c0 s0",
    "store c0 s0 5 0a",
    "load c0 s0 5 2",
    "link c0 s0 s1",
    "unlink c0 s0",
    "go c3",
    "move s0 40",
    "irq s0",
    "fail s0 1",
    "unplug s0",
    "give s0 7f",
    "feed s0 a.wav",
    "save s0 a-b",
    "space basic 8 4 2 2 1 20 1 65 2 32 4 65",
    "beat s0 4 10",
    "threads",
    "join",
    "version 2",
    "carry s0 s15",
    "wire s10 s1",
]


def letter_of(line):
    pieces = line.split(" ")
    if pieces[0] not in FORMS:
        assert len(pieces) == 1
        return "w"
    kinds = FORMS[pieces[0]].split()
    for n, (kind, piece) in enumerate(zip(kinds, pieces[1:])):
        if not KINDS[kind](piece):
            assert n + 2 == len(pieces)
            return "n" if kind == "number" else "w"
    if len(pieces) - 1 < len(kinds):
        return "s"
    return "l" if len(pieces) - 1 > len(kinds) else "."


assert set(FORMS) == {line.split(" ")[0] for line in LINES}
for line in LINES:
    print(f'        ("{line}", "{"".join(letter_of(line[:count]) for count in range(len(line) + 1))}"),')
