#!/usr/bin/env python3
"""WAV files of other programs through the card of `pcm play` and `pcm capture`. Run by hand: it is no part of the gate.

    python3 tests/wav/through_play.py --program crates/pcm/out/pcm

The files are those of other_programs.py, by Python's `wave`, by `sox` and by hand, in every format that a WAV file has and
with one to eight channels. Each is played, in periods of 16 frames and then in periods of one frame, and recorded, all its
frames and more. What is stored has the file's frames, and behind them silence; `wave` and `sox` read it back.

The last line is `N passed, N failed`, of files; the exit status is 1 where something failed.
"""
import argparse
import struct
import subprocess
import sys
import tempfile
import wave
from pathlib import Path
from shutil import which

from other_programs import BY_HAND, FORMATS, FRAMES, RATE, files_in, frames_of, raw

RECORDED = 600  # frames: more than the file has, and more than a period of the recorder


def width_of(name):
    """The bytes of a sample in a file."""
    return FORMATS["S32_LE" if name == BY_HAND else name][0]


def stored_frames(name, channels, count, silence):
    """The file's frames and silence, so many frames in all."""
    frames = frames_of(name, channels)
    return frames + bytes([silence]) * (count * channels * width_of(name) - len(frames))


def commands(name):
    """Each command's words, the line that it writes, the frames that it stores and the byte of silence behind them."""
    silence = 128 if name == "U8" else 0
    for period, periods in ((16, 2), (1, 32)):
        stored = -(-FRAMES // period) * period
        yield f"play in.wav out.wav {period} {periods}", f"played {FRAMES} stored {stored}\n", stored, silence
    yield f"capture in.wav out.wav {RECORDED}", f"captured {RECORDED}\n", RECORDED, 0


def fault_of_wave(file, name, channels, frames):
    """What `wave` finds wrong with what was stored, or None; it reads no extensible file before Python 3.12."""
    if name == BY_HAND and sys.version_info < (3, 12):
        return None
    with wave.open(str(file), "rb") as read:
        if (read.getnchannels(), read.getsampwidth(), read.getframerate()) != (channels, width_of(name), RATE):
            return "`wave` reads other channels, width or rate"
        return None if read.readframes(read.getnframes()) == frames else "`wave` reads other frames"


def fault_of_sox(file, name, channels, frames):
    """What `sox` finds wrong with what was stored, or None; it reads no file of 24 valid bits in 32."""
    if name == BY_HAND or not which("sox"):
        return None
    read = subprocess.run(["sox", "-D", str(file), *raw(name, channels), "-"], capture_output=True)
    return None if (read.returncode, read.stderr, read.stdout) == (0, b"", frames) else "`sox` reads other frames, or complains"


def fault_of_bytes(file, frames):
    """What is wrong with the end of the file, which is its frames and a pad byte behind an odd count, or None."""
    whole = file.read_bytes()
    data = b"data" + struct.pack("<I", len(frames)) + frames + bytes(len(frames) % 2)
    return None if whole.endswith(data) else "other frames stand in the file"


def fault(program, folder, name, channels):
    """What is wrong with what comes of the file in.wav of this folder, or None."""
    for words, line, count, silence in commands(name):
        run = subprocess.run([program, *words.split()], cwd=folder, capture_output=True)
        if (run.returncode, run.stdout, run.stderr) != (0, line.encode(), b""):
            return f"{words}: status {run.returncode}, {run.stdout!r}, {run.stderr!r}"
        frames, out = stored_frames(name, channels, count, silence), folder / "out.wav"
        wrong = fault_of_bytes(out, frames) or fault_of_wave(out, name, channels, frames) or fault_of_sox(out, name, channels, frames)
        if wrong:
            return f"{words}: {wrong}"
    return None


def main():
    parser = argparse.ArgumentParser(description=__doc__, formatter_class=argparse.RawDescriptionHelpFormatter)
    parser.add_argument("--program", required=True)
    program = str(Path(parser.parse_args().program).resolve())
    failed = passed = 0
    with tempfile.TemporaryDirectory() as folder:
        for file, name, channels in files_in(Path(folder)):
            (Path(folder) / "in.wav").write_bytes(file.read_bytes())
            wrong = fault(program, Path(folder), name, channels)
            passed, failed = passed + (not wrong), failed + bool(wrong)
            if wrong:
                print(f"failed: {file.name}: {wrong}")
    print(f"{passed} passed, {failed} failed")
    return 1 if failed else 0


if __name__ == "__main__":
    sys.exit(main())
