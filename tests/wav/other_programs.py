#!/usr/bin/env python3
"""WAV files between other programs and ours, both ways. Run by hand: it is no part of the gate.

    python3 tests/wav/other_programs.py

Python's module `wave` and `sox` write files in U8, S16_LE, S24_3LE and S32_LE, with one to eight channels, some of them
extensible; no program at hand writes S24_LE, so its extensible files are put together here, byte by byte. The program
of rewrite/, built as those of bench/ are, reads each with `read_wav` and tells what it found, and writes it anew with
`write_wav`; `wave` and `sox` read that back, and of S24_LE it is to be the same file. What is missing is skipped, and
said so; `wave` reads an extensible file from Python 3.12 on.

The last line is `N passed, M failed, K skipped`, of files; the exit status is 1 where something failed.
"""
import shutil
import struct
import subprocess
import sys
import tempfile
import wave
from pathlib import Path

HERE = Path(__file__).resolve().parent
TOP = HERE.parent.parent
PROGRAM = "rewrite"
USES = ["pcm_base", "wav_file"]

RATE = 44100
FRAMES = 101  # odd: a file of U8 with an odd count of channels has a pad
EXTENSIBLE = 65534
PCM_SUBTYPE = bytes.fromhex("0100000000001000800000aa00389b71")
# name: bytes of a sample, sox's encoding
FORMATS = {
    "U8": (1, "unsigned-integer"),
    "S16_LE": (2, "signed-integer"),
    "S24_3LE": (3, "signed-integer"),
    "S32_LE": (4, "signed-integer"),
}
BY_HAND = "S24_LE"  # in a file its samples stand in the high three bytes of four, as those of S32_LE


def frames_of(name, channels):
    """Bytes that differ from sample to sample and from byte to byte."""
    count = FRAMES * channels * FORMATS["S32_LE" if name == BY_HAND else name][0]
    frames = bytearray((7 * i + i // 256) % 256 for i in range(count))
    if name == BY_HAND:
        frames[0::4] = bytes(len(frames) // 4)
    return bytes(frames)


def write_by_wave(path, name, channels):
    with wave.open(str(path), "wb") as out:
        out.setnchannels(channels)
        out.setsampwidth(FORMATS[name][0])
        out.setframerate(RATE)
        out.writeframes(frames_of(name, channels))


def write_by_hand(path, name, channels):
    frames = frames_of(name, channels)
    align = 4 * channels
    body = struct.pack("<HHIIHHHHI", EXTENSIBLE, channels, RATE, RATE * align, align, 32, 22, 24, 0) + PCM_SUBTYPE
    chunks = b"fmt " + struct.pack("<I", len(body)) + body + b"data" + struct.pack("<I", len(frames)) + frames
    path.write_bytes(b"RIFF" + struct.pack("<I", 4 + len(chunks)) + b"WAVE" + chunks)


def raw(name, channels):
    """The words by which sox takes bare frames."""
    width, encoding = FORMATS[name]
    return ["-t", "raw", "-r", str(RATE), "-e", encoding, "-b", str(8 * width), "-c", str(channels), "-L"]


def writer_by_sox(kind):
    """`wavpcm` is always plain PCM, `wav` may be extensible."""

    def write(path, name, channels):
        words = ["sox", "-D", *raw(name, channels), "-", "-t", kind, str(path)]
        subprocess.run(words, input=frames_of(name, channels), check=True)

    return write


WRITERS = {"wave": write_by_wave, "sox-wavpcm": writer_by_sox("wavpcm"), "sox-wav": writer_by_sox("wav")}


def needed(uses, names):
    """These crates, and those of the repository below them."""
    found = []
    left = list(names)
    while left:
        name = left.pop()
        if name in uses and name not in found:
            found.append(name)
            left += uses[name]
    return found


def build(folder, file):
    """Proves and compiles the program over a copy of the repository's crates, and runs it on one file."""
    lines = (TOP / "crates.txt").read_text().splitlines()
    uses = {line.split(":")[0]: line.split(":")[1].split() for line in lines if ":" in line and line[0] != "#"}
    crates = needed(uses, USES)
    for name in crates:
        shutil.copytree(TOP / "crates" / name, folder / "crates" / name)
    listed = [f"{name}: {' '.join(uses[name])}\n" for name in crates] + [f"{PROGRAM}: {' '.join(USES)}\n"]
    (folder / "crates.txt").write_text("".join(listed))
    source = folder / "crates" / PROGRAM / "src"
    source.mkdir(parents=True)
    shutil.copy(HERE / PROGRAM / "main.rt.in", source / "main.rt")
    subprocess.run(["git", "init", "-q", str(folder)], check=True)
    with open(file, "rb") as stdin:
        run = subprocess.run(["rt", "run", "--jobs", "1"], cwd=source.parent, stdin=stdin, capture_output=True)
    if run.returncode != 0:
        sys.stderr.write(run.stderr.decode(errors="replace"))
        return None
    return source.parent / "out" / PROGRAM


def fault_of_wave(again, name, channels):
    """What `wave` finds wrong with what was written, or None."""
    if name == BY_HAND and sys.version_info < (3, 12):
        return None
    width = FORMATS["S32_LE" if name == BY_HAND else name][0]
    with wave.open(str(again), "rb") as read:
        if (read.getnchannels(), read.getsampwidth(), read.getframerate()) != (channels, width, RATE):
            return "`wave` reads other channels, width or rate in what was written"
        if read.readframes(read.getnframes()) != frames_of(name, channels):
            return "`wave` reads other frames in what was written"
    return None


def fault_of_sox(again, name, channels):
    """What `sox` finds wrong with what was written, or None; it reads no file of 24 valid bits in 32."""
    if name == BY_HAND or not shutil.which("sox"):
        return None
    read = subprocess.run(["sox", "-D", str(again), *raw(name, channels), "-"], capture_output=True)
    if (read.returncode, read.stderr, read.stdout) == (0, b"", frames_of(name, channels)):
        return None
    return f"`sox` reads other frames in what was written, or complains: {read.stderr.decode().strip()}"


def fault(program, file, name, channels):
    """What is wrong with one file, or None."""
    run = subprocess.run([program], input=file.read_bytes(), capture_output=True)
    told = run.stderr.decode(errors="replace").strip()
    if (run.returncode, told) != (0, f"{name} {channels} {RATE} {len(frames_of(name, channels))}"):
        return f"status {run.returncode}: {told}"
    if name == BY_HAND and run.stdout != file.read_bytes():
        return "another file is written"
    again = file.with_suffix(".again.wav")
    again.write_bytes(run.stdout)
    return fault_of_wave(again, name, channels) or fault_of_sox(again, name, channels)


def files_in(folder):
    """Writes the files; each with its format and channels."""
    files = []
    for channels in range(1, 9):
        files.append((folder / f"by-hand-{BY_HAND}-{channels}.wav", BY_HAND, channels))
        write_by_hand(*files[-1])
    for writer, write in WRITERS.items():
        if not writer.startswith("sox") or shutil.which("sox"):
            for name in FORMATS:
                for channels in range(1, 9):
                    files.append((folder / f"{writer}-{name}-{channels}.wav", name, channels))
                    write(*files[-1])
    return files


def test(folder):
    """How many files passed and failed."""
    files = files_in(folder)
    if not shutil.which("rt"):
        print("skipped: no program rt, so nothing is read")
        return 0, 0
    program = build(folder / "repository", files[0][0])
    if program is None:
        print(f"failed: the program {PROGRAM} was not built")
        return 0, len(files)
    faults = [(file.name, fault(program, file, name, channels)) for (file, name, channels) in files]
    failed = [f"failed: {file}: {wrong}" for (file, wrong) in faults if wrong]
    for line in failed:
        print(line)
    return len(files) - len(failed), len(failed)


def main():
    if not shutil.which("sox"):
        print("skipped: no program sox, so it writes and reads no file")
    with tempfile.TemporaryDirectory() as folder:
        passed, failed = test(Path(folder))
    skipped = (len(WRITERS) * len(FORMATS) + 1) * 8 - passed - failed
    print(f"{passed} passed, {failed} failed, {skipped} skipped")
    return 1 if failed else 0


if __name__ == "__main__":
    sys.exit(main())
