#!/usr/bin/env python3
"""Times the built program over large scripts, and `cp` of the same files beside it.

    (cd crates/pcm && rt run -- run < stdin) && python3 bench/scripts.py --program crates/pcm/out/pcm

`rt run` leaves the program in its crate's folder. Each script runs as often as --runs says (5), and the least time of
each is printed with its lines and megabytes (10^6 bytes) a second; what it writes goes into a file. `cp` copies the
script, and what the run wrote.
"""
import argparse, os, shutil, subprocess, tempfile, time

OPENED = 'card s0 duplex p\nopen c0 s0\nhw c0 s0 RW_INTERLEAVED U8 1 48000 8192 8\nprepare c0 s0\n'
SPACE = 'space basic 8 4 2 2 1 200000 1 65536 2 32 4 65536\nspace studio 27 1092 1 8 1 200000 1 65536 2 32 4 65536\n'


def long_writes(size):
    """A buffer is written; then half of it is moved, reported and written, over and over: so many bytes of script."""
    part = bytes(i * 7 % 251 for i in range(32768)).hex()
    first = f'writei c0 s0 n {part}{part}\n'
    turn = f'move s0 32768\nirq s0\nwritei c0 s0 n {part}\n'
    return OPENED + first + turn * ((size - len(OPENED) - len(first)) // len(turn))


def opened(k):
    """Substream k with a buffer of four frames."""
    return f'card s{k} basic p\nopen c{k} s{k}\nhw c{k} s{k} RW_INTERLEAVED U8 1 8000 2 2\n'


def short_lines(count, substreams=1, linked=False):
    """Three frames are moved, reported and written, over and over, on one substream after another: so many lines."""
    everyone = range(substreams)
    first = ''.join(opened(k) for k in everyone)
    first += ''.join(f'link c0 s0 s{k}\n' for k in everyone if linked and k > 0)
    first += ''.join(f'prepare c{k} s{k}\n' for k in everyone if not linked or k == 0)
    first += ''.join(f'writei c{k} s{k} n 01020304\n' for k in everyone)
    turn = ''.join(f'move s{k} 3\nirq s{k}\nwritei c{k} s{k} n 050607\npage c{k} s{k}\n' for k in everyone)
    lines = count - first.count('\n')
    return first + turn * (lines // (4 * substreams))


def starts_of_sixteen(count):
    """A group of sixteen capture cards is prepared, started and dropped, over and over: so many lines."""
    cards = ''.join(f'card s{k} basic c\nopen c0 s{k}\nhw c0 s{k} RW_INTERLEAVED U8 1 8000 2 2\n' for k in range(16))
    links = ''.join(f'link c0 s0 s{k}\n' for k in range(1, 16))
    return cards + links + 'prepare c0 s0\nstart c0 s0\ndrop c0 s0\n' * (count // 3)


def least(runs, call):
    best = None
    for _ in range(runs):
        start = time.perf_counter()
        call()
        spent = time.perf_counter() - start
        best = spent if best is None else min(best, spent)
    return best


def row(name, seconds, lines, size):
    rate = f'{lines / seconds / 1e6:8.2f} million lines/s' if lines else ''
    print(f'{name:44} {seconds * 1000:9.1f} ms {size / seconds / 1e6:9.0f} MB/s {rate}')


def main():
    parser = argparse.ArgumentParser(description=__doc__, formatter_class=argparse.RawDescriptionHelpFormatter)
    parser.add_argument('--program', required=True)
    parser.add_argument('--runs', type=int, default=5)
    args = parser.parse_args()
    program = os.path.abspath(args.program)
    with tempfile.TemporaryDirectory() as folder:
        script, out, copy = (os.path.join(folder, name) for name in ('script', 'out', 'copy'))
        for name, word, text in (
                ('run, 60 MB of long writes and movements', 'run', long_writes(60_000_000)),
                ('run, 1,000,000 short lines', 'run', short_lines(1_000_000)),
                ('run, 1,000,000 short lines, 16 substreams', 'run', short_lines(1_000_000, 16)),
                ('run, 1,000,000 short lines, a group of 16', 'run', short_lines(1_000_000, 16, True)),
                ('run, 300,000 starts and stops of 16', 'run', starts_of_sixteen(300_000)),
                ('refine, 100,000 lines', 'refine', SPACE * 50_000)):
            with open(script, 'w') as f:
                f.write(text)

            def call():
                with open(script, 'rb') as source, open(out, 'wb') as sink:
                    subprocess.run([program, word], stdin=source, stdout=sink, cwd=folder, check=True)

            row(name, least(args.runs, call), text.count('\n'), len(text))
            for what, path in (('script', script), ('transcript', out)):
                row(f'  cp of the {what}', least(args.runs, lambda: shutil.copyfile(path, copy)), 0, os.path.getsize(path))


if __name__ == '__main__':
    main()
