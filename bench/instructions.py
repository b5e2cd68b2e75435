#!/usr/bin/env python3
"""Counts the built program's instructions a line of a script, or a byte, which repeat exactly.

    (cd crates/pcm && rt run -- run < stdin) && python3 bench/instructions.py --program crates/pcm/out/pcm

Each row runs under `valgrind --tool=callgrind` over two sizes of the same script, and the difference is told, so that what a
run costs once falls out. --parts N adds the N functions that cost most by themselves, with their share of a line or byte.
"""
import argparse, os, re, subprocess, tempfile

from scripts import OPENED, SPACE, long_writes, short_lines, starts_of_sixteen

ROWS = (
    ('run, a short line', 'run', short_lines, 4_000, 24_000),
    ('run, a short line, 16 substreams', 'run', lambda n: short_lines(n, 16), 4_064, 24_064),
    ('run, a short line, a group of 16', 'run', lambda n: short_lines(n, 16, True), 4_000, 24_000),
    ('run, a start or stop of 16', 'run', starts_of_sixteen, 3_000, 9_000),
    ('run, a status', 'run', lambda n: OPENED + 'status c0 s0\n' * n, 4_000, 24_000),
    ('run, a byte of long writes', 'run', long_writes, 2_000_000, 6_000_000),
    ('refine, a line', 'refine', lambda n: SPACE * (n // 2), 1_000, 5_000),
)


def counted(program, word, text, folder):
    """The instructions of a run over the text: of all, and of each function by itself."""
    script, out = os.path.join(folder, 'script'), os.path.join(folder, 'counts')
    with open(script, 'w') as f:
        f.write(text)
    with open(script, 'rb') as source:
        command = ['valgrind', '--tool=callgrind', f'--callgrind-out-file={out}', program, word]
        subprocess.run(command, stdin=source, stdout=subprocess.DEVNULL, stderr=subprocess.DEVNULL, cwd=folder, check=True)
    told = subprocess.run(['callgrind_annotate', '--threshold=100', out], capture_output=True, text=True).stdout
    own = {}
    for line in told.splitlines():
        found = re.match(r' *([\d,]+) \([ \d.]+%\)  (.*)$', line)
        if found:
            name = re.sub(r' \[.*|^.*?:(?=\w)|::<#\w+>', '', found.group(2))
            own[name] = own.get(name, 0) + int(found.group(1).replace(',', ''))
    return own.pop('PROGRAM TOTALS'), own


def main():
    parser = argparse.ArgumentParser(description=__doc__, formatter_class=argparse.RawDescriptionHelpFormatter)
    parser.add_argument('--program', required=True)
    parser.add_argument('--parts', type=int, default=0)
    args = parser.parse_args()
    program = os.path.abspath(args.program)
    with tempfile.TemporaryDirectory() as folder:
        for name, word, script, few, many in ROWS:
            small, large = script(few), script(many)
            first, first_own = counted(program, word, small, folder)
            then, then_own = counted(program, word, large, folder)
            of_bytes = 'byte' in name
            more = len(large) - len(small) if of_bytes else large.count('\n') - small.count('\n')
            digits = 3 if of_bytes else 1
            print(f'{name:40} {(then - first) / more:10.{digits}f}', flush=True)
            own = sorted(((then_own[f] - first_own.get(f, 0)) / more, f) for f in then_own)
            for cost, function in reversed(own[-args.parts:] if args.parts else []):
                print(f'    {cost:10.{digits}f}  {function}')


if __name__ == '__main__':
    main()
