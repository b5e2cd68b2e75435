#!/usr/bin/env python3
"""Runs the scripts of docs/TOUR.md on a program and compares each line's answer with the one that stands beside it.

    python3 tour.py --program ../../crates/pcm/out/pcm

A line of the tour's blocks has a line of a script at the left and its line of the transcript at the right. A script begins
where the number is 1, and goes on over the text between two blocks. The last line says how many scripts passed.
"""

import argparse
import os
import re
import shlex
import subprocess
import sys

TOUR = os.path.join(os.path.dirname(os.path.abspath(__file__)), '..', '..', 'docs', 'TOUR.md')
BLOCK_LINE = re.compile(r'    ([a-z]+(?: \S+)*) {2,}([0-9]+) (\S.*)')


def read_scripts(text):
    """The scripts of the tour: lists of pairs of a line and its answer."""
    scripts = []
    for found in filter(None, map(BLOCK_LINE.fullmatch, text.split('\n'))):
        if found[2] == '1':
            scripts.append([])
        scripts[-1].append((found[1], '%s %s' % (found[2], found[3])))
    return scripts


def first_fault(program, script):
    """The first line whose answer is not the one of the tour, or None."""
    source = ''.join(line + '\n' for line, _ in script)
    done = subprocess.run(program + ['run'], input=source.encode(), stdout=subprocess.PIPE, stderr=subprocess.PIPE)
    answers = done.stdout.decode().split('\n')
    for place, (line, wanted) in enumerate(script):
        found = answers[place] if place < len(answers) else done.stderr.decode().strip()
        if found != wanted:
            return '%s: wanted %r, found %r' % (line, wanted, found)
    return None


def main():
    """Checks all; the status is 1 where a script failed."""
    parser = argparse.ArgumentParser(description=__doc__, formatter_class=argparse.RawDescriptionHelpFormatter)
    parser.add_argument('--program', required=True, help='the built program, or a command with its first words')
    arguments = parser.parse_args()
    program = [os.path.abspath(word) if os.path.exists(word) else word for word in shlex.split(arguments.program)]
    with open(TOUR, encoding='utf-8') as file:
        scripts = read_scripts(file.read())
    faults = [first_fault(program, script) for script in scripts]
    for number, fault in enumerate(faults, 1):
        if fault:
            print('script %d: %s' % (number, fault))
    failed = sum(1 for fault in faults if fault)
    print('%d passed, %d failed' % (len(faults) - failed, failed))
    return 1 if failed else 0


if __name__ == '__main__':
    sys.exit(main())
