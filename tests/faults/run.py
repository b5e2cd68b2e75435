#!/usr/bin/env python3
"""Runs the built program under faults of the system, and compares what it leaves with what it must leave.

    python3 tests/faults/run.py --program crates/pcm/out/pcm
    python3 tests/faults/run.py --program crates/pcm/out/pcm store pipe      the cases that have one of these words
    python3 tests/faults/run.py --list

Each case has a line: passed, failed or skipped, its name, how many runs it made and what was seen. Behind a case that
failed stands what was wrong. The last line is `N passed, N failed`, of cases; the status is 1 where one failed.
"""

import argparse
import functools
import os
import shlex
import shutil
import subprocess
import sys
import tempfile
import time

import ends
import kills
import memory
import places
import texts
from judge import Told
from program import Fault, Program, disk

GROUPS = [('standard input', ends.INPUT), ('standard output', ends.OUTPUT), ('standard error', ends.ERROR),
          ('files', places.FILES), ('commands on files', places.COMMANDS),
          ('memory', memory.MEMORY_CASES),
          ('stores that are cut off', kills.KILLS)]
MOST_WRONG = 5   # lines of what was wrong, of one case


@functools.lru_cache()
def can_mount():
    """Whether this user may mount a disk in memory."""
    try:
        with disk('size=64k')():
            return True
    except (OSError, subprocess.CalledProcessError):
        return False


def has_command(program, name):
    """Whether the program knows the words of a command on files."""
    return program.run(texts.FILE_COMMANDS[name], b'', {}, Fault()).status != 1


def lacks(program, need):
    """Why a need is not met, or None."""
    if need == 'root':
        return None if os.geteuid() == 0 else 'needs root'
    if need == 'mount':
        return None if can_mount() else 'needs the right to mount'
    if need == 'gdb':
        return None if shutil.which('gdb') else 'needs gdb'
    return None if has_command(program, need) else 'the program has no command ' + need


def missing(program, case):
    """Why a case can't be run here, or None."""
    return next((why for why in (lacks(program, need) for need in case.needs) if why), None)


def show(verdict, name, rest):
    """Prints the line of a case."""
    print('  %-8s%s: %s' % (verdict, name, rest), flush=True)


def checked(program, case):
    """What a case came to; one that can't be set up has failed."""
    try:
        return case.check(program)
    except (OSError, subprocess.SubprocessError) as error:
        return Told(0, ['it could not be set up: %s' % error])


def run_case(program, case):
    """Runs a case and prints what it came to: its verdict."""
    why = missing(program, case)
    if why:
        show('skipped', case.name, why)
        return 'skipped'
    start = time.monotonic()
    told = checked(program, case)
    verdict = 'failed' if told.wrong else 'passed'
    note = ', ' + told.note if told.note else ''
    show(verdict, case.name, '%d runs%s (%.1f s)' % (told.runs, note, time.monotonic() - start))
    for text in told.wrong[:MOST_WRONG]:
        print('          ' + text)
    if len(told.wrong) > MOST_WRONG:
        print('          and %d more' % (len(told.wrong) - MOST_WRONG))
    return verdict


def chosen(words):
    """The groups with the cases that have one of the words; all where there is none."""
    for title, cases in GROUPS:
        found = [case for case in cases if not words or any(word in case.name for word in words)]
        if found:
            yield title, found


def run_all(program, words):
    """Runs the cases: the names by verdict."""
    names = {'passed': [], 'failed': [], 'skipped': []}
    for title, cases in chosen(words):
        print(title)
        for case in cases:
            names[run_case(program, case)].append(case.name)
    return names


def main():
    """Runs the cases that are asked for; the status is 1 where one failed."""
    parser = argparse.ArgumentParser(description=__doc__, formatter_class=argparse.RawDescriptionHelpFormatter)
    parser.add_argument('--program', help='the built program, or a command with its first words')
    parser.add_argument('--list', action='store_true', help='name the cases')
    parser.add_argument('words', nargs='*', help='words of the cases to run; all where there is none')
    arguments = parser.parse_args()
    if arguments.list or not arguments.program:
        for title, cases in chosen(arguments.words):
            print('\n'.join([title] + ['  ' + case.name for case in cases]))
        return 0
    with tempfile.TemporaryDirectory(prefix='pcm-faults-') as folder:
        os.chmod(folder, 0o755)
        names = run_all(Program(shlex.split(arguments.program), folder), arguments.words)
    for verdict in ('failed', 'skipped'):
        if names[verdict]:
            print('%s: %s' % (verdict, '; '.join(names[verdict])))
    print('%d passed, %d failed' % (len(names['passed']), len(names['failed'])))
    return 1 if names['failed'] else 0


if __name__ == '__main__':
    sys.exit(main())
