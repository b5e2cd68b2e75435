#!/usr/bin/env python3
"""Runs every example on a program and compares what it leaves with what is stored beside the example.

    python3 check.py --program ../crates/pcm/out/pcm
    python3 check.py --program ../crates/pcm/out/pcm drain pause      these alone

NAME.pcm is a script for `run`, NAME.spaces the lines of `refine`; NAME.out is the output. Each runs in a fresh folder
with the files of files/. What the program stores there is compared with the files NAME.FILE beside the script. The last
line says how many passed; the status is 1 where one failed. --write stores what the program leaves instead.
"""

import argparse
import os
import shlex
import subprocess
import sys
import tempfile

HERE = os.path.dirname(os.path.abspath(__file__))
COMMANDS = {'.pcm': 'run', '.spaces': 'refine'}


def read(path):
    """The bytes of a file."""
    with open(path, 'rb') as file:
        return file.read()


def write(path, data):
    """Stores a file."""
    with open(path, 'wb') as file:
        file.write(data)


def folder_files(folder):
    """The files of a folder, by name."""
    return {name: read(os.path.join(folder, name)) for name in sorted(os.listdir(folder))}


def examples(names):
    """Name and command of each example, or of those that are named."""
    for file in sorted(os.listdir(HERE)):
        name, ending = os.path.splitext(file)
        if ending in COMMANDS and (not names or name in names):
            yield name, ending


def run(program, name, ending):
    """What the program leaves of an example: its status, output, standard error, and the files by name."""
    with tempfile.TemporaryDirectory() as folder:
        for file, data in folder_files(os.path.join(HERE, 'files')).items():
            write(os.path.join(folder, file), data)
        done = subprocess.run(program + [COMMANDS[ending]], input=read(os.path.join(HERE, name + ending)), cwd=folder,
                              stdout=subprocess.PIPE, stderr=subprocess.PIPE)
        return done.returncode, done.stdout, done.stderr, folder_files(folder)


def stored_files(name):
    """The files that should be there afterwards."""
    wanted = folder_files(os.path.join(HERE, 'files'))
    for file in os.listdir(HERE):
        if file.startswith(name + '.') and file.endswith('.wav'):
            wanted[file[len(name) + 1:]] = read(os.path.join(HERE, file))
    return wanted


def fault(name, answer):
    """What is wrong with the answer, or None."""
    status, output, error, files = answer
    if status != 0:
        return 'status %d, %s' % (status, error.decode(errors='replace').strip())
    if error:
        return 'standard error %r' % error
    wanted = read(os.path.join(HERE, name + '.out'))
    if output != wanted:
        return first_difference(wanted, output)
    wanted_files = stored_files(name)
    for file in sorted(set(files) | set(wanted_files)):
        if files.get(file) != wanted_files.get(file):
            return 'the file %s differs' % file
    return None


def first_difference(wanted, found):
    """The first line of the output that differs."""
    one, other = wanted.decode().split('\n'), found.decode(errors='replace').split('\n')
    at = next((i for i, pair in enumerate(zip(one, other)) if pair[0] != pair[1]), min(len(one), len(other)))
    return 'wanted %r, found %r' % (one[at:at + 1], other[at:at + 1])


def store(name, answer):
    """Stores the output and the new files of an example."""
    write(os.path.join(HERE, name + '.out'), answer[1])
    given = folder_files(os.path.join(HERE, 'files'))
    for file, data in answer[3].items():
        if given.get(file) != data:
            write(os.path.join(HERE, name + '.' + file), data)


def main():
    """Checks or writes; the status is 1 where an example failed."""
    parser = argparse.ArgumentParser(description=__doc__, formatter_class=argparse.RawDescriptionHelpFormatter)
    parser.add_argument('--program', required=True, help='the built program, or a command with its first words')
    parser.add_argument('--write', action='store_true', help='store what the program leaves')
    parser.add_argument('names', nargs='*', help='the examples; all where none is named')
    arguments = parser.parse_args()
    program = [os.path.abspath(word) if os.path.exists(word) else word for word in shlex.split(arguments.program)]
    passed = failed = 0
    for name, ending in examples(arguments.names):
        answer = run(program, name, ending)
        if arguments.write and answer[0] == 0:
            store(name, answer)
        wrong = fault(name, answer)
        passed, failed = (passed, failed + 1) if wrong else (passed + 1, failed)
        if wrong:
            print('%s: %s' % (name, wrong))
    print('%d passed, %d failed' % (passed, failed))
    return 1 if failed else 0


if __name__ == '__main__':
    sys.exit(main())
