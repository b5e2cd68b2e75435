#!/usr/bin/env python3
"""Compares a built program with the plain model on random scripts, and cuts what differs to a smallest script.

    python3 compare.py --program ../../crates/pcm/out/pcm --seed 1 --count 2000 --forms go,link

Each script is run in a fresh folder with its files. Compared are standard output, the exit status, standard error and the
files afterwards. --forms leaves out forms that the program lacks (generate.py lists them). The status is 1 where a script
differs.
"""

import argparse
import os
import shlex
import subprocess
import sys
import tempfile
from typing import NamedTuple

import generate
import model

SHORTER_NUMBERS = (b'0', b'1', b'2', b'3', b'4', b'8', b'16')


class Answer(NamedTuple):
    """What a program leaves."""
    output: bytes
    status: int
    error: bytes
    files: dict


def model_answer(script):
    """What the model leaves."""
    result = model.command(script.words, script.source, dict(script.files))
    number, text = result.status
    return Answer(result.output, number, b'pcm: %s\n' % text.encode() if number else b'', result.files)


def program_answer(program, script):
    """What the program leaves in a fresh folder; a program that does not end has the status None."""
    with tempfile.TemporaryDirectory() as folder:
        for name, data in script.files.items():
            with open(os.path.join(folder, name), 'wb') as file:
                file.write(data)
        try:
            done = subprocess.run(program + script.words, input=script.source, cwd=folder, timeout=60,
                                  stdout=subprocess.PIPE, stderr=subprocess.PIPE)
        except subprocess.TimeoutExpired:
            return Answer(b'', None, b'', {})
        return Answer(done.stdout, done.returncode, done.stderr, read_folder(folder))


def read_folder(folder):
    """All files of a folder, by name."""
    files = {}
    for name in os.listdir(folder):
        with open(os.path.join(folder, name), 'rb') as file:
            files[name] = file.read()
    return files


def differs(program, script):
    """Whether the program answers otherwise than the model."""
    return program_answer(program, script) != model_answer(script)


# Cutting


def with_lines(script, lines):
    """The script with these lines in place of its own."""
    return script._replace(source=b''.join(line + b'\n' for line in lines))


def cut_lines(script, still):
    """The script without the lines that are not needed: pieces of half of it first, then smaller ones."""
    lines = script.source.split(b'\n')
    lines = lines[:-1] if lines[-1] == b'' else lines
    size = len(lines)
    while size >= 1:
        at = 0
        while at < len(lines):
            fewer = lines[:at] + lines[at + size:]
            if still(with_lines(script, fewer)):
                lines = fewer
            else:
                at += size
        size //= 2
    return with_lines(script, lines)


def shorter_pieces(piece):
    """Shorter spellings of a piece, the shortest first."""
    if piece.isdigit():
        return [number for number in SHORTER_NUMBERS if int(number) < int(piece)]
    if len(piece) > 2 and len(piece) % 2 == 0 and all(byte in b'0123456789abcdef' for byte in piece):
        halves = [piece[:size] for size in (2, 4, 6, 8, len(piece) // 4 * 2) if size < len(piece)]
        return halves + ([b'00' * (len(piece) // 2)] if piece.strip(b'0') else [])
    return []


def cut_pieces(script, still):
    """The script with shorter numbers and less data."""
    lines = script.source.split(b'\n')
    for at in range(len(lines)):
        for place in range(1, len(lines[at].split(b' '))):
            for shorter in shorter_pieces(lines[at].split(b' ')[place]):
                pieces = lines[at].split(b' ')
                pieces[place] = shorter
                fewer = lines[:at] + [b' '.join(pieces)] + lines[at + 1:]
                if still(script._replace(source=b'\n'.join(fewer))):
                    lines = fewer
                    break
    return script._replace(source=b'\n'.join(lines))


def cut_files(script, still):
    """The script without the files that are not needed."""
    for name in sorted(script.files):
        fewer = script._replace(files={other: data for other, data in script.files.items() if other != name})
        if still(fewer):
            script = fewer
    return script


def smallest(script, still):
    """A script that can't be cut further and still differs."""
    while True:
        shorter = cut_files(cut_pieces(cut_lines(script, still), still), still)
        if shorter == script:
            return script
        script = shorter


# Showing


def first_difference(want, found):
    """The first line that differs, of both sides."""
    wanted, has = want.output.decode('latin-1').split('\n'), found.output.decode('latin-1').split('\n')
    for one, other in zip(wanted + [None] * len(has), has + [None] * len(wanted)):
        if one != other:
            return '  the model:   %r\n  the program: %r\n' % (one, other)
    return ''


def show(program, script):
    """Prints a script on which the two differ, and how."""
    want, found = model_answer(script), program_answer(program, script)
    sys.stdout.write('  words: %s\n' % ' '.join(script.words))
    sys.stdout.write(''.join('  | %s\n' % line for line in script.source.decode('latin-1').rstrip('\n').split('\n')))
    for name, data in sorted(script.files.items()):
        sys.stdout.write('  file %s: %s\n' % (name, data.hex()[:400]))
    sys.stdout.write(first_difference(want, found))
    if (want.status, want.error) != (found.status, found.error):
        sys.stdout.write('  status of the model %r %r, of the program %r %r\n'
                         % (want.status, want.error, found.status, found.error))
    for name in sorted(set(want.files) | set(found.files)):
        if want.files.get(name) != found.files.get(name):
            sys.stdout.write('  the file %s differs\n' % name)


def main():
    """Runs the comparison; its status is 1 where a script differs."""
    parser = argparse.ArgumentParser(description=__doc__, formatter_class=argparse.RawDescriptionHelpFormatter)
    parser.add_argument('--program', required=True, help='the built program, or a command with its first words')
    parser.add_argument('--seed', type=int, default=1, help='the first seed')
    parser.add_argument('--count', type=int, default=1000, help='how many scripts')
    parser.add_argument('--forms', default='', help='forms to leave out, with commas between them')
    parser.add_argument('--show', type=int, default=3, help='how many differences are cut and shown')
    arguments = parser.parse_args()
    program = [os.path.abspath(word) if os.path.exists(word) else word for word in shlex.split(arguments.program)]
    left_out = frozenset(arguments.forms.split(','))
    different = []
    for seed in range(arguments.seed, arguments.seed + arguments.count):
        script = generate.make(seed, left_out)
        if differs(program, script):
            different.append(seed)
            if len(different) <= arguments.show:
                print('seed %d differs; cut down:' % seed)
                show(program, smallest(script, lambda shorter: differs(program, shorter)))
    if len(different) > arguments.show:
        print('also: %s' % ' '.join(str(seed) for seed in different[arguments.show:][:100]))
    print('%d equal, %d different' % (arguments.count - len(different), len(different)))
    return 1 if different else 0


if __name__ == '__main__':
    sys.exit(main())
