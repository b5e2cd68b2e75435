#!/usr/bin/env python3
"""Checks of the kernel's model that need no machine.

    python3 check.py --count 500

With no difference on the model answers random scripts as the plain model of `tests/scripts` does. Each smallest script needs
its difference, and none of its lines can be left out. The status is 1 where that is not so.
"""

import argparse
import os
import sys

HERE = os.path.dirname(os.path.abspath(__file__))
sys.path[:0] = [HERE, os.path.join(os.path.dirname(HERE), 'scripts')]
import account                                                              # noqa: E402
import differences                                                          # noqa: E402
import kernel                                                               # noqa: E402
import model                                                                # noqa: E402
import scripts                                                              # noqa: E402


def plain_answer(lines):
    """The transcript of the plain model."""
    source = b''.join(line + b'\n' for line in lines)
    return model.command(['run'], source, {}).output.decode().split('\n')[:-1]


def unlike_plain(seed):
    """Whether the model without differences answers the script of this seed otherwise than the plain one."""
    _, lines = scripts.make(seed, differences.those_of(differences.SERIES[seed % 2]))
    return kernel.play(lines, ()).lines != plain_answer(lines)


def smallest(name):
    """The lines of a difference's smallest script."""
    with open(os.path.join(HERE, 'smallest', name + '.pcm'), 'rb') as file:
        return file.read().split(b'\n')[:-1]


def needs(lines, name, series):
    """Whether the script needs the difference."""
    on = differences.those_of(series)
    return name in account.needed(lines, kernel.play(lines, on), on)


def faults_of(name):
    """What is wrong with a difference's smallest script."""
    lines = smallest(name)
    for series in differences.DIFFERENCES[name].series:
        if not needs(lines, name, series):
            yield '%s: its smallest script does not need it in %s' % (name, series)
        for at in range(len(lines)):
            if needs(lines[:at] + lines[at + 1:], name, series):
                yield '%s: line %d can be left out in %s' % (name, at + 1, series)


def main():
    """Runs the checks."""
    parser = argparse.ArgumentParser(description=__doc__, formatter_class=argparse.RawDescriptionHelpFormatter)
    parser.add_argument('--count', type=int, default=500, help='how many random scripts')
    arguments = parser.parse_args()
    faults = [fault for name in differences.DIFFERENCES for fault in faults_of(name)]
    faults += ['seed %d: without differences the model is not the plain one' % seed
               for seed in range(1, arguments.count + 1) if unlike_plain(seed)]
    for fault in faults:
        print(fault)
    print('%d differences, %d random scripts, %d faults' % (len(differences.DIFFERENCES), arguments.count, len(faults)))
    return 1 if faults else 0


if __name__ == '__main__':
    sys.exit(main())
