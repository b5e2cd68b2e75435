#!/usr/bin/env python3
"""Runs random plans on a built `pcmlive` and replays the logs that it writes.

    python3 compare.py --program ../../crates/pcmlive/out/pcmlive --seed 1 --count 200

Each plan is run in a fresh folder. Its run ends with status 0 and no text on standard error, each entry of the logs is in its
place, the end lines are those of the replayed logs, and the files are those that the saves store from them. The status is 1
where a run differs.
"""

import argparse
import os
import shlex
import subprocess
import sys
import tempfile

import plans
import replay

LONGEST_RUN = 60


def run_plan(program, plan):
    """The logs that the program writes and the files that it leaves; raises where it fails or doesn't end."""
    with tempfile.TemporaryDirectory() as folder:
        try:
            done = subprocess.run(program, input=plan, cwd=folder, timeout=LONGEST_RUN, stdout=subprocess.PIPE, stderr=subprocess.PIPE)
        except subprocess.TimeoutExpired:
            raise replay.OutOfPlace('it does not end') from None
        replay.require((done.returncode, done.stderr) == (0, b''), 'status %s: %s', done.returncode, done.stderr.decode())
        files = {}
        for name in os.listdir(folder):
            with open(os.path.join(folder, name), 'rb') as file:
                files[name] = file.read()
        return done.stdout.decode(), files


def check(program, plan):
    """The count of entries of the logs of a run of the plan; raises where something is out of place."""
    logs, files = run_plan(program, plan)
    wanted = replay.replayed(plan, {}, logs)
    replay.require(files == wanted, 'other files than the saves store')
    return sum(not line.startswith('end ') for line in logs.splitlines())


def main():
    """The program."""
    words = argparse.ArgumentParser(description=__doc__, formatter_class=argparse.RawDescriptionHelpFormatter)
    words.add_argument('--program', required=True, help='the command that runs pcmlive')
    words.add_argument('--seed', type=int, default=1)
    words.add_argument('--count', type=int, default=200)
    given = words.parse_args()
    program = [os.path.abspath(word) if os.path.exists(word) else word for word in shlex.split(given.program)]
    entries = failed = 0
    for seed in range(given.seed, given.seed + given.count):
        plan = plans.plan_of(seed)
        try:
            entries += check(program, plan)
        except replay.OutOfPlace as wrong:
            failed += 1
            print('seed %d: %s' % (seed, wrong))
    print('%d entries in their places' % entries)
    print('%d passed, %d failed' % (given.count - failed, failed))
    return 1 if failed else 0


if __name__ == '__main__':
    sys.exit(main())
