#!/usr/bin/env python3
"""Substreams are linked and parted while one client sleeps in a write, while another drains, and while a third starts.

    python3 relinks.py --program ../../crates/pcmlive/out/pcmlive --count 100

Each of the three plans is run so many times. Each run ends with status 0, and its logs play. Nobody waits for ever in them:
a client that can wait has a card that moves, and no stream stops for want of frames.
"""

import argparse
import collections
import os
import shlex
import sys

import compare
import replay

HEAD = """card s0 duplex p
card s1 duplex p
open c0 s0
hw c0 s0 RW_INTERLEAVED U8 1 8000 2 2
open c2 s1
hw c2 s1 RW_INTERLEAVED U8 1 8000 2 2
sw c0 s0 1 %d 1048576 0 0
sw c2 s1 1 %d 1048576 0 0
prepare c0 s0
prepare c2 s1
threads
"""
RELINKS = """link c1 s0 s1
unlink c1 s0
link c1 s1 s0
unlink c1 s0
"""
BEATS = """beat s0 2 60
beat s1 2 60
join
"""

# The buffer is full, so a write sleeps until the third client's start; the links are made before and after it.
SLEEPING = (HEAD % (1048576, 1048576)).replace('threads', 'writei c0 s0 n 01020304\nthreads') + RELINKS + 'writei c0 s0 b 0102030405060708\n' + RELINKS + 'start c1 s0\n' + RELINKS \
    + 'start c1 s0\nstatus c2 s1\n' + RELINKS + BEATS

# Both are written, and a drain starts them, so that a card has beats left for it whenever it comes.
DRAINING = HEAD % (1048576, 1048576) + 'writei c0 s0 n 01020304\nwritei c2 s1 n 05060708\ndrain c0 s0 b\ndrain c2 s1 b\n' + 8 * RELINKS + BEATS

# Both are started, stopped and prepared by their clients.
STARTING = HEAD % (1048576, 1048576) + ''.join(
    'start c0 s0\ndrop c0 s0\nprepare c0 s0\nstart c2 s1\ndrop c2 s1\nprepare c2 s1\n' + RELINKS for _ in range(8)) + BEATS

PLANS = {'sleeping': SLEEPING, 'draining': DRAINING, 'starting': STARTING}


def main():
    """The program."""
    words = argparse.ArgumentParser(description=__doc__, formatter_class=argparse.RawDescriptionHelpFormatter)
    words.add_argument('--program', required=True, help='the command that runs pcmlive')
    words.add_argument('--count', type=int, default=100)
    given = words.parse_args()
    program = [os.path.abspath(word) if os.path.exists(word) else word for word in shlex.split(given.program)]
    told = collections.Counter()
    for name, plan in PLANS.items():
        for _ in range(given.count):
            try:
                compare.check(program, plan.encode())
                told['passed'] += 1
            except replay.OutOfPlace as wrong:
                told['failed'] += 1
                print('%s: %s' % (name, wrong))
    print('%d passed, %d failed' % (told['passed'], told['failed']))
    return 1 if told['failed'] else 0


if __name__ == '__main__':
    sys.exit(main())
