#!/usr/bin/env python3
"""Random plans of live runs by a seed.

    python3 plans.py --seed 7        prints the plan of that seed

A plan of the first kind does all that a client can do, with calls that never wait, while its substreams are linked and parted. In
one of the second kind clients write and drain with calls that wait, and the cards move as much as was written: nobody
waits for ever.
"""

import argparse
import random

CONFIGURATIONS = ['RW_INTERLEAVED U8 1 8000 2 2', 'RW_INTERLEAVED U8 1 8000 4 4', 'RW_INTERLEAVED S16_LE 2 48000 4 2']
FRAME_BYTES = [1, 1, 4]
BUFFERS = [4, 16, 8]


class Plan:
    """A plan as it is written."""

    def __init__(self, rng):
        """Its cards, all of one configuration, so that they can be linked."""
        self.rng = rng
        self.kind = rng.randrange(len(CONFIGURATIONS))
        self.count = rng.choice([1, 2, 2, 3, 4])
        self.directions = [rng.choice('ppc') for _ in range(self.count)]
        self.setup, self.work, self.end = [], [], []

    def data(self, most):
        """The bytes of at most so many frames."""
        count = self.rng.randint(1, most) * FRAME_BYTES[self.kind]
        return bytes(self.rng.randrange(256) for _ in range(count)).hex()

    def text(self):
        """The plan's bytes."""
        cards = ['card s%d duplex %s' % (sub, self.directions[sub]) for sub in range(self.count)]
        lines = cards + self.setup + ['threads'] + self.work + ['join'] + self.end
        return ('\n'.join(lines) + '\n').encode()

    def open_all(self, owners):
        """Each substream is opened and set up by its client."""
        for sub, client in enumerate(owners):
            self.setup.append('open c%d s%d' % (client, sub))
            self.setup.append('hw c%d s%d %s' % (client, sub, CONFIGURATIONS[self.kind]))


def mixed_call(plan, client):
    """A call of any kind that does not wait."""
    rng, sub = plan.rng, plan.rng.randrange(plan.count)
    other = rng.randrange(plan.count)
    buffer = BUFFERS[plan.kind]
    calls = {
        'link c%d s%d s%d' % (client, sub, other): 5, 'unlink c%d s%d' % (client, sub): 4, 'prepare c%d s%d' % (client, sub): 6,
        'writei c%d s%d n %s' % (client, sub, plan.data(buffer + 2)): 8, 'readi c%d s%d n %d' % (client, sub, rng.randint(0, buffer)): 4,
        'start c%d s%d' % (client, sub): 4, 'drop c%d s%d' % (client, sub): 2, 'drain c%d s%d n' % (client, sub): 2,
        'pause c%d s%d' % (client, sub): 2, 'release c%d s%d' % (client, sub): 2, 'suspend c%d s%d' % (client, sub): 1,
        'resume c%d s%d' % (client, sub): 1, 'xrun c%d s%d' % (client, sub): 1, 'status c%d s%d' % (client, sub): 3,
        'page c%d s%d' % (client, sub): 1, 'delay c%d s%d' % (client, sub): 1, 'rewind c%d s%d 1' % (client, sub): 1,
        'forward c%d s%d 1' % (client, sub): 1, 'hwsync c%d s%d' % (client, sub): 1, 'poll c%d s%d' % (client, sub): 1,
        'sw c%d s%d 1 %d %d 0 0' % (client, sub, rng.choice([1, 2, 5]), rng.choice([buffer, 2 ** 20])): 2,
        'open c%d s%d' % (client, sub): 1, 'close c%d s%d' % (client, sub): 1,
        'hw c%d s%d %s' % (client, sub, CONFIGURATIONS[plan.kind]): 2, 'hwfree c%d s%d' % (client, sub): 1,
    }
    return rng.choices(list(calls), list(calls.values()))[0]


def mixed(rng):
    """Clients do all that does not wait, on all substreams."""
    plan = Plan(rng)
    clients = rng.sample(range(16), rng.randint(1, 4))
    plan.open_all([rng.choice(clients) for _ in range(plan.count)])
    for sub in range(plan.count):
        if rng.random() < 0.7:
            plan.setup.append('prepare c%d s%d' % (clients[0], sub))
        if rng.random() < 0.3:
            plan.setup.append('fail s%d %d' % (sub, rng.randint(1, 3)))
    for sub in range(1, plan.count):
        if rng.random() < 0.3:
            plan.setup.append('link c%d s0 s%d' % (clients[0], sub))
    for _ in range(rng.randint(5, 60)):
        plan.work.append(mixed_call(plan, rng.choice(clients)))
    for sub in range(plan.count):
        if rng.random() < 0.8:
            plan.work.append('beat s%d %d %d' % (sub, rng.randint(1, 3), rng.randint(1, 20)))
        if rng.random() < 0.3:
            plan.end.append('save s%d s%d.wav' % (sub, sub))
    return plan.text()


def waiting(rng):
    """Each substream has a client that writes with waiting calls and drains, while its card moves enough; links come in between."""
    plan = Plan(rng)
    plan.directions = ['p'] * plan.count
    plan.open_all(list(range(plan.count)))
    buffer = BUFFERS[plan.kind]
    beat = max(1, buffer // 2)
    for sub in range(plan.count):
        plan.setup.append('sw c%d s%d 1 1 %d 0 0' % (sub, sub, 2 ** 20))
        plan.setup.append('prepare c%d s%d' % (sub, sub))
    if rng.random() < 0.5:
        for sub in range(1, plan.count):
            plan.setup.append('link c0 s0 s%d' % sub)
    lines = {sub: ['writei c%d s%d b %s' % (sub, sub, plan.data(3 * buffer)) for _ in range(rng.randint(1, 6))] for sub in range(plan.count)}
    for sub in lines:
        if rng.random() < 0.5:
            lines[sub].append('status c%d s%d' % (sub, sub))
        lines[sub].append(rng.choice(['unlink c%d s%d', 'status c%d s%d']) % (sub, sub))
    pending = [sub for sub, calls in lines.items() for _ in calls]
    rng.shuffle(pending)
    for sub in pending:
        plan.work.append(lines[sub].pop(0))
    for sub in range(plan.count):
        plan.work.append('beat s%d %d %d' % (sub, beat, 60 * plan.count))
    return plan.text()


def plan_of(seed):
    """The plan of a seed."""
    rng = random.Random(seed)
    return rng.choice([mixed, mixed, waiting])(rng)


def main():
    """The program."""
    words = argparse.ArgumentParser(description=__doc__)
    words.add_argument('--seed', type=int, default=1)
    print(plan_of(words.parse_args().seed).decode(), end='')


if __name__ == '__main__':
    main()
