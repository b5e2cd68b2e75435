"""Random scripts that a kernel can play, of twelve kinds, so that every difference is met.

The writer is that of `tests/scripts/generate.py`, which follows a model as it writes. Here half of the scripts follow the
profile and half the kernel's model, since the two soon stand in other states.
"""

import random
from typing import NamedTuple

import differences
import generate
import kernel
from generate import FLAVOURS, weights
from tables import PREPARED

# No call of the kernel has these.
NOT_PLAYED = ('unplug', 'feed', 'save', 'carry')
LEFT_OUT = frozenset(NOT_PLAYED + ('malformed',))
LONGEST_READ = 9000
STARTABLE = ('groups', 'faults', 'drains')
WAITING = ('crowd', 'sleepers')
OFTEN = ('basic', 'duplex')


class Kind(NamedTuple):
    """What the scripts of a kind are like: words drawn without looking, counts of substreams, directions, and shares."""
    words: dict
    counts: list
    directions: str
    block_shares: list
    guess_shares: list


KINDS = {
    'playback': Kind(FLAVOURS['everything'], [1], 'p', [0.0], [0.05, 0.2]),
    'capture': Kind(FLAVOURS['everything'], [1], 'c', [0.0], [0.05, 0.2]),
    'pointers': Kind(FLAVOURS['pointers'], [1], 'pc', [0.0], [0.4]),
    'sleepers': Kind(FLAVOURS['everything'], [1, 1, 2], 'ppc', [0.3, 0.8], [0.05, 0.2]),
    'groups': Kind(FLAVOURS['links'], [2, 2, 3, 4], 'ppc', [0.0, 0.0, 0.1], [0.05, 0.2]),
    'all': Kind(FLAVOURS['everything'], [1, 2, 2, 3, 3, 5, 16], 'pc', [0.1, 0.4, 0.8], [0.05, 0.2, 0.4]),
    'faults': Kind(weights('fail 10 pause 10 release 9 suspend 6 resume 9 start 8 prepare 4 drop 3 move 4 irq 2 status 1 '
                           'forward 4 drain 2 hwfree 1'), [1, 2, 3, 4], 'ppc', [0.0, 0.2], [0.6]),
    'drains': Kind(FLAVOURS['drains'], [2, 3, 4], 'pppc', [0.8], [0.4]),
    'silence': Kind(FLAVOURS['silence'], [1], 'p', [0.1], [0.5]),
    'crowd': Kind(weights('write 12 read 12 move 8 irq 8 rewind 3 forward 3 pause 4 release 3 sw 2 xrun 1 prepare 4 drop 1 '
                          'sync 2'), [1, 1, 2], 'pc', [0.9], [0.4]),
    'edges': Kind(weights('sw 8 sync 6 start 3 write 10 read 6 move 6 irq 4 forward 3 rewind 3 prepare 4 drain 3 poll 2 '
                          'hwsync 2 pause 2 release 2 load 1'), [1, 1, 2], 'pc', [0.6], [0.5]),
    'reopen': Kind(FLAVOURS['setup'], [1, 2], 'pc', [0.1], [0.4]),
}


class Writer(generate.Writer):
    """Writes one script of a kind; it follows the kernel with these differences, or the profile where there are none."""

    def __init__(self, rng, kind, length, on):
        """The length is the most lines that are written."""
        super().__init__(rng, LEFT_OUT, length)
        self.kind = kind
        each = KINDS[kind]
        self.flavour, self.directions = each.words, each.directions
        self.subs = rng.sample(range(16), rng.choice(each.counts))
        self.block_share, self.guess_share = rng.choice(each.block_shares), rng.choice(each.guess_shares)
        self.clients = rng.sample(range(16), rng.choice([2, 3, 4, 6]))
        models = [model for model in generate.MODELS for _ in range(4 if model in OFTEN else 1)]
        self.cards = {sub: (rng.choice(models), self.direction()) for sub in self.subs}
        self.configurations = {sub: generate.random_configuration(rng, self.cards[sub][0]) for sub in self.subs}
        self.make_alike()
        if on:
            self.run.world = kernel.World(on)

    def direction(self):
        """The direction of a card."""
        return self.rng.choice(getattr(self, 'directions', 'pc'))

    def emit(self, text):
        """Writes a line; a script ends where the kernel would not come back, or is set up under a call."""
        try:
            super().emit(text)
        except differences.Hang:
            self.ended = True
        self.ended = self.ended or getattr(self.world, 'cut', False)

    def setup_lines(self):
        """As for any script; then often what lets a whole group start, or lets clients sleep before a start."""
        super().setup_lines()
        prepared = [stream for _, stream in sorted(self.world.streams.items()) if stream.state == PREPARED]
        if not prepared or self.chance(0.25):
            return
        if self.kind in STARTABLE:
            self.make_startable(prepared)
        if self.kind in WAITING:
            for stream in prepared:
                self.emit('sw c%d s%d %d %d %d 0 0' % (self.client(), stream.number, self.rng.choice([1, 2, stream.buffer]),
                                                     stream.buffer + 1, self.rng.choice([stream.buffer, stream.boundary])))

    def make_startable(self, prepared):
        """Frames in all playback streams, no stop at an underrun, and a start."""
        for stream in prepared:
            self.emit('sw c%d s%d 1 %d %d 0 0' % (self.client(), stream.number, stream.buffer + 1, stream.boundary))
            if stream.playback:
                self.emit('forward c%d s%d %d' % (self.client(), stream.number, self.rng.randint(1, stream.buffer)))
        self.emit('start c%d s%d' % (self.client(), prepared[0].number))

    def form_sw(self, stream):
        """Software parameters that a kind needs."""
        rng, buffer, boundary = self.rng, stream.buffer, stream.boundary
        if self.kind == 'edges' and buffer:
            near = [0, 1, 2, buffer, buffer + 1, boundary]
            return '%d %d %d 0 0' % (rng.choice([1, 1, 2, 3, buffer]), rng.choice(near), rng.choice(near + [0, buffer - 1]))
        if self.kind != 'silence' or not buffer or self.chance(0.2):
            return super().form_sw(stream)
        threshold = rng.randint(0, buffer)
        silence = rng.choice([(0, boundary), (0, boundary), (threshold, rng.randint(0, threshold)), (threshold, threshold),
                              (buffer, buffer), (buffer, rng.randint(0, buffer))])
        stop = rng.choice([boundary, boundary, buffer, buffer - 1])
        return '1 %d %d %d %d' % ((rng.choice([1, 1, 2, buffer + 1]), stop) + silence)

    def form_read(self, stream):
        """A read that does not fill pages with zeros."""
        count = self.count(stream, stream.available)
        return '%s %d' % (self.mode(), 1048577 if self.chance(0.01) else min(count, LONGEST_READ))

    def form_give(self, stream):
        """Frames for a capture card, of which there are to be some."""
        return self.data(stream, min(2 * stream.buffer, 400))

    def lines_written(self):
        """The lines of the whole script."""
        self.script()
        return self.lines


def make(seed, on, kind=None, length=120):
    """The script of this seed: its kind, and its lines."""
    rng = random.Random('linux %d' % seed)
    kind = kind or list(KINDS)[seed % len(KINDS)]
    follows_kernel = rng.random() < 0.5
    length = rng.choice([length // 4, length // 2, length])
    return kind, Writer(rng, kind, length, on if follows_kernel else frozenset()).lines_written()
