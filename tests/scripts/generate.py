#!/usr/bin/env python3
"""Random scripts by a seed, with the files that they read.

    python3 generate.py --seed 7                    prints the script of that seed
    python3 generate.py --seed 7 --forms link,go    the same without these forms

A writer follows the model as it writes, so that most lines do something: it knows the state of each substream, the frames
that may move, and who sleeps. Some lines are drawn without looking, so that every form comes in every state. A form that
may be left out is a line's first word, or one of

    block              calls that sleep (mode b)
    capture            substreams of the direction c
    many               substreams other than s0
    malformed          lines that are none
    command-refine, command-play, command-capture, command-gen
"""

import argparse
import random
import sys
from typing import NamedTuple

import formats
from model import Ends, Run
from tables import (ACCESS_NUMBERS, CLOSED, DISCONNECTED, DRAINING, FORMAT_NUMBERS, MODELS, OPEN, PAUSED, PREPARED, RUNNING,
                    SETUP, SUSPENDED, XRUN, Configuration, allowed)
from wav import BITS_OF_FORMAT, Wav, write_wav

NO_CLIENT = ('move', 'irq', 'fail', 'give', 'unplug', 'feed', 'save', 'carry')
LONGEST_DATA = 2048


class Script(NamedTuple):
    """The words of a command, the bytes of its source, and the files beside it."""
    words: list
    source: bytes
    files: dict


def weights(text):
    """Words with their weights, from text in which they take turns."""
    parts = text.split()
    return dict(zip(parts[0::2], (int(part) for part in parts[1::2])))


# What a line should be in each state, so that the script goes on.
USEFUL = {
    CLOSED: weights('open 30 status 1 writei 1 move 1'),
    OPEN: weights('hw 30 sync 1 poll 1 close 1 status 1 write 1 unplug 1'),
    SETUP: weights('prepare 16 sw 6 mmap 3 link 8 hw 2 hwfree 1 drain 1 fail 2 give 3 unlink 1'),
    PREPARED: weights('write 16 read 10 start 7 sw 5 fail 2 give 4 feed 3 link 4 mmap 2 store 3 load 1 sync 2 rewind 2 '
                      'forward 3 drain 3 poll 1 suspend 1 pause 1'),
    RUNNING: weights('move 22 irq 16 write 14 read 14 status 3 page 2 hwsync 2 delay 2 rewind 3 forward 3 sync 2 drain 3 '
                     'pause 3 suspend 2 xrun 1 drop 1 poll 2 sw 2 store 2 load 2 give 3 feed 2 carry 3 save 1 unplug 1'),
    XRUN: weights('prepare 20 write 3 read 3 drop 2 drain 3 suspend 1 status 1 poll 1 rewind 1 link 1'),
    DRAINING: weights('move 20 irq 16 read 8 status 3 drop 1 pause 1 suspend 2 hwsync 2 rewind 2 poll 2 xrun 1 save 1 '
                      'link 1'),
    PAUSED: weights('release 16 write 4 read 4 drain 3 move 2 prepare 2 drop 1 rewind 2 status 1 poll 1 suspend 2 start 1 '
                    'link 2'),
    SUSPENDED: weights('resume 16 prepare 5 write 2 read 2 drop 1 move 1 drain 1 sw 1 poll 1 link 4'),
    DISCONNECTED: weights('close 8 unlink 8 munmap 4 status 2 poll 1 open 1 write 1 read 1 prepare 1 link 1 unplug 1 move 1'),
}

# What a line may be whatever the state, for each flavour of a script.
ANY = weights('open 1 close 1 hw 2 hwfree 1 sw 2 prepare 2 start 2 drop 1 pause 1 release 1 suspend 1 resume 1 xrun 1 drain 2 '
              'writei 3 writen 2 readi 3 readn 2 rewind 2 forward 2 hwsync 1 delay 1 status 2 page 1 poll 2 sync 2 mmap 1 '
              'munmap 1 store 2 load 2 link 1 unlink 1 move 4 irq 3 fail 2 unplug 1 give 2 feed 1 save 2 carry 1 card 1 '
              'long 1')
FLAVOURS = {
    'everything': ANY,
    'pointers': weights('rewind 8 forward 8 sync 6 delay 4 hwsync 4 status 3 page 3 poll 3 store 4 load 4 mmap 2 munmap 1'),
    'faults': weights('fail 8 pause 6 release 6 suspend 5 resume 6 start 6 prepare 3 drain 3 drop 2 move 4 irq 3'),
    'silence': weights('sw 6 move 10 irq 8 sync 2 rewind 2 forward 2 hwsync 2 load 3 start 2 drain 1'),
    'drains': weights('drain 8 move 8 irq 8 unlink 2 link 2 suspend 2 resume 2 drop 1 pause 2 release 2 write 6 prepare 3'),
    'crowd': weights('write 12 read 12 move 8 irq 8 rewind 3 forward 3 pause 2 release 2 sw 2 xrun 1 prepare 2 drop 1 sync 2 '
                     'unplug 1'),
    'setup': weights('hw 8 hwfree 4 close 4 open 4 prepare 5 sync 3 page 2 status 2 sw 3 write 3 read 2 start 2 unplug 2 '
                     'unlink 2 mmap 2 munmap 2'),
    'files': weights('save 8 feed 8 carry 8 give 4 move 8 irq 5 write 5 read 4 hw 2'),
    'kept': weights('suspend 8 resume 8 link 8 unlink 6 prepare 6 pause 5 release 4 start 5 write 5 drain 3 status 2'),
    'links': weights('link 10 unlink 8 start 5 prepare 5 drop 2 unplug 1 close 2 open 2 fail 2 drain 3 write 4'),
}
LONGS = [15, 16, 17, 20, 31, 32, 63, 64, 127, 255, 1023, 65535, 2 ** 31 - 1, 2 ** 36 - 1]
ODD_LONGS = [0, 14, 15, 16, 2 ** 36, 2 ** 63 - 1]


def random_bytes(rng, count):
    """So many bytes."""
    return bytes(rng.randrange(256) for _ in range(count))


def random_configuration(rng, model_name):
    """A configuration that the model allows, most often with a small buffer."""
    model = MODELS[model_name]
    while True:
        sizes = rng.choices([(1, 4), (1, 8), (16, 48), (1, 400)], [30, 10, 4 if model.period.least < 16 else 30, 1])[0]
        wanted = Configuration(
            rng.choices(list(ACCESS_NUMBERS), [2, 1, 6, 3])[0], rng.choice(model.formats),
            rng.choices([1, 2, rng.randint(1, model.channels.greatest)], [6, 3, 1])[0],
            rng.choice([8000, 11025, 44100, 48000, 96000, 192000]), rng.randint(*sizes),
            rng.choice([2, 2, 2, 3, 4, 5, 32]))
        if allowed(model, wanted):
            return wanted


def random_files(rng, configurations):
    """Files under the names a.wav to f.wav: some that fit a configuration, some that fit none, some that are broken."""
    files = {}
    for name, wanted in zip('abcd', configurations):
        if wanted.format in BITS_OF_FORMAT:
            frames = random_bytes(rng, wanted.frame_bytes * rng.randint(0, 3 * min(wanted.buffer, 40)))
            files[name + '.wav'] = write_wav(Wav(wanted.format, wanted.channels, wanted.rate, frames))
    files['e.wav'] = write_wav(Wav(rng.choice(list(BITS_OF_FORMAT)), rng.randint(1, 8), rng.choice([8000, 22050]),
                                   random_bytes(rng, rng.choice([0, 96, 5 * 96]))))
    files['f.wav'] = bent_file(rng, files[rng.choice(list(files))])
    return files


def bent_file(rng, data):
    """A file that is cut off, or has other bytes somewhere, or a chunk more."""
    way = rng.randrange(5)
    if way == 4:
        at = rng.choice([16, 20, 22, 32, 34, 36, 38])
        return data[:at] + bytes([rng.choice([0, 1, 2, 8, 9, 16, 24, 25, 32, 33, 40, 254])]) + data[at + 1:]
    if way == 0:
        return data[:rng.randrange(len(data))]
    if way == 1:
        at = rng.randrange(min(len(data), 60))
        return data[:at] + random_bytes(rng, 1) + data[at + 1:]
    if way == 2:
        body = random_bytes(rng, rng.randrange(6))
        extra = rng.choice([b'LIST', b'fmt ', b'data', b'cue ']) + len(body).to_bytes(4, 'little') + body
        at = rng.choice([12, 36])
        return data[:at] + extra + bytes(len(body) % 2) + data[at:]
    return data + random_bytes(rng, rng.randrange(9))


class Writer:
    """Writes one script and follows it in the model."""

    def __init__(self, rng, left_out, length):
        """The length is the most lines that are written."""
        self.rng = rng
        self.left_out = left_out
        self.length = length
        self.lines = []
        self.ended = False
        self.flavour = FLAVOURS[rng.choice(list(FLAVOURS))]
        self.subs = [0] if 'many' in left_out else rng.sample(range(16), rng.choices([1, 2, 3, 4], [4, 3, 2, 2])[0])
        self.clients = rng.sample(range(16), rng.choice([1, 2, 3]))
        self.block_share = 0.0 if 'block' in left_out else rng.choice([0.0, 0.2, 0.5, 0.9])
        self.guess_share = rng.choice([0.05, 0.2, 0.4])
        self.cards = {sub: (rng.choice(list(MODELS)), self.direction()) for sub in self.subs}
        self.configurations = {sub: random_configuration(rng, self.cards[sub][0]) for sub in self.subs}
        self.make_alike()
        self.files = random_files(rng, self.configurations.values())
        self.run = Run(dict(self.files))

    def chance(self, share):
        """True in this share of the cases."""
        return self.rng.random() < share

    def direction(self):
        """The direction of a card."""
        return 'p' if 'capture' in self.left_out else self.rng.choice('ppc')

    def make_alike(self):
        """Often all substreams have one model and one configuration, so that frames fit everywhere."""
        first = self.subs[0]
        if self.chance(0.6):
            for sub in self.subs:
                self.cards[sub] = (self.cards[first][0], self.cards[sub][1])
                self.configurations[sub] = self.configurations[first]

    def emit(self, text):
        """Writes a line, unless its form is left out, and lets the model execute it."""
        raw = text if isinstance(text, bytes) else text.encode()
        if self.ended or raw.split(b' ')[0].decode('latin-1') in self.left_out:
            return
        self.lines.append(raw)
        try:
            self.run.line(len(self.lines), raw)
        except Ends:
            self.ended = True

    @property
    def world(self):
        """The model's world as the script has left it."""
        return self.run.world

    # Parts of lines

    def client(self):
        """A client, rarely one with a call in progress."""
        free = [client for client in self.clients if client not in self.world.calls]
        return self.rng.choice(free) if free and self.chance(0.95) else self.rng.choice(self.clients)

    def mode(self):
        """b or n."""
        return 'b' if self.chance(self.block_share) else 'n'

    def data(self, stream, most):
        """Hexadecimal digits for up to so many frames, rarely for parts of one."""
        frame = stream.frame_bytes or 1
        count = self.rng.choice([0, 1, 1, 2, 3, most, self.rng.randint(0, max(0, most))])
        size = min(max(0, count) * frame, LONGEST_DATA // frame * frame)
        if self.chance(0.03):
            size += self.rng.randint(1, frame)
        return formats.hex_text(random_bytes(self.rng, size))

    def count(self, stream, bound):
        """A count of frames around a bound."""
        near = [0, 1, 1, 2, 3, bound, bound, bound + 1, bound - 1, stream.buffer, stream.buffer + 1]
        return max(0, self.rng.choice(near))

    # Lines of each form

    def long_max(self):
        """A LONG_MAX, most often a small one that the buffers leave room for."""
        if self.chance(0.05):
            return self.rng.choice(ODD_LONGS)
        least = 4 * max(wanted.buffer for wanted in self.configurations.values())
        more = [number for number in LONGS if number >= least]
        return self.rng.choice([least, least, least + 1, 2 * least - 1, 3 * least, 4 * least] + more[:3] + more[-1:])

    def form_hw(self, stream):
        """hw_params, most often with the configuration chosen for this substream."""
        wanted = self.configurations[stream.number]
        other = random_configuration(self.rng, self.cards[stream.number][0])
        if self.chance(0.25) and (4 * other.buffer <= self.world.long_max or self.chance(0.2)):
            wanted = other
        if self.chance(0.08):
            field = self.rng.choice(Configuration._fields)
            values = {'access': list(ACCESS_NUMBERS), 'format': list(FORMAT_NUMBERS), 'channels': [0, 3, 8, 9, 2 ** 62],
                      'rate': [0, 3999, 7999, 48001, 96001, 192001], 'period': [0, 1, 8193, 32769, 2 ** 62],
                      'periods': [0, 1, 2, 32, 33, 2 ** 62]}[field]
            wanted = wanted._replace(**{field: self.rng.choice(values)})
        return '%s %s %d %d %d %d' % wanted

    def form_sw(self, stream):
        """sw_params around the sizes of the buffer and the boundary."""
        rng, buffer, boundary = self.rng, stream.buffer, stream.boundary
        near = [0, 1, 2, max(0, buffer - 1), buffer, buffer + 1, boundary]
        stop = [buffer, buffer, buffer + 1, boundary, boundary, max(0, boundary - 1)] + near + [2 ** 63 - 1]
        threshold = rng.randint(0, buffer)
        silence = rng.choice([(0, 0), (0, 0), (0, boundary), (threshold, rng.randint(0, threshold)), (buffer, buffer),
                              (threshold, threshold), (rng.choice(near), rng.choice(near)), (0, 2 ** 63 - 1)])
        avail_min, start = rng.choice([1, 1, 2, 3] + near), rng.choice([1, 1, 3] + near)
        return '%d %d %d %d %d' % ((avail_min, start, rng.choice(stop)) + silence)

    def form_write(self, stream):
        """A write of about as many frames as are available."""
        return '%s %s' % (self.mode(), self.data(stream, self.count(stream, stream.available)))

    def form_read(self, stream):
        """A read of about as many frames as are available."""
        count = self.count(stream, stream.available)
        if self.chance(0.02):
            count = self.rng.choice([1048576, 1048577])
        return '%s %d' % (self.mode(), count)

    def form_rewind(self, stream):
        """A rewind around what is queued."""
        return str(2 ** 63 - 1 if self.chance(0.02) else self.count(stream, stream.queued))

    def form_forward(self, stream):
        """A forward around what is available."""
        return str(2 ** 63 - 1 if self.chance(0.02) else self.count(stream, stream.available))

    def form_sync(self, stream):
        """A pointer near the two that are shown, or near the boundary."""
        near = self.rng.choice([stream.shown(stream.application), stream.shown(stream.hardware), 0, stream.boundary])
        pointer = near + self.rng.choice([0, 0, 1, 2, -1, -2, stream.buffer])
        if self.chance(0.8) and stream.boundary:
            pointer %= stream.boundary
        return str(max(0, pointer))

    def form_store(self, stream):
        """A place in the buffer, and frames."""
        offset = self.rng.randint(0, stream.buffer + 1)
        return '%d %s' % (offset, self.data(stream, max(0, stream.buffer - offset)))

    def form_load(self, stream):
        """A place in the buffer, and a count."""
        offset = self.rng.randint(0, stream.buffer + 1)
        return '%d %d' % (offset, self.rng.choice([0, 1, max(0, stream.buffer - offset), 2]))

    def form_link(self, stream):
        """Another substream, rarely one that is not declared or the same one."""
        others = [sub for sub in self.subs if sub != stream.number] or self.subs
        return 's%d' % (self.rng.randrange(16) if self.chance(0.05) else self.rng.choice(others))

    def form_carry(self, stream):
        """A capture substream, rarely another one."""
        captures = [sub for sub, other in self.world.streams.items() if not other.playback]
        return 's%d' % self.rng.choice(captures) if captures and self.chance(0.95) else self.form_link(stream)

    def form_move(self, stream):
        """A movement that the room allows, or one that is too long."""
        room = max(0, stream.buffer - 1 - stream.pending)
        period = stream.configuration.period if stream.configuration else 1
        return str(self.rng.choice([1, 1, 2, 3, period, room, room, self.rng.randint(0, room), room + 1]))

    def form_give(self, stream):
        """Frames for a capture card."""
        return self.data(stream, 2 * stream.buffer)

    def form_feed(self, stream):
        """A file, rarely one that is not there."""
        good = [name for name in self.run.files if name != 'f.wav']
        bent = 0.2 if self.flavour is FLAVOURS['files'] else 0.05
        return 'none.wav' if self.chance(0.02) else 'f.wav' if self.chance(bent) else self.rng.choice(good)

    def form_save(self, stream):
        """The name of a new file or of one that is there."""
        return self.rng.choice(['out.wav', 'out.wav', 'a.wav', 'x', '-', 'a-b_c.1'])

    def form_drain(self, stream):
        """The mode."""
        return self.mode()

    def form_fail(self, stream):
        """The number of a trigger."""
        return str(self.rng.choice([1, 1, 1, 1, 2, 2, 3, 64, 0, 65]))

    def card_line(self):
        """A declaration, of one that may be declared already."""
        sub = self.rng.choice(self.subs)
        return 'card s%d %s %s' % (sub, self.rng.choice(list(MODELS)), self.direction())

    def transfer_word(self, stream, word):
        """The word of a write or read that fits the substream, or rarely one that does not."""
        if self.chance(0.95):
            word = 'write' if stream.playback else 'read'
        planar = stream.configuration is not None and stream.configuration.access == 'RW_NONINTERLEAVED'
        if self.chance(0.03):
            planar = not planar
        return word + ('n' if planar else 'i')

    def line(self, stream, word):
        """A line with this first word about the substream."""
        if word == 'card':
            return self.card_line()
        if word == 'long':
            return 'long %d' % self.rng.choice(LONGS)
        if word in ('write', 'read'):
            word = self.transfer_word(stream, word)
        names = {'writei': 'write', 'writen': 'write', 'readi': 'read', 'readn': 'read'}
        form = getattr(self, 'form_' + names.get(word, word), None)
        parts = [word] if word in NO_CLIENT else [word, 'c%d' % self.client()]
        parts.append('s%d' % stream.number)
        return ' '.join(parts + ([form(stream)] if form else []))

    # The script

    def go_line(self):
        """Lets a client go on, most often one that was woken; None where nobody has a call in progress."""
        calls = self.world.calls
        awake = [client for client, call in calls.items() if not call.asleep]
        if awake and self.chance(0.5):
            return 'go c%d' % self.rng.choice(awake)
        if calls and self.chance(0.08):
            return 'go c%d' % self.rng.choice(list(calls))
        return 'go c%d' % self.rng.choice(self.clients) if self.chance(0.005) else None

    def random_line(self):
        """The next line."""
        going = self.go_line()
        if going is not None:
            return going
        sub = self.rng.choice(self.subs)
        if sub not in self.world.streams:
            return 'card s%d %s %s' % ((sub,) + self.cards[sub])
        stream = self.world.streams[sub]
        words = self.flavour if self.chance(self.guess_share) else USEFUL[stream.state]
        words = ANY if self.chance(0.03) else words
        word = self.rng.choices(list(words), list(words.values()))[0]
        return self.line(stream, self.fitting_word(stream, word) if self.chance(0.85) else word)

    def fitting_word(self, stream, word):
        """The word, or another one where it could only be refused."""
        mapped = stream.configuration is not None and not stream.fitting_layout(planar=False) and \
            stream.configuration.access.startswith('MMAP')
        if word in ('write', 'read', 'store', 'load') and mapped:
            word = 'mmap' if stream.mappings == 0 else self.rng.choice(['store', 'load', 'forward', 'forward', 'sync'])
        elif word in ('mmap', 'store', 'load') and stream.mappings == 0:
            mmap_access = stream.configuration is not None and stream.configuration.access.startswith('MMAP')
            word = 'mmap' if mmap_access else 'write' if stream.playback else 'read'
        if word in ('give', 'feed', 'store') and stream.playback != (word == 'store'):
            word = 'forward'
        if word == 'start' and stream.playback and stream.state == PREPARED and stream.available >= stream.buffer:
            word = 'forward' if mapped else 'write'
        if word in ('link', 'carry') and len(self.subs) == 1:
            word = 'status'
        if word == 'carry' and not stream.playback:
            word = 'move'
        return word

    def link_suspended(self):
        """Two substreams are linked while they are suspended in different states, and resumed together."""
        first, second = self.rng.sample(self.subs, 2)
        for word, sub in (('unlink', first), ('unlink', second), ('pause', self.rng.choice([first, second])),
                          ('suspend', first), ('suspend', second), ('link', first), ('resume', second)):
            target = ' s%d' % second if word == 'link' else ''
            self.emit('%s c%d s%d%s' % (word, self.client(), sub, target))
        word = self.rng.choice(['prepare', 'prepare', 'drain', 'drop', 'suspend', 'release', 'start'])
        mode = ' ' + self.mode() if word == 'drain' else ''
        self.emit('%s c%d s%d%s' % (word, self.client(), self.rng.choice([first, second]), mode))

    def setup_lines(self):
        """The lines before the first call, and most often the way to a prepared stream."""
        if self.chance(0.15):
            self.emit('version %d' % self.rng.choice([1, 2, 2, 2]))
        if self.chance(0.65):
            self.emit('long %d' % self.long_max())
        if self.chance(0.85):
            for sub in self.subs:
                self.emit('card s%d %s %s' % ((sub,) + self.cards[sub]))
                self.emit('open c%d s%d' % (self.client(), sub))
                self.emit('hw c%d s%d %s %s %d %d %d %d' % ((self.client(), sub) + self.configurations[sub]))
            if len(self.subs) > 1 and self.chance(0.2 if self.flavour is FLAVOURS['kept'] else 0.7):
                for sub in self.subs[1:]:
                    self.emit('link c%d s%d s%d' % (self.client(), self.subs[0], sub))
            for sub in self.subs:
                self.emit('prepare c%d s%d' % (self.client(), sub))

    def script(self):
        """The whole script."""
        self.setup_lines()
        malformed_at = -1
        if 'malformed' not in self.left_out and self.chance(0.06):
            malformed_at = len(self.lines) + self.rng.randrange(self.length)
        while len(self.lines) < self.length and not self.ended:
            if len(self.lines) == malformed_at:
                self.emit(malformed(self.rng, self.random_line()))
            elif len(self.subs) > 1 and self.chance(0.02):
                self.link_suspended()
            elif self.run.version == 2 and self.chance(0.05):
                self.emit(self.rng.choice(['', '# a remark', '#', '#open c0']))
            else:
                self.emit(self.random_line())
        source = b''.join(line + b'\n' for line in self.lines)
        return Script(['run'], source[:-1] if self.chance(0.05) else source, self.files)


def malformed(rng, text):
    """A line like this one with something wrong."""
    pieces = text.encode().split(b' ')
    at = rng.randrange(len(pieces))
    bad = [b'', b'01', b'-1', b'+1', b'9223372036854775808', b'c16', b's16', b'c01', b'S0', b'U16_LE', b'0', b'0G', b'abc',
           b'x.Y', b'.wav', b'\xff', b'\t', b'n\r', b'1.0', b'wire', b'space']
    way = rng.randrange(5)
    if way == 0:
        return b' '.join(pieces[:-1])
    if way == 1:
        return b' '.join(pieces + [rng.choice(bad)])
    if way == 2:
        return b' '.join(pieces[:at] + [rng.choice(bad)] + pieces[at:])
    if way == 3:
        return rng.choice([b'beat s0 1 1', b'beat s0 x', b'threads', b'join', b'wire s0 s1', b'wire s0 x', b'', b' ', b'#',
                           b'version 1', b'version 01', b'space basic 1', text.encode() + b'\r', text.encode().upper()])
    return b' '.join(pieces[:at] + [rng.choice(bad)] + pieces[at + 1:])


def random_span(rng, values):
    """Two numbers that are most often in order, and often far apart."""
    least, greatest = rng.choice(values), rng.choice(values)
    if rng.random() < 0.75:
        return min(values), max(values)
    return (least, greatest) if rng.random() < 0.03 else (min(least, greatest), max(least, greatest))


def random_space(rng):
    """A line of the command refine."""
    top = 2 ** 63 - 1
    values = [[1, 2, 3, 4, 8, 0, 9, top], [1, 4000, 8000, 44100, 48000, 96000, 96001, 192000, 200000, top],
              [1, 2, 3, 7, 16, 100, 1000, 8192, 20000, 32768, top, 0], [1, 2, 3, 5, 16, 31, 32, 33, top, 0],
              [3, 4, 5, 17, 64, 1000, 4096, 16384, 65521, 65535, 65536, 65537, top, 0]]
    masks = [rng.choice([27, 27, 27, 8, 1, 2, 16, 4, 0, 31, top]),
             rng.choice([6, 4, 4, 2 ** 32, 1, 1024, 2048, 64, 8, 0, top, top, 2 ** 32 + 1028, 70])]
    spans = [number for choices in values for number in random_span(rng, choices)]
    return 'space %s %s' % (rng.choice(list(MODELS)), ' '.join(str(number) for number in masks + spans))


def refine_script(rng, left_out):
    """Lines of the command refine."""
    lines = [random_space(rng).encode() for _ in range(rng.randint(1, 30))]
    if 'malformed' not in left_out and rng.random() < 0.2:
        lines.insert(rng.randrange(len(lines)), malformed(rng, random_space(rng)))
    return Script(['refine'], b''.join(line + b'\n' for line in lines), {})


def file_script(rng, name):
    """The command play or capture over a file."""
    wanted = random_configuration(rng, 'duplex')._replace(format=rng.choice(list(BITS_OF_FORMAT)))
    frames = random_bytes(rng, wanted.frame_bytes * rng.choice([0, 1, 7, 100, 5000]))
    data = write_wav(Wav(wanted.format, wanted.channels, wanted.rate, frames))
    files = {'in.wav': bent_file(rng, data) if rng.random() < 0.15 else data}
    target = rng.choice(['out.wav', 'out.wav', 'in.wav'])
    source = 'none.wav' if rng.random() < 0.03 else 'in.wav'
    numbers = [wanted.period, wanted.periods] if name == 'play' else [rng.choice([0, 1, 5, 100, 1024, 6000])]
    if rng.random() < 0.15:
        numbers[rng.randrange(len(numbers))] = rng.choice([0, 1, 33, 40000, 2 ** 63 - 1, 2 ** 63])
    return Script([name, source, target] + [str(number) for number in numbers], b'', files)


def make(seed, left_out=frozenset()):
    """The script of this seed without the forms that are left out."""
    rng = random.Random(seed)
    command = rng.choices(['run', 'refine', 'play', 'capture', 'gen'], [90, 4, 3, 3, 0.2])[0]
    if 'command-' + command in left_out or command == 'run':
        return Writer(rng, left_out, rng.choice([20, 40, 60, 100, 160])).script()
    if command == 'refine':
        return refine_script(rng, left_out)
    if command == 'gen':
        return Script(['gen', rng.choice(['0', '1', '2', '1001', '01', 'x'])], b'', {})
    return file_script(rng, command)


def main():
    """Prints the script of a seed."""
    parser = argparse.ArgumentParser(description=__doc__, formatter_class=argparse.RawDescriptionHelpFormatter)
    parser.add_argument('--seed', type=int, default=1)
    parser.add_argument('--forms', default='', help='forms to leave out, with commas between them')
    arguments = parser.parse_args()
    script = make(arguments.seed, frozenset(arguments.forms.split(',')))
    sys.stdout.buffer.write(b'# words: ' + ' '.join(script.words).encode() + b'\n' + script.source)
    for name, data in sorted(script.files.items()):
        print('# file %s: %s' % (name, data.hex()))


if __name__ == '__main__':
    main()
