"""The scripts and the files that the cases use."""

import os
import sys

HERE = os.path.dirname(os.path.abspath(__file__))
sys.path.insert(0, os.path.join(os.path.dirname(HERE), 'scripts'))

import model  # noqa: E402  the plain model's modules
from wav import Wav, write_wav  # noqa: E402


def opened(sub, model, direction, configuration):
    """Client and substream of one number, set up and prepared."""
    return ('card s%d %s %s\nopen c%d s%d\nhw c%d s%d RW_INTERLEAVED %s\nprepare c%d s%d\n'
            % (sub, model, direction, sub, sub, sub, sub, configuration, sub, sub))


def each_turn(sub, count, frame_bytes, frames):
    """One frame ahead; then so many turns, in each of which frames are written, taken by the card, and told."""
    ahead = 'writei c%d s%d n %s\n' % (sub, sub, '55' * frame_bytes)
    for turn in range(count):
        data = bytes((turn * 31 + i) % 251 for i in range(frames * frame_bytes)).hex()
        yield ahead + 'writei c%d s%d n %s\nmove s%d %d\nirq s%d\n' % (sub, sub, data, sub, frames, sub)
        ahead = ''


def turns(sub, count, frame_bytes, frames):
    """These turns as one text."""
    return ''.join(each_turn(sub, count, frame_bytes, frames))


SMALL = 'U8 1 8000 2 2'
MIDDLE = 'U8 1 8000 2048 4'
LARGE = 'S32_LE 8 8000 8192 8'

WORKED = opened(0, 'basic', 'p', SMALL) + 'writei c0 s0 n 01020304\nmove s0 3\nirq s0\nstatus c0 s0\n'

# Answers of some 320,000 bytes, in lines of 8,000.
TALK = opened(0, 'duplex', 'p', MIDDLE) + turns(0, 40, 1, 4000)

SAVED = WORKED + 'save s0 out.wav\nstatus c0 s0\n'

# A file of some 100,000 bytes.
SAVED_LONG = opened(0, 'duplex', 'p', MIDDLE) + turns(0, 25, 1, 4000) + 'save s0 out.wav\nstatus c0 s0\n'

RECORDING = opened(1, 'basic', 'c', SMALL)
FED = RECORDING + 'feed s1 in.wav\nstart c1 s1\nmove s1 3\nirq s1\nreadi c1 s1 n 3\n'


LARGE_ONE = opened(0, 'duplex', 'p', LARGE) + 'writei c0 s0 n %s\nmove s0 1\n' % ('11' * 64)
SIXTEEN = ''.join(opened(number, 'duplex', 'p', LARGE) for number in range(16))
LONG_LINE = opened(0, 'duplex', 'p', LARGE) + 'writei c0 s0 n %s\n' % ('11' * (1 << 20))
LONG_FEED = opened(1, 'duplex', 'c', LARGE.replace('S32_LE 8', 'U8 1')) + 'feed s1 in.wav\nstart c1 s1\nmove s1 8\n'
LONG_SAVE = opened(0, 'duplex', 'p', LARGE) + turns(0, 2, 32, 32768) + 'save s0 out.wav\n'

SPACES = ('space basic 8 4 2 2 1 200000 1 65536 2 32 4 65536\nspace basic 8 4 3 8 1 200000 1 65536 2 32 4 65536\n'
          'space studio 27 1092 1 8 1 200000 1 65536 2 32 4 65536\n')


def script(text):
    """The bytes of a script."""
    return text.encode()


def recording(count, configuration='U8'):
    """A WAV file of so many bytes of samples, with one channel at 8,000 Hz."""
    return write_wav(Wav(configuration, 1, 8000, bytes(range(251)) * (count // 251) + bytes(range(count % 251))))


IN_WAV = recording(300)
OLD = b'what stood there before'
BOTH = {'in.wav': IN_WAV, 'out.wav': OLD, 'other.wav': b'another file'}
LONG_FILES = {'in.wav': recording(8 << 20), 'out.wav': OLD}

# The commands on files: the words of each.
FILE_COMMANDS = {
    'play': ('play', 'in.wav', 'out.wav', '256', '4'),
    'capture': ('capture', 'in.wav', 'out.wav', '1000'),
}

with open(os.path.join(HERE, 'growth.pcm'), encoding='ascii') as growth:
    GROWTH = growth.read()


def expected(source):
    """What the plain model says of a script without files."""
    return model.command(['run'], source, {})
