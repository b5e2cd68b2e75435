"""WAV files, plain and extensible: reading, with the first fault of bytes that are none, and writing."""

from typing import NamedTuple

from tables import SAMPLE_BYTES

PCM_SUBTYPE = bytes.fromhex('0100000000001000800000aa00389b71')
PLAIN, EXTENSIBLE = 1, 65534
FORMAT_OF_BITS = {8: 'U8', 16: 'S16_LE', 24: 'S24_3LE', 32: 'S32_LE'}
BITS_OF_FORMAT = {'U8': 8, 'S16_LE': 16, 'S24_3LE': 24, 'S32_LE': 32, 'S24_LE': 32}


class WavFault(Exception):
    """Why bytes are no WAV file."""

    def __init__(self, text):
        """The text is the one that a program shows."""
        super().__init__(text)
        self.text = text


class Wav(NamedTuple):
    """A recording."""
    format: str
    channels: int
    rate: int
    frames: bytes


def number_at(data, at, count):
    """The number in these bytes, its low byte first."""
    return int.from_bytes(data[at:at + count], 'little')


def number_bytes(number, count):
    """The bytes of a number, its low byte first."""
    return (number % 256 ** count).to_bytes(count, 'little')


def fault_unless(right, text):
    """Raises the fault with this text where something is not right."""
    if not right:
        raise WavFault(text)


def read_wav(data):
    """The recording that the bytes are."""
    fault_unless(len(data) >= 12 and data[:4] == b'RIFF' and data[8:12] == b'WAVE', 'not RIFF')
    found = None
    at = 12
    while at + 8 <= len(data):
        name, size = data[at:at + 4], number_at(data, at + 4, 4)
        if name == b'fmt ' and found is None:
            found = read_format(data, at, size)
        if name == b'data':
            fault_unless(found is not None, 'no fmt')
            return read_frames(data[at + 8:at + 8 + size], *found)
        at += 8 + size + size % 2
    raise WavFault('no fmt' if found is None else 'no data')


def read_format(data, at, size):
    """Format, channels and rate from the chunk at this offset."""
    fault_unless(size >= 16, 'bad fmt at %d' % (at + 4))
    fault_unless(at + 8 + size <= len(data), 'bad fmt at %d' % at)
    tag = number_at(data, at + 8, 2)
    fault_unless(tag in (PLAIN, EXTENSIBLE), 'not PCM %d' % tag)
    fault_unless(size in ((16, 18) if tag == PLAIN else (40,)), 'bad fmt at %d' % (at + 4))
    extensible = tag == EXTENSIBLE
    fault_unless(not extensible or data[at + 32:at + 48] == PCM_SUBTYPE, 'not PCM %d' % number_at(data, at + 32, 2))
    channels, rate = number_at(data, at + 10, 2), number_at(data, at + 12, 4)
    align, bits = number_at(data, at + 20, 2), number_at(data, at + 22, 2)
    valid_bits = number_at(data, at + 26, 2) if extensible else bits
    fault_unless(1 <= channels <= 8, 'bad fmt at %d' % (at + 10))
    fault_unless(rate > 0, 'bad fmt at %d' % (at + 12))
    fault_unless(bits in FORMAT_OF_BITS, 'width %d' % bits)
    fault_unless(valid_bits <= bits, 'width %d' % valid_bits)
    fault_unless(align == channels * bits // 8, 'bad fmt at %d' % (at + 20))
    three_in_four = extensible and bits == 32 and valid_bits == 24
    return 'S24_LE' if three_in_four else FORMAT_OF_BITS[bits], channels, rate


def read_frames(body, sample_format, channels, rate):
    """The recording with the whole frames of the body."""
    size = channels * SAMPLE_BYTES[sample_format]
    frames = body[:len(body) // size * size]
    if sample_format == 'S24_LE':
        frames = b''.join(frames[i + 1:i + 4] + b'\0' for i in range(0, len(frames), 4))
    return Wav(sample_format, channels, rate, frames)


def write_wav(wav):
    """The bytes of the recording as a file."""
    bits = BITS_OF_FORMAT[wav.format]
    align = wav.channels * bits // 8
    extensible = wav.format == 'S24_LE'
    head = (number_bytes(EXTENSIBLE if extensible else PLAIN, 2) + number_bytes(wav.channels, 2)
            + number_bytes(wav.rate, 4) + number_bytes(wav.rate * align, 4) + number_bytes(align, 2)
            + number_bytes(bits, 2))
    frames = wav.frames
    if extensible:
        head += number_bytes(22, 2) + number_bytes(24, 2) + bytes(4) + PCM_SUBTYPE
        frames = b''.join(b'\0' + frames[i:i + 3] for i in range(0, len(frames), 4))
    chunks = chunk(b'fmt ', head) + chunk(b'data', frames)
    return b'RIFF' + number_bytes(4 + len(chunks), 4) + b'WAVE' + chunks


def chunk(name, body):
    """A chunk with its pad."""
    return name + number_bytes(len(body), 4) + body + bytes(len(body) % 2)
