"""Names, numbers and tables: formats, accesses, errors, what a state permits, and the models of cards."""

from typing import NamedTuple

CLOSED, OPEN, SETUP, PREPARED, RUNNING = 'CLOSED', 'OPEN', 'SETUP', 'PREPARED', 'RUNNING'
XRUN, DRAINING, PAUSED, SUSPENDED, DISCONNECTED = 'XRUN', 'DRAINING', 'PAUSED', 'SUSPENDED', 'DISCONNECTED'

ERROR_NUMBERS = {'EIO': 5, 'ENXIO': 6, 'EAGAIN': 11, 'EBUSY': 16, 'EINVAL': 22, 'EPIPE': 32, 'ENOSYS': 38,
                 'EBADFD': 77, 'ESTRPIPE': 86, 'EALREADY': 114}
ACCESS_NUMBERS = {'MMAP_INTERLEAVED': 0, 'MMAP_NONINTERLEAVED': 1, 'RW_INTERLEAVED': 3, 'RW_NONINTERLEAVED': 4}
FORMAT_NUMBERS = {'S8': 0, 'U8': 1, 'S16_LE': 2, 'S16_BE': 3, 'S24_LE': 6, 'S32_LE': 10, 'S32_BE': 11, 'S24_3LE': 32}
SAMPLE_BYTES = {'S8': 1, 'U8': 1, 'S16_LE': 2, 'S16_BE': 2, 'S24_LE': 4, 'S32_LE': 4, 'S32_BE': 4, 'S24_3LE': 3}

DEFAULT_LONG = 2147483647
LEAST_LONG, GREATEST_LONG = 15, 2 ** 36 - 1
LEAST_BUFFER, GREATEST_BUFFER = 4, 65536
LEAST_PERIODS, GREATEST_PERIODS = 2, 32
GREATEST_READ = 1048576
GREATEST_TAKEN = 67108864
GREATEST_SCRIPT, GREATEST_LINES = 67108864, 1048576
GREATEST_FILE = 68157440
PLAN_LENGTH = 64
GREATEST_MAPPINGS = 65535


def silent_byte(sample_format):
    """The byte of every silent sample."""
    return b'\x80' if sample_format == 'U8' else b'\x00'


class Span(NamedTuple):
    """All numbers from the least to the greatest; none where the least is above the greatest."""
    least: int
    greatest: int

    def holds(self, number):
        """Whether the number lies in the span."""
        return self.least <= number <= self.greatest


class CardModel(NamedTuple):
    """What a card can do: every model has all four accesses."""
    formats: tuple
    channels: Span
    rate: Span
    wide_rate: int
    period: Span
    buffer_bytes: int
    can_pause: bool = True
    can_resume: bool = True


BASIC = CardModel(('U8', 'S16_LE'), Span(1, 2), Span(8000, 48000), 48000, Span(1, 8192), 65536)
MODELS = {
    'basic': BASIC,
    'duplex': CardModel(tuple(FORMAT_NUMBERS), Span(1, 8), Span(4000, 192000), 192000, Span(1, 32768), 2097152),
    'studio': CardModel(('S16_LE', 'S24_LE', 'S32_LE', 'S24_3LE'), Span(1, 8), Span(44100, 192000), 96000,
                        Span(16, 8192), 1048576),
    'nopause': BASIC._replace(can_pause=False),
    'noresume': BASIC._replace(can_resume=False),
    'indirect': BASIC,
}


class Configuration(NamedTuple):
    """What hw_params sets up."""
    access: str
    format: str
    channels: int
    rate: int
    period: int
    periods: int

    @property
    def buffer(self):
        """Frames in the buffer."""
        return self.period * self.periods

    @property
    def frame_bytes(self):
        """Bytes in a frame."""
        return self.channels * SAMPLE_BYTES[self.format]


def allowed(model, configuration):
    """Whether a card of the model can work in the configuration."""
    return (configuration.format in model.formats
            and model.channels.holds(configuration.channels)
            and model.rate.holds(configuration.rate)
            and model.period.holds(configuration.period)
            and LEAST_PERIODS <= configuration.periods <= GREATEST_PERIODS
            and LEAST_BUFFER <= configuration.buffer <= GREATEST_BUFFER
            and configuration.buffer * configuration.frame_bytes <= model.buffer_bytes
            and (configuration.rate <= model.wide_rate or configuration.channels <= 2))


def accepted(model, configuration, long_max):
    """Whether hw_params accepts the configuration."""
    return allowed(model, configuration) and 4 * configuration.buffer <= long_max


def boundary_of(buffer, long_max):
    """The number at which shown pointers begin again at 0."""
    boundary = buffer
    while boundary * 2 <= long_max - buffer:
        boundary *= 2
    return boundary


PERMITS = """
                OPEN SETUP PREPARED RUNNING XRUN DRAINING_PLAYBACK DRAINING_CAPTURE PAUSED SUSPENDED DISCONNECTED
HwParams        ok   ok    ok       77      77   77                77               77     77        77
HwFree          77   ok    ok       77      77   77                77               77     77        77
SwParams        77   ok    ok       ok      ok   ok                ok               ok     ok        77
Prepare         77   ok    ok       16      ok   16                ok               ok     ok        77
Start           77   77    ok       77      77   77                77               77     77        77
DropNow         77   ok    ok       ok      ok   ok                ok               ok     ok        77
Drain           77   ok    ok       ok      ok   ok                ok               ok     77        77
PausePush       77   77    77       ok      77   77                77               77     77        77
PauseRelease    77   77    77       77      77   77                77               ok     77        77
Suspend         16   16    ok       ok      ok   ok                ok               ok     16        77
Resume          77   77    77       77      77   77                77               77     ok        77
Xrun            77   77    77       ok      ok   77                77               77     77        77
Write_playback  77   77    ok       ok      32   77                22               ok     86        77
Write_capture   22   22    22       22      22   22                22               22     22        22
Read_capture    77   77    ok       ok      32   22                ok               ok     86        77
Read_playback   22   22    22       22      22   22                22               22     22        22
Rewind          77   77    ok       ok      32   ok                77               ok     86        77
Forward         77   77    ok       ok      32   ok                77               ok     86        77
Hwsync          77   77    ok       ok      32   ok                77               ok     86        77
Delay           77   77    ok       ok      32   ok                77               ok     86        77
SyncPtr         77   ok    ok       ok      ok   ok                ok               ok     ok        77
Status          ok   ok    ok       ok      ok   ok                ok               ok     ok        ok
Poll            ok   ok    ok       ok      ok   ok                ok               ok     ok        ok
Map             77   ok    ok       ok      ok   ok                ok               ok     ok        77
Link            77   ok    ok       ok      ok   ok                ok               ok     ok        77
Unlink          ok   ok    ok       ok      ok   ok                ok               ok     ok        ok
Unplug          ok   ok    ok       ok      ok   ok                ok               ok     ok        77
"""


def read_permits(text):
    """The table as a dictionary from call and column to the name of an error, or to None."""
    names = {str(number): name for name, number in ERROR_NUMBERS.items()}
    rows = [row.split() for row in text.split('\n') if row]
    return {(row[0], column): names.get(cell)
            for row in rows[1:] for column, cell in zip(rows[0], row[1:])}


PERMIT_TABLE = read_permits(PERMITS)


def permit(call, state, playback):
    """None where the state allows the call, else the name of the error."""
    if state == CLOSED:
        return 'ENXIO'
    direction = '_playback' if playback else '_capture'
    row = call + direction if call in ('Write', 'Read') else call
    column = state + direction.upper() if state == DRAINING else state
    return PERMIT_TABLE[row, column]
