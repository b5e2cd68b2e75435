"""The grammar of a script's lines, with the leftmost fault of bytes that are none, and the text of a transcript."""

import re
from typing import NamedTuple, Optional

from tables import ACCESS_NUMBERS, ERROR_NUMBERS, FORMAT_NUMBERS, MODELS

NUMBER = re.compile(rb'0|[1-9][0-9]*')
BELOW_SIXTEEN = re.compile(rb'[0-9]|1[0-5]')
HEX = re.compile(rb'([0-9a-f]{2})+')
NAME = re.compile(rb'[a-z0-9_-][a-z0-9._-]{0,63}')


class LineFault(Exception):
    """Why bytes are no line: `word`, `number` or `long` with an offset, or `short`."""

    def __init__(self, kind, at=None):
        """The offset is that of a piece's first byte in the line."""
        super().__init__(kind, at)
        self.text = kind if at is None else '%s at %d' % (kind, at)


class Line(NamedTuple):
    """A line: its first word, the client and the substream that it names first, and what else it says."""
    word: str
    client: Optional[int]
    sub: Optional[int]
    values: tuple


def read_number(piece):
    """A number, or None."""
    if NUMBER.fullmatch(piece) and int(piece) < 2 ** 63:
        return int(piece)
    return None


def read_letter(letter):
    """The reader of a letter with a number below sixteen behind it."""
    def read(piece):
        """The number, or None."""
        if piece[:1] == letter and BELOW_SIXTEEN.fullmatch(piece[1:]):
            return int(piece[1:])
        return None
    return read


def read_word(words):
    """The reader of one of these words."""
    known = {word.encode(): word for word in words}
    return known.get


def read_hex(piece):
    """Bytes, or None."""
    if piece == b'-':
        return b''
    return bytes.fromhex(piece.decode()) if HEX.fullmatch(piece) else None


def read_name(piece):
    """The name of a file, or None."""
    return piece.decode() if NAME.fullmatch(piece) else None


KINDS = {
    'number': read_number, 'client': read_letter(b'c'), 'sub': read_letter(b's'), 'mode': read_word(['b', 'n']),
    'direction': read_word(['p', 'c']), 'model': read_word(MODELS), 'access': read_word(ACCESS_NUMBERS),
    'format': read_word(FORMAT_NUMBERS), 'hex': read_hex, 'name': read_name,
}

FORM_TABLE = """
version number
long number
card sub model direction
open client sub
close client sub
hw client sub access format number number number number
hwfree client sub
sw client sub number number number number number
prepare client sub
start client sub
drop client sub
pause client sub
release client sub
suspend client sub
resume client sub
xrun client sub
drain client sub mode
writei client sub mode hex
writen client sub mode hex
readi client sub mode number
readn client sub mode number
rewind client sub number
forward client sub number
hwsync client sub
delay client sub
status client sub
page client sub
poll client sub
sync client sub number
mmap client sub
munmap client sub
store client sub number hex
load client sub number number
link client sub sub
unlink client sub
go client
move sub number
irq sub
fail sub number
unplug sub
give sub hex
feed sub name
save sub name
carry sub sub
space model number number number number number number number number number number number number
beat sub number number
wire sub sub
threads
join
"""
FORMS = {row.split()[0]: row.split()[1:] for row in FORM_TABLE.split('\n') if row}
LIVE_WORDS = ('beat', 'wire', 'threads', 'join')
RUN_WORDS = frozenset(FORMS) - frozenset(LIVE_WORDS) - {'space'}
REFINE_WORDS = frozenset({'space'})


def pieces_of(raw):
    """The pieces of a line with the offset of each."""
    at = 0
    for piece in raw.split(b' '):
        yield at, piece
        at += len(piece) + 1


def read_line(raw):
    """The line that these bytes are; raises the leftmost fault where they are none."""
    pieces = list(pieces_of(raw))
    word = pieces[0][1].decode('latin-1')
    if word not in FORMS:
        raise LineFault('word', 0)
    values = read_values(FORMS[word], pieces[1:])
    kinds = FORMS[word][:len(values)]
    client = values.pop(0) if kinds[:1] == ['client'] else None
    kinds = kinds if client is None else kinds[1:]
    sub = values.pop(0) if kinds[:1] == ['sub'] else None
    return Line(word, client, sub, tuple(values))


def read_values(kinds, pieces):
    """The values of the pieces behind the first word."""
    values = []
    for kind, place in zip(kinds, pieces + [None] * len(kinds)):
        if place is None:
            raise LineFault('short')
        at, piece = place
        value = KINDS[kind](piece)
        if value is None:
            raise LineFault('number' if kind == 'number' else 'word', at)
        values.append(value)
    if len(pieces) > len(kinds):
        raise LineFault('long', pieces[len(kinds)][0])
    return values


def is_skipped(version, raw):
    """Whether a script of this version passes over the line."""
    return version == 2 and (raw == b'' or raw.startswith(b'#'))


def hex_text(data):
    """Bytes as digits."""
    return data.hex() if data else '-'


def reply_text(reply):
    """The text of a reply."""
    kind, values = reply[0], reply[1:]
    if kind == 'read':
        return 'frames %d %s' % (values[0], hex_text(values[1]))
    if kind == 'moved':
        return 'moved %d' % values[0] + ('' if values[1] is None else ' ' + hex_text(values[1]))
    if kind == 'ptrs':
        return 'ptrs hw %d appl %d avail %d' % values
    if kind == 'err':
        return 'err %s %d' % (values[0], ERROR_NUMBERS[values[0]])
    if kind == 'busy':
        return 'busy c%d' % values[0]
    return ' '.join([kind] + [str(value) for value in values])


def told_text(number, told):
    """The transcript's line for a line of the script."""
    woken = ' wake' + ''.join(' c%d' % client for client in told.woken) if told.woken else ''
    return '%d %s %s%s\n' % (number, reply_text(told.reply), told.state or '-', woken)


def end_text(stream):
    """The line behind the transcript for a declared substream."""
    return 'end s%d %s hw %d appl %d moved %d\n' % (
        stream.number, stream.state, stream.shown(stream.hardware), stream.shown(stream.application), stream.moved)
