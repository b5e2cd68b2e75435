#!/usr/bin/env python3
"""The plain model of a command: words, bytes of the source and files in; bytes, status and files out.

    python3 model.py run < script
    python3 model.py refine < spaces

As a program it answers as `pcm` does: on standard output, in the files of the current folder, with the same exit status
and the same text on standard error.
"""

import os
import sys
from typing import NamedTuple

import formats
from refine import refined_text
from rules import Told, World, answer, card_give, refuse
from tables import (DEFAULT_LONG, GREATEST_FILE, GREATEST_LINES, GREATEST_SCRIPT, GREATEST_TAKEN, MODELS, Configuration,
                    accepted, silent_byte)
from wav import BITS_OF_FORMAT, Wav, WavFault, read_wav, write_wav

GREATEST_CAP = 2 ** 64 - 1


class Status(NamedTuple):
    """How a command ends: the number of its status, and the text of what ended it."""
    number: int
    text: str = ''


class Result(NamedTuple):
    """What a command leaves."""
    output: bytes
    status: Status
    files: dict


class Ends(Exception):
    """The command ends here with a status."""

    def __init__(self, number, text):
        """The text is the one that a program shows."""
        super().__init__(number, text)
        self.status = Status(number, text)


def lines_of(source):
    """The lines of a script, numbered from 1; ends where a limit is passed."""
    number, begin = 0, 0
    while begin < len(source):
        number += 1
        if number > GREATEST_LINES:
            raise Ends(9, 'limit ScriptLines %d' % number)
        feed = source.find(b'\n', begin)
        end = len(source) if feed < 0 else feed
        after = min(end + 1, len(source))
        if after > GREATEST_SCRIPT:
            raise Ends(9, 'limit ScriptBytes %d' % (GREATEST_SCRIPT + 1))
        yield number, source[begin:end]
        begin = after


def line_of(number, raw, words):
    """The line that the bytes are, if it is one of the command with these words."""
    try:
        line = formats.read_line(raw)
        if line.word not in words:
            raise formats.LineFault('word', 0)
        return line
    except formats.LineFault as fault:
        raise Ends(2, 'bad line %d: %s' % (number, fault.text)) from None


def load(files, name):
    """The recording in a file."""
    data = files.get(name)
    if data is None:
        raise Ends(6, 'missing ' + name)
    if len(data) > GREATEST_FILE:
        raise Ends(9, 'limit WavBytes %d' % (GREATEST_FILE + 1))
    try:
        return read_wav(data)
    except WavFault as fault:
        raise Ends(7, 'bad wav %s: %s' % (name, fault.text)) from None


def feed(world, files, number, name):
    """The frames of a file become those that a capture card will put."""
    stream = world.there(number)
    refuse(stream.opened_only or stream.playback, 'EINVAL')
    wav = load(files, name)
    wanted = stream.configuration
    refuse((wav.format, wav.channels, wav.rate) != (wanted.format, wanted.channels, wanted.rate), 'EINVAL')
    return card_give(stream, wav.frames)


def save(world, files, number, name):
    """The frames that a playback card took are stored."""
    stream = world.there(number)
    refuse(stream.opened_only or not stream.playback or stream.configuration.format not in BITS_OF_FORMAT, 'EINVAL')
    configuration = stream.configuration
    files[name] = write_wav(Wav(configuration.format, configuration.channels, configuration.rate,
                                b''.join(stream.taken)))
    return ('ok',)


class Run:
    """A script that is executed, line by line."""

    def __init__(self, files):
        """The files are read and changed in place."""
        self.world = World()
        self.files = files
        self.version = 1

    def line(self, number, raw):
        """What the transcript says of this line, or None where it is skipped."""
        if formats.is_skipped(self.version, raw):
            return None
        line = line_of(number, raw, formats.RUN_WORDS)
        if line.word == 'version':
            return self.set_version(number, line)
        if line.word in ('feed', 'save'):
            return self.use_file(line)
        return self.world.step(line)

    def set_version(self, number, line):
        """The version of the script, which stands on line 1 alone."""
        if number != 1:
            raise Ends(2, 'bad line %d: word at 0' % number)
        if line.values[0] not in (1, 2):
            raise Ends(2, 'bad line 1: number at 8')
        self.version = line.values[0]
        return Told(('ok',), None)

    def use_file(self, line):
        """A line that reads or stores a file."""
        act = feed if line.word == 'feed' else save
        reply = answer(lambda: act(self.world, self.files, line.sub, *line.values))
        return Told(reply, self.world.state_of(line.sub))

    def end_lines(self):
        """The text behind the transcript."""
        return ''.join(formats.end_text(stream) for _, stream in sorted(self.world.streams.items()))


def command_run(source, files, out):
    """Executes the script of the source."""
    script = Run(files)
    for number, raw in lines_of(source):
        told = script.line(number, raw)
        if told is not None:
            out.append(formats.told_text(number, told))
    out.append(script.end_lines())


def command_refine(source, files, out):
    """Answers each line that asks for a space."""
    for number, raw in lines_of(source):
        line = line_of(number, raw, formats.REFINE_WORDS)
        out.append(refined_text(line.values[0], line.values[1:]))


def check_duplex(wav, period, periods):
    """Ends where the card of the commands on files does not take the recording."""
    configuration = Configuration('RW_INTERLEAVED', wav.format, wav.channels, wav.rate, period, periods)
    if not accepted(MODELS['duplex'], configuration, DEFAULT_LONG):
        raise Ends(10, 'refused EINVAL 22')
    return configuration.frame_bytes


def command_play(words, files, out):
    """Plays a file: its frames, and silence up to a whole period."""
    name, target, period, periods = words
    wav = load(files, name)
    size = check_duplex(wav, period, periods)
    count = len(wav.frames) // size
    stored = -(-count // period) * period
    if stored * size > GREATEST_TAKEN:
        raise Ends(9, 'limit TakenBytes %d' % min(stored * size, GREATEST_CAP))
    silence = silent_byte(wav.format) * ((stored - count) * size)
    files[target] = write_wav(wav._replace(frames=wav.frames + silence))
    out.append('played %d stored %d\n' % (count, stored))


def command_capture(words, files, out):
    """Records the first frames of a file, and zero frames past its end."""
    name, target, count = words
    wav = load(files, name)
    size = check_duplex(wav, 256, 4)
    if count * size > GREATEST_TAKEN:
        raise Ends(9, 'limit CaptureBytes %d' % min(count * size, GREATEST_CAP))
    files[target] = write_wav(wav._replace(frames=wav.frames[:count * size].ljust(count * size, b'\0')))
    out.append('captured %d\n' % count)


GENERATED_HEAD = """long 1023
card s0 duplex p
card s1 duplex p
open c0 s0
open c1 s1
hw c0 s0 RW_INTERLEAVED U8 1 8000 4 4
hw c1 s1 RW_INTERLEAVED U8 1 8000 4 4
link c0 s0 s1
prepare c0 s0
"""


def generated_round(place, chance):
    """The seven lines of one round of the generated script."""
    count, moved = 1 + chance // 65536 % 7, 1 + chance // 1024 % 6
    data = bytes((7 * place + i) % 256 for i in range(count)).hex()
    last = 'prepare c0 s0' if place % 8 == 7 else 'status c1 s1'
    return ('writei c0 s0 n %s\nwritei c1 s1 n %s\nmove s0 %d\nirq s0\nmove s1 %d\nirq s1\n%s\n'
            % (data, data, moved, moved, last))


def generated_script(number):
    """The script of the command gen."""
    chance, rounds = number, []
    for place in range(100 * number):
        chance = (chance * 1103515245 + 12345) % 2147483648
        rounds.append(generated_round(place, chance))
    return (GENERATED_HEAD + ''.join(rounds)).encode()


def command_gen(words, files, out):
    """Runs the generated script and sums it up."""
    if words[0] > 1000:
        raise Ends(9, 'limit GenNumber %d' % words[0])
    script, sums = Run({}), dict.fromkeys(['lines', 'frames', 'moved', 'errors', 'wakes'], 0)
    for number, raw in lines_of(generated_script(words[0])):
        told = script.line(number, raw)
        sums['lines'] += 1
        sums['frames'] += told.reply[1] if told.reply[0] == 'frames' else 0
        sums['moved'] += told.reply[1] if told.reply[0] == 'moved' else 0
        sums['errors'] += told.reply[0] == 'err'
        sums['wakes'] += len(told.woken)
    out.append(' '.join('%s %d' % item for item in sums.items()) + '\n')


FILE_COMMANDS = {
    'play': (['name', 'name', 'number', 'number'], command_play),
    'capture': (['name', 'name', 'number'], command_capture),
    'gen': (['number'], command_gen),
}


def read_words(words):
    """The values of the words of a command on files; None where they have no such form."""
    kinds, act = FILE_COMMANDS.get(words[0] if words else '', ([], None))
    if act is None or len(words) != len(kinds) + 1:
        return None
    values = [formats.KINDS[kind](os.fsencode(word)) for kind, word in zip(kinds, words[1:])]
    return None if None in values else (act, values)


def command(words, source, files):
    """What the command of these words leaves; the files that are handed in are changed."""
    out = []
    try:
        if words == ['run']:
            command_run(source, files, out)
        elif words == ['refine']:
            command_refine(source, files, out)
        else:
            found = read_words(words)
            if found is None:
                raise Ends(1, 'usage')
            found[0](found[1], files, out)
        status = Status(0)
    except Ends as end:
        status = end.status
    return Result(''.join(out).encode(), status, files)


class Folder:
    """The files of the current folder, by name."""

    def get(self, name):
        """The bytes of a file, or None."""
        try:
            with open(name, 'rb') as file:
                return file.read(GREATEST_FILE + 1)
        except FileNotFoundError:
            return None
        except OSError:
            raise Ends(5, 'file access failed') from None

    def __setitem__(self, name, data):
        """Stores a file."""
        try:
            with open(name, 'wb') as file:
                file.write(data)
        except OSError:
            raise Ends(5, 'file access failed') from None


def main():
    """The program: its exit status is that of the command."""
    words = sys.argv[1:]
    source = sys.stdin.buffer.read() if words in (['run'], ['refine']) else b''
    result = command(words, source, Folder())
    sys.stdout.buffer.write(result.output)
    if result.status.number != 0:
        sys.stderr.write('pcm: %s\n' % result.status.text)
    return result.status.number


if __name__ == '__main__':
    sys.exit(main())
