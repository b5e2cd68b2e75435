"""Cases of standard input, standard output and standard error."""

import contextlib
import os
import random
import resource
import signal
import socket

import texts
from judge import FRONT, WHOLE, CALM, Bytes, Lines, Run, Wanted, case
from program import Fault, disk, send, state_of, wait_for, wait_until_asleep
from texts import expected, script

READ, WRITE = (3, 'read failed'), (4, 'write failed')


# What stands in the place of a pipe


def opens(path, flags):
    """Opens this path."""
    return lambda folder, source: os.open(path, flags)


def closed_pipe(folder, source):
    """The writing end of a pipe that nobody reads."""
    reading, writing = os.pipe()
    os.close(reading)
    return writing


def full_pipe(folder, source):
    """The writing end of a pipe that is full and tells a writer to come back later; the other end stays open."""
    _, writing = os.pipe()
    os.set_blocking(writing, False)
    with contextlib.suppress(BlockingIOError):
        while True:
            os.write(writing, bytes(4096))
    return writing


def impatient_pipe(folder, source):
    """The reading end of a pipe that has the source, stays open, and tells a reader to come back later."""
    reading, writing = os.pipe()
    os.set_blocking(reading, False)
    os.write(writing, source)
    return reading


def failing_socket(folder, source):
    """A socket that gives the source, and then an error in the place of the end."""
    mine, theirs = socket.socketpair()
    theirs.send(b'this stays unread')
    mine.sendall(source)
    mine.close()
    return theirs.detach()


def output_file(folder, source):
    """A file for the output, in the folder of the run."""
    return os.open(os.path.join(folder, 'output'), os.O_WRONLY | os.O_CREAT | os.O_TRUNC, 0o644)


def taken_output(folder):
    """What the program wrote to that file, which is no file of the run."""
    path = os.path.join(folder, 'output')
    with open(path, 'rb') as file:
        data = file.read()
    os.remove(path)
    return data


# What is done in the new process


def closes(*ends):
    """Closes these descriptors."""
    def child():
        """Closes them one by one."""
        for end in ends:
            os.close(end)
    return child


def ignores_pipes():
    """A closed pipe sends no signal."""
    signal.signal(signal.SIGPIPE, signal.SIG_IGN)


def file_limit(size):
    """No file grows beyond so many bytes, and trying so is an error and no signal."""
    def child():
        """Sets the limit."""
        signal.signal(signal.SIGXFSZ, signal.SIG_IGN)
        resource.setrlimit(resource.RLIMIT_FSIZE, (size, size))
    return child


# How the source is sent and the output read


def byte_by_byte(process, end, source, folder):
    """Each byte is sent when the one before it was read."""
    for at in range(len(source)):
        send(end, source[at:at + 1])
        wait_until_asleep(process, end)


def with_signals(process, end, source, folder):
    """Before each line come signals: some that a process does not see by itself, and a stop that is taken back."""
    for line in source.splitlines(keepends=True):
        wait_until_asleep(process, end)
        for number in (signal.SIGWINCH, signal.SIGCHLD, signal.SIGURG, signal.SIGCONT):
            process.send_signal(number)
        process.send_signal(signal.SIGSTOP)
        wait_for(lambda: state_of(process) in 'TZX')
        process.send_signal(signal.SIGCONT)
        send(end, line)


def reads_first(count):
    """Reads so many bytes and closes the pipe."""
    def reading(end):
        """Reads them."""
        data = b''
        while len(data) < count:
            piece = os.read(end, count - len(data))
            if not piece:
                break
            data += piece
        return data
    return reading


def reads_single_bytes(end):
    """Reads one byte after another."""
    return b''.join(iter(lambda: os.read(end, 1), b''))


# The runs

WORKED, TALK = script(texts.WORKED), script(texts.TALK)

# A store, then much output, then another store.
STORES = script(texts.SAVED + texts.opened(1, 'duplex', 'p', texts.MIDDLE) + texts.turns(1, 3, 1, 4000)
                + 'save s1 late.wav\n')

BAD = script('open c0\n')
REFINED = script(texts.SPACES)


def as_the_model(source):
    """A run without a fault of its own: its source is the fault, and the plain model says what it leads to."""
    result = expected(source)
    return Run(source, Fault(), Wanted(result.status.number, result.status.text, result.output), calm=b'')


def failed_reads():
    """A read fails behind each count of bytes: the whole lines are answered."""
    return [Run(WORKED[:count], Fault(stdin=failing_socket), Wanted(*READ, Lines(WORKED[:count].count(b'\n'))), calm=WORKED)
            for count in range(len(WORKED) + 1)]


def refined(fault, wanted):
    """The command `refine` under a fault."""
    return Run(REFINED, fault, wanted, words=('refine',))


def failed_refinings():
    """Reads and writes of `refine` fail."""
    reads = [Run(REFINED[:count], Fault(stdin=failing_socket), Wanted(*READ, Lines(REFINED[:count].count(b'\n'))), {},
                 ('refine',), REFINED) for count in range(0, len(REFINED) + 1, 9)]
    writes = [refined(Fault(stdout=end), Wanted(*WRITE, b'')) for end in (closed_pipe, opens('/dev/full', os.O_WRONLY))]
    return reads + writes + [refined(Fault(sending=byte_by_byte), Wanted(0, '', WHOLE))]


def impatient_reads():
    """The same, where the system tells a reader to come back later."""
    return [Run(WORKED[:count], Fault(stdin=impatient_pipe), Wanted(*READ, Lines(WORKED[:count].count(b'\n'))), calm=WORKED)
            for count in range(0, len(WORKED) + 1, 7)]


def random_bytes(chance):
    """Bytes that are no script: any bytes, or a script with some bytes changed."""
    if chance.random() < 0.3:
        return chance.randbytes(chance.randrange(1, 3000))
    source = bytearray(WORKED)
    for _ in range(chance.randrange(1, 4)):
        source[chance.randrange(len(source))] = chance.randrange(256)
    return bytes(source)


def binary_input():
    """Bytes that are no script, and a script of another system's line ends."""
    chance = random.Random(1)
    return [as_the_model(WORKED.replace(b'\n', b'\r\n'))] + [as_the_model(random_bytes(chance)) for _ in range(300)]


def closed_readings():
    """The reading end is closed after so many bytes, with the signal and without it."""
    return [Run(TALK, Fault(reading=reads_first(count), child=child), Wanted(*WRITE, Bytes(count)))
            for count in (0, 1, 4096, 5000, 20000) for child in (None, ignores_pipes)]


def cut_outputs():
    """The file of the output may not grow beyond so many bytes."""
    return [Run(TALK, Fault(child=file_limit(count), stdout=output_file, output=taken_output), Wanted(*WRITE, Bytes(count)))
            for count in (0, 1, 100, 4095, 4096, 4097, 8192, 10000, 65000)]


REMARKS = b'version 2\n'
FIRST_LINE = b'1 ok -\n'
MOST_LINES, MOST_BYTES = 1048576, 67108864
TOO_LONG = (9, 'limit ScriptBytes 67108865')


def most_lines():
    """As many lines as a script may have, and one more."""
    lines = REMARKS + b'#\n' * (MOST_LINES - 1)
    return [Run(lines, Fault(), Wanted(0, '', FIRST_LINE), calm=REMARKS),
            Run(lines + b'#\n', Fault(), Wanted(9, 'limit ScriptLines 1048577', FIRST_LINE), calm=REMARKS)]


def most_bytes():
    """As many bytes as a script may have, and one more, and no end of them."""
    lines = REMARKS + b'#' * (MOST_BYTES - len(REMARKS))
    return [Run(lines, Fault(), Wanted(0, '', FIRST_LINE), calm=REMARKS),
            Run(lines + b'#', Fault(), Wanted(*TOO_LONG, FIRST_LINE), calm=REMARKS),
            Run(b'', Fault(stdin=opens('/dev/zero', os.O_RDONLY)), Wanted(*TOO_LONG, b''))]


def long_lines():
    """A line of 60 MiB that is none, and one of 32 MiB that is one."""
    give = texts.RECORDING + 'give s1 5a'
    return [Run(b'x' * (60 << 20), Fault(), Wanted(2, 'bad line 1: word at 0', b''), calm=b''),
            Run(script(give + '5a' * (16 << 20) + '\n'), Fault(), Wanted(0, '', WHOLE), calm=script(give + '\n'))]


def without_error(child=None, stderr=None):
    """A bad line, where standard error takes nothing."""
    return [Run(BAD, Fault(child=child, stderr=stderr), Wanted(2, 'bad line 1: short', WHOLE, shows_error=False))]


INPUT = [
    case('a folder as standard input', [Run(WORKED, Fault(stdin=opens('/', os.O_RDONLY)), Wanted(*READ, b''))]),
    case('closed standard input', [Run(WORKED, Fault(child=closes(0)), Wanted(*READ, b''))]),
    case('standard input that is open for writing alone',
         [Run(WORKED, Fault(stdin=opens('/dev/null', os.O_WRONLY)), Wanted(*READ, b''))]),
    case('empty standard input', [Run(b'', Fault(stdin=opens('/dev/null', os.O_RDONLY)), Wanted(0, '', b''))]),
    case('a read that fails behind each count of bytes', failed_reads),
    case('a read that would have to wait and may not', impatient_reads),
    case('input that ends behind each count of bytes',
         lambda: [as_the_model(WORKED[:count]) for count in range(len(WORKED) + 1)]),
    case('failed reads and writes of refine', failed_refinings),
    case('a writer that gives one byte at a time', [Run(WORKED, Fault(sending=byte_by_byte), Wanted(0, '', WHOLE))]),
    case('signals and stops while it waits', [Run(WORKED, Fault(sending=with_signals), Wanted(0, '', WHOLE))]),
    case('binary input', binary_input),
    case('1,048,576 lines and one more', most_lines),
    case('64 MiB, one byte more, and input without an end', most_bytes),
    case('very long lines', long_lines),
]

OUTPUT = [
    case('a full device as standard output',
         [Run(WORKED, Fault(stdout=opens('/dev/full', os.O_WRONLY)), Wanted(*WRITE, b''))]),
    case('a full device between two stores',
         [Run(STORES, Fault(stdout=opens('/dev/full', os.O_WRONLY)), Wanted(*WRITE, b'', {'out.wav': CALM}), texts.BOTH)]),
    case('a pipe that nobody reads',
         [Run(WORKED, Fault(stdout=closed_pipe, child=child), Wanted(*WRITE, b'')) for child in (None, ignores_pipes)]),
    case('a pipe that is closed while it is read', closed_readings),
    case('a pipe that is full and may not wait', [Run(WORKED, Fault(stdout=full_pipe), Wanted(*WRITE, b''))]),
    case('closed standard output', [Run(WORKED, Fault(child=closes(1)), Wanted(*WRITE, b''))]),
    case('closed standard output between two stores',
         [Run(STORES, Fault(child=closes(1)), Wanted(*WRITE, b'', {'out.wav': CALM}), texts.BOTH)]),
    case('standard output that is open for reading alone',
         [Run(WORKED, Fault(stdout=opens('/dev/null', os.O_RDONLY)), Wanted(*WRITE, b''))]),
    case('an output file that may not grow', cut_outputs),
    case('an output file on a full disk',
         [Run(TALK, Fault(place=disk('size=16k'), stdout=output_file, output=taken_output), Wanted(*WRITE, FRONT))],
         ('mount',)),
    case('a reader that takes one byte at a time', [Run(TALK, Fault(reading=reads_single_bytes), Wanted(0, '', WHOLE))]),
]

ERROR = [
    case('a full device as standard error', without_error(stderr=opens('/dev/full', os.O_WRONLY))),
    case('closed standard error', without_error(child=closes(2))),
    case('standard error that nobody reads', without_error(stderr=closed_pipe)),
    case('nothing open at all',
         [Run(WORKED, Fault(child=closes(0, 1, 2)), Wanted(3, 'read failed', b'', shows_error=False))]),
    case('words that are none of the program',
         [Run(WORKED, Fault(), Wanted(1, 'usage', b''), words=words)
          for words in ((), ('runs',), ('run', 'run'), ('',), (b'\xff\xfe',), ('x' * 100000,))]),
]
