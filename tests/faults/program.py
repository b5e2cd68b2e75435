"""One run of the program in a folder of its own, with a fault or without, and what it left."""

import contextlib
import fcntl
import os
import shutil
import stat
import subprocess
import tempfile
import termios
import threading
import time
from typing import Callable, NamedTuple, Optional

LONGEST = 30  # seconds of one run


class Answer(NamedTuple):
    """What a run left. The status is negative where a signal ended it, and None where it did not end by itself."""
    status: Optional[int]
    output: bytes
    error: bytes
    before: dict
    after: dict


# Folders


@contextlib.contextmanager
def plain_folder():
    """A new folder."""
    with tempfile.TemporaryDirectory(prefix='pcm-faults-') as folder:
        os.chmod(folder, 0o755)
        yield folder


def disk(options):
    """A new disk in memory with these options of mount, for root alone."""
    @contextlib.contextmanager
    def mounted():
        """The folder in which the disk stands."""
        with plain_folder() as folder:
            subprocess.run(['mount', '-t', 'tmpfs', '-o', options, 'tmpfs', folder], check=True,
                           stderr=subprocess.DEVNULL)
            try:
                yield folder
            finally:
                subprocess.run(['umount', folder], check=True)
    return mounted


def bytes_of(path):
    """The bytes of a file, or words where this user may not read it."""
    try:
        with open(path, 'rb') as file:
            return file.read()
    except PermissionError:
        return 'closed file of %d bytes' % os.lstat(path).st_size


def entry(path):
    """What stands under a path: the bytes of a file, and words for anything else."""
    mode = os.lstat(path).st_mode
    if stat.S_ISREG(mode):
        return bytes_of(path)
    if stat.S_ISLNK(mode):
        return 'link to ' + os.readlink(path)
    if stat.S_ISDIR(mode):
        return 'folder of %r' % sorted(os.listdir(path))
    return 'special %o %x' % (mode, os.lstat(path).st_rdev)


def entries(folder):
    """All that stands in a folder, by name."""
    try:
        return {name: entry(os.path.join(folder, name)) for name in sorted(os.listdir(folder))}
    except FileNotFoundError:
        return {}


def put_files(folder, files):
    """Stores files by name."""
    for name, data in files.items():
        with open(os.path.join(folder, name), 'wb') as file:
            file.write(data)


# What goes in and what comes out


def send(end, data):
    """Writes bytes to a program that may have gone."""
    with contextlib.suppress(BrokenPipeError, ConnectionResetError):
        while data:
            data = data[os.write(end, data):]


def send_all(process, end, source, folder):
    """Hands the source to the program."""
    send(end, source)


def read_all(end):
    """All that the program writes."""
    pieces = []
    while True:
        piece = os.read(end, 65536)
        if not piece:
            return b''.join(pieces)
        pieces.append(piece)


def state_of(process):
    """The system's letter for what a process does; X where it is gone."""
    try:
        with open('/proc/%d/stat' % process.pid) as file:
            return file.read().rpartition(')')[2].split()[0]
    except OSError:
        return 'X'


def wait_for(true):
    """Waits until something is true, for a while."""
    end = time.monotonic() + LONGEST
    while not true() and time.monotonic() < end:
        time.sleep(0.0002)


def unread(end):
    """How many bytes of a pipe were not read yet."""
    return int.from_bytes(fcntl.ioctl(end, termios.FIONREAD, bytes(4)), 'little')


def wait_until_asleep(process, end):
    """Waits until the program has read all that was sent, has executed it and waits for more."""
    wait_for(lambda: state_of(process) in 'ZX' or (unread(end) == 0 and state_of(process) == 'S'))


def after_first_line(act):
    """Sends the first line, waits until it is executed, does something to the process, and sends the rest."""
    def sending(process, end, source, folder):
        """Sends them."""
        at = source.index(b'\n') + 1
        send(end, source[:at])
        wait_until_asleep(process, end)
        act(process)
        send(end, source[at:])
    return sending


class Fault(NamedTuple):
    """What is done to a run; a part that is left out is as usual."""
    place: Callable = plain_folder  # the folder that it runs in, for `with`
    change: Callable = None         # changes the folder, before the program starts
    child: Callable = None          # done in the new process, before the program starts
    stdin: Callable = None          # opens what stands in place of the pipe: folder and source in, a descriptor out
    stdout: Callable = None         # the same for the output
    stderr: Callable = None
    sending: Callable = send_all    # hands the source to the program through the pipe
    reading: Callable = read_all    # reads the program's output from the pipe
    output: Callable = None         # where the output stands otherwise: the folder in, bytes out


class Program:
    """The program, copied to a place where every user can start it."""

    def __init__(self, words, folder):
        """The first word names the program; a file is copied into the folder."""
        if os.path.isfile(words[0]):
            copy = os.path.join(folder, 'pcm')
            shutil.copy(words[0], copy)
            os.chmod(copy, 0o755)
            words = [copy] + words[1:]
        self.words = words
        self.known = {}

    def calm(self, words, source, files):
        """The answer without a fault."""
        key = (tuple(words), hash(source), tuple(sorted(files.items())))
        if key not in self.known:
            self.known[key] = self.run(words, source, files, Fault())
        return self.known[key]

    def run(self, words, source, files, fault):
        """One run under a fault."""
        with fault.place() as folder:
            put_files(folder, files)
            if fault.change:
                fault.change(folder)
            before = entries(folder)
            status, output, error = self.started(words, source, fault, folder)
            if fault.output:
                output = fault.output(folder)
            return Answer(status, output, error, before, entries(folder))

    def started(self, words, source, fault, folder):
        """Starts the program in a folder, and waits for its end: its status, its output and its standard error."""
        opened = [opener(folder, source) if opener else None for opener in (fault.stdin, fault.stdout, fault.stderr)]
        process = subprocess.Popen(self.words + list(words), cwd=folder, preexec_fn=fault.child,
                                   **dict(zip(('stdin', 'stdout', 'stderr'), map(or_pipe, opened))))
        for end in opened:
            if end is not None:
                os.close(end)
        threads = [Reader(process.stdout, fault.reading), Reader(process.stderr, read_all)]
        if process.stdin:
            threads.append(Sender(process, source, fault.sending, folder))
        status = end_of(process)
        for thread in threads:
            thread.join(LONGEST)
        return status, threads[0].data, threads[1].data


def or_pipe(end):
    """This descriptor, or a new pipe where there is none."""
    return subprocess.PIPE if end is None else end


def end_of(process):
    """The status of the process, or None where it had to be ended."""
    try:
        return process.wait(LONGEST)
    except subprocess.TimeoutExpired:
        process.kill()
        process.wait()
        return None


class Reader(threading.Thread):
    """Reads what the program writes to a pipe, if it is one."""

    def __init__(self, pipe, reading):
        """Begins to read."""
        super().__init__(daemon=True)
        self.pipe, self.reading, self.data = pipe, reading, b''
        self.start()

    def run(self):
        """Reads to the end, or as far as this fault reads."""
        if self.pipe:
            with self.pipe:
                self.data = self.reading(self.pipe.fileno())


class Sender(threading.Thread):
    """Hands the source to the program."""

    def __init__(self, process, source, sending, folder):
        """Begins to send."""
        super().__init__(daemon=True)
        self.work = (process, process.stdin.fileno(), source, folder)
        self.pipe, self.sending = process.stdin, sending
        self.start()

    def run(self):
        """Sends, and closes the pipe."""
        with contextlib.suppress(BrokenPipeError), self.pipe:
            self.sending(*self.work)
