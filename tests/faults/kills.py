"""Cases of stores that are cut off: the file is the old one or a new one, and leftovers stay and end no later store."""

import os
import random
import signal
import subprocess
import time

import texts
from judge import Case, Told, ended
from program import entries, plain_folder, put_files
from texts import script

NAME = 'out.wav'
SEVERAL, AT_ONCE_ROUNDS = 4, 10   # programs at once, and how often
LONGEST_STORE = 0.002   # seconds from the begin of a store, for signals inside it
LONGEST_SOUND = 0.02    # the same of a long sound

# What three cards took, of 1 byte to 1 MiB, goes under one name in turn.
TAKEN = (texts.opened(0, 'duplex', 'p', texts.LARGE) + texts.turns(0, 1, 32, 32768)
         + texts.opened(1, 'basic', 'p', texts.SMALL) + 'writei c1 s1 n 4243\nmove s1 1\n'
         + texts.opened(2, 'duplex', 'p', texts.MIDDLE) + texts.turns(2, 5, 1, 8000))
TURN = 'save s0 out.wav\nsave s1 out.wav\nsave s2 out.wav\n'
STORES = script(TAKEN + TURN * 15)

# A file that grows, stored after each turn; each turn has an answer that is written at once.
STEPS = 25
GROWING = script(texts.opened(0, 'duplex', 'p', texts.MIDDLE)
                 + ''.join(turn + 'save s0 out.wav\n' for turn in texts.each_turn(0, STEPS, 1, 4000)))
LATER = script(texts.SAVED)

# A sound of eight million frames.
PLAY = ('play', 'in.wav', NAME, '4096', '4')

# What ten stores left that were cut off.
LEFT = {'.%s.part%d' % (NAME, number): b'of an interrupted store' for number in range(10)}


def stored_by(program, source):
    """The file that a script leaves."""
    return program.calm(('run',), source, {}).after[NAME]


def versions(program):
    """The three files that take turns."""
    return [stored_by(program, script(TAKEN + 'save s%d out.wav\n' % number)) for number in range(3)]


def parts(folder):
    """The leftovers of interrupted stores."""
    return sorted(name for name in os.listdir(folder) if name.startswith('.' + NAME + '.part'))


def started(program, folder, name='script', words=('run',), stdout=subprocess.DEVNULL, stderr=subprocess.DEVNULL):
    """Starts a command over a script of this folder."""
    with open(os.path.join(folder, name), 'rb') as stdin:
        return subprocess.Popen(program.words + list(words), cwd=folder, stdin=stdin, stdout=stdout, stderr=stderr)


def after(delay, words=('run',)):
    """Sends the signal after so long; nobody looks at the output."""
    def cut_off(program, folder, number):
        """The status, and no output."""
        process = started(program, folder, words=words)
        time.sleep(delay)
        process.send_signal(number)
        return process.wait(), b''
    return cut_off


def inside(delay, words=('run',)):
    """Sends the signal so long after a store has begun to write beside the old file."""
    def cut_off(program, folder, number):
        """The status, and no output."""
        earlier, process = set(parts(folder)), started(program, folder, words=words)
        while process.poll() is None and not set(parts(folder)) - earlier:
            pass
        end = time.monotonic() + delay
        while time.monotonic() < end:
            pass
        process.send_signal(number)
        return process.wait(), b''
    return cut_off


def at_line(count):
    """Sends the signal when there are so many lines of output."""
    def cut_off(program, folder, number):
        """The status and all output."""
        process, seen = started(program, folder, stdout=subprocess.PIPE), b''
        with process.stdout:
            for line in process.stdout:
                seen += line
                if seen.count(b'\n') == count:
                    break
            process.send_signal(number)
            seen += process.stdout.read()
        return process.wait(), seen
    return cut_off


def later_store(program, folder):
    """What is wrong with a store in the same folder afterwards."""
    process = started(program, folder, 'later', stderr=subprocess.PIPE)
    error = process.communicate()[1]
    wrong = [] if process.returncode == 0 else ['the later store: %s %r' % (ended(process.returncode), error)]
    return wrong if entries(folder)[NAME] == stored_by(program, LATER) else wrong + ['the later store left another file']


class Seen:
    """Counts what the rounds saw."""

    def __init__(self):
        """Nothing was seen yet."""
        self.counts = dict.fromkeys(['old', 'new', 'inside a store', 'after the end', 'left beside it at the end'], 0)
        self.wrong = []

    def round(self, what, status, number, file, old, allowed):
        """One run that was cut off, and the file that it left."""
        if status == 0:
            self.counts['after the end'] += 1
        elif status != -number:
            self.wrong.append('%s: %s' % (what, ended(status)))
        self.counts['old' if file == old else 'new'] += 1
        if file != old and file not in allowed:
            self.wrong.append('%s: the file is neither the old one nor a new one, it has %d bytes' % (what, len(file)))

    def parts(self, earlier, later):
        """A leftover more tells that the run was cut off inside a store; those before it stay."""
        self.counts['inside a store'] += len(later) > len(earlier)
        self.counts['left beside it at the end'] = len(later)
        if not set(earlier) <= set(later):
            self.wrong.append('what another store left is gone')

    def told(self, rounds):
        """What the case came to."""
        return Told(rounds, self.wrong, ', '.join('%d %s' % (count, what) for what, count in self.counts.items()))


def others(folder):
    """All files but the one that is stored and the leftovers."""
    return {name: data for name, data in entries(folder).items() if name != NAME and name not in parts(folder)}


def one_round(program, folder, seen, what, work):
    """Cuts one run off, looks at the file, and stores another behind it."""
    number, cut_off, allowed = work
    earlier, before = parts(folder), others(folder)
    old = entries(folder)[NAME]
    status, output = cut_off(program, folder, number)
    file = entries(folder)[NAME]
    seen.round(what, status, number, file, old, allowed(output))
    seen.parts(earlier, parts(folder))
    if others(folder) != before:
        seen.wrong.append('%s: another file changed' % what)
    seen.wrong += ['%s: %s' % (what, text) for text in later_store(program, folder)]


def rounds(program, source, works, files=None):
    """Cuts runs off one after another in one folder; the works tell the signal, the moment, and the files allowed."""
    seen, count = Seen(), 0
    with plain_folder() as folder:
        put_files(folder, {NAME: texts.OLD, 'other.wav': b'another file', 'script': source, 'later': LATER})
        put_files(folder, files or {})
        for count, work in enumerate(works, 1):
            one_round(program, folder, seen, 'round %d' % count, work)
    return seen.told(count)


def duration(program, words=('run',), files=None):
    """How long the stores take, in seconds: the middle one of five times."""
    times = []
    with plain_folder() as folder:
        put_files(folder, {'script': STORES, **(files or {})})
        for _ in range(5):
            start = time.monotonic()
            started(program, folder, words=words).wait()
            times.append(time.monotonic() - start)
    return sorted(times)[2]


def at_random(numbers, count):
    """A case of so many moments by chance, with these signals in turn."""
    def check(program):
        """Draws the moments from the time that the script takes."""
        chance, length, files = random.Random(2), duration(program), versions(program)
        return rounds(program, STORES, [(numbers[i % len(numbers)], after(chance.uniform(0, length)), lambda output: files)
                                        for i in range(count)])
    return check


def inside_stores(count):
    """A case of so many moments, from the begin of a store to some time behind it."""
    def check(program):
        """The delay rises evenly."""
        files = versions(program)
        return rounds(program, STORES, [(signal.SIGKILL, inside(i * LONGEST_STORE / count), lambda output: files)
                                        for i in range(count)])
    return check


def at_each_line(program):
    """Ends the program as soon as it has written so many lines: its stores up to there are done."""
    calm = program.calm(('run',), GROWING, {})
    lines = calm.output.splitlines(keepends=True)
    saves = [at for at, line in enumerate(GROWING.splitlines()) if line.startswith(b'save')]
    files = [stored_by(program, b''.join(GROWING.splitlines(keepends=True)[:at + 1])) for at in saves]

    def allowed(output):
        """The files of the last store that was told, and of those behind it; all must begin the calm output."""
        told = sum(at < output.count(b'\n') for at in saves)
        return files[max(told - 1, 0):] if calm.output.startswith(output) else []
    return rounds(program, GROWING, [(signal.SIGKILL, at_line(count), allowed) for count in range(1, len(lines) + 1)])


def at_once(left):
    """A case of several programs that store under one name at once, beside what other stores left."""
    def check(program):
        """Each ends well, the file is one of theirs, and what was left stays."""
        wrong, files = [], versions(program)
        with plain_folder() as folder:
            put_files(folder, {NAME: texts.OLD, 'script': STORES, **left})
            for count in range(1, AT_ONCE_ROUNDS + 1):
                ends = [process.wait() for process in [started(program, folder) for _ in range(SEVERAL)]]
                wrong += ['round %d: %s' % (count, ended(status)) for status in ends if status != 0]
                now = entries(folder)
                if now[NAME] not in files:
                    wrong.append('round %d: the file is none of theirs, it has %d bytes' % (count, len(now[NAME])))
                if {name: now[name] for name in parts(folder)} != left:
                    wrong.append('round %d: what stands beside it has changed' % count)
        return Told(AT_ONCE_ROUNDS * SEVERAL, wrong)
    return check


def plays(count):
    """A case of a long sound that is played: half of the moments by chance, half from the begin of its store on."""
    def check(program):
        """The file is the old one or that of the whole sound."""
        files = {'in.wav': texts.recording(8 << 20)}
        chance, length = random.Random(3), duration(program, PLAY, files)
        allowed = [program.calm(PLAY, b'', files).after[NAME]]
        moments = [after(chance.uniform(0, length), PLAY) for _ in range(count // 2)]
        moments += [inside(i * LONGEST_SOUND / (count // 2), PLAY) for i in range(count // 2)]
        return rounds(program, STORES, [(signal.SIGKILL, moment, lambda output: allowed) for moment in moments], files)
    return check


KILLS = [
    Case('stores that SIGKILL cuts off at 300 moments by chance', at_random([signal.SIGKILL], 300)),
    Case('stores that SIGKILL cuts off from their begin on', inside_stores(300)),
    Case('stores that SIGKILL cuts off at each line of output', at_each_line),
    Case('stores that SIGTERM, SIGINT and SIGHUP cut off', at_random([signal.SIGTERM, signal.SIGINT, signal.SIGHUP], 60)),
    Case('plays that SIGKILL cuts off', plays(100), ('play',)),
    Case('four programs that store under one name at once', at_once({})),
    Case('four programs that store at once beside what ten stores left', at_once(LEFT)),
]
