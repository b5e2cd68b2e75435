"""Cases of files: of what stands in their place, and of the folder."""

import os
import resource
import signal
import socket
import stat

import texts
from ends import WRITE, closed_pipe, file_limit, opens
from judge import CALM, GONE, WHOLE, Lines, Run, Wanted, case
from program import Fault, after_first_line, disk, send, wait_until_asleep
from texts import BOTH, IN_WAV, script

FAULT = (5, 'file access failed')
MISSING = (6, 'missing in.wav')
NOT_RIFF = (7, 'bad wav in.wav: not RIFF')
TOO_LONG = (9, 'limit WavBytes 68157441')

SAVED, SAVED_LONG, FED = script(texts.SAVED), script(texts.SAVED_LONG), script(texts.FED)
NOBODY = 65534


def before(word, source):
    """The lines in front of the first that begins with a word."""
    front = source[:source.index(b'\n' + word.encode()) + 1]
    return Lines(front.count(b'\n'))


def stops_at(word, source, fault, end, files=None, given=BOTH):
    """A run that ends so at the first line with this word; no file but those that are named changes."""
    return Run(source, fault, Wanted(*end, before(word, source), files or {}), given)


def save_fails(fault):
    """A store that fails leaves the old file, and nothing beside it."""
    return stops_at('save', SAVED, fault, FAULT)


def feed_ends(fault, end):
    """A load that ends the run."""
    return stops_at('feed', FED, fault, end)


# What is done to the folder


def mode(name, bits):
    """Gives a file, or the folder itself, this mode."""
    return lambda folder: os.chmod(os.path.join(folder, name), bits)


def in_place(name, make):
    """Puts something else in a file's place."""
    def change(folder):
        """Removes the file and makes the other."""
        path = os.path.join(folder, name)
        if os.path.lexists(path):
            os.remove(path)
        make(path)
    return change


def link_to(target):
    """Makes a symbolic link."""
    return lambda path: os.symlink(target, path)


def device(minor):
    """Makes a device of the system's memory: 3 is null, 5 zero, 7 full."""
    return lambda path: os.mknod(path, stat.S_IFCHR | 0o666, os.makedev(1, minor))


def listening(path):
    """Makes a socket."""
    with socket.socket(socket.AF_UNIX) as end:
        end.bind(os.path.relpath(path) if len(path) > 100 else path)


def zeros(count):
    """Makes a file of so many bytes."""
    def make(path):
        """Makes it."""
        with open(path, 'wb') as file:
            file.truncate(count)
    return make


def read_only_disk(folder):
    """Nothing on this disk changes from now on."""
    if os.system('mount -o remount,ro %s' % folder):
        raise OSError('no remount')


# What is done in the new process


def without_rights():
    """The process is nobody's."""
    if os.geteuid() == 0:
        os.setgroups([])
        os.setgid(NOBODY)
        os.setuid(NOBODY)


# What is done between two lines


def few_files(process):
    """No file can be opened beside the three streams."""
    resource.prlimit(process.pid, resource.RLIMIT_NOFILE, (3, 3))


def between(word, act):
    """Sends the lines up to the first with this word, waits until they are executed, acts, and sends the rest."""
    def sending(process, end, source, folder):
        """Sends them."""
        at = source.index(b'\n', source.index(b'\n' + word.encode()) + 1) + 1
        send(end, source[:at])
        wait_until_asleep(process, end)
        act(folder)
        send(end, source[at:])
    return Fault(sending=sending)


def remove(name):
    """Removes a file."""
    return lambda folder: os.remove(os.path.join(folder, name))


def remove_folder(folder):
    """Removes the folder with its files."""
    for name in os.listdir(folder):
        os.remove(os.path.join(folder, name))
    os.rmdir(folder)


TWICE_FED = script(texts.RECORDING + 'feed s1 in.wav\nstatus c1 s1\nfeed s1 in.wav\n')
TWICE_SAVED = script(texts.SAVED + 'save s0 out.wav\n')
ALL_GONE = dict.fromkeys(BOTH, GONE)


def second(word, source, fault, end, files):
    """A run that ends so at the second line with this word, of two that are three lines apart."""
    lines = before(word, source).count + 2
    return Run(source, fault, Wanted(*end, Lines(lines), files), BOTH)


VANISHED = [
    second('feed', TWICE_FED, between('feed', remove('in.wav')), MISSING, {'in.wav': GONE}),
    second('feed', TWICE_FED, between('feed', remove_folder), MISSING, ALL_GONE),
    Run(TWICE_SAVED, between('save', remove('out.wav')), Wanted(0, '', WHOLE, {'out.wav': CALM}), BOTH),
    second('save', TWICE_SAVED, between('save', remove_folder), FAULT, ALL_GONE),
]

PARTS = {'.out.wav.part%d' % number: b'of an interrupted store' for number in range(10)}


def folders_as_parts(folder):
    """Folders stand where a store writes first."""
    for name in PARTS:
        os.mkdir(os.path.join(folder, name))


def links(name):
    """A link in the place of the old file: to a file, to nothing, and to where no file may be made."""
    return [Fault(change=in_place(name, link_to(target))) for target in ('other.wav', 'nothing.wav', '/nowhere/at.wav')]


def cut_stores():
    """No file may grow beyond so many bytes: the store fails, or the file fits."""
    fails = [stops_at('save', SAVED, Fault(child=file_limit(count)), FAULT) for count in range(48)]
    return fails + [Run(SAVED, Fault(child=file_limit(48)), Wanted(0, '', WHOLE, {'out.wav': CALM}), BOTH)]


def strict_limit():
    """No file grows beyond 20 bytes, and trying so is a signal that ends a process, as with `ulimit -f`."""
    resource.setrlimit(resource.RLIMIT_FSIZE, (20, 20))


# The first 20 bytes of the file of three samples; nothing of the output is written yet.
CUT_OFF = Wanted(-signal.SIGXFSZ, '', b'', {'.out.wav.part0': texts.recording(3)[:20]})


FILES = [
    case('a store on a full disk', [stops_at('save', SAVED_LONG, Fault(place=disk('size=64k')), FAULT)], ('mount',)),
    case('a store on a disk without room for one more file',
         [save_fails(Fault(place=disk('size=1m,nr_inodes=4')))], ('mount',)),
    case('a store where no file may grow, at each size', cut_stores),
    case('a store that the signal of a full limit ends', [Run(SAVED, Fault(child=strict_limit), CUT_OFF, BOTH)]),
    case('a store on a disk that is read-only',
         [save_fails(Fault(place=disk('size=1m'), change=read_only_disk))], ('mount',)),
    case('a store in a folder without rights', [save_fails(Fault(change=mode('.', 0o555), child=without_rights))]),
    case('files without rights',
         [save_fails(Fault(change=lambda folder: (mode('.', 0o777)(folder), mode('out.wav', 0o444)(folder)),
                           child=without_rights)),
          feed_ends(Fault(change=mode('in.wav', 0), child=without_rights), FAULT)]),
    case('no more open files', [save_fails(Fault(sending=after_first_line(few_files))),
                                feed_ends(Fault(sending=after_first_line(few_files)), FAULT)]),
    case('a file or a folder that vanishes between two lines', VANISHED),
    case('no file of that name', [feed_ends(Fault(change=remove('in.wav')), MISSING)]),
    case('a file of the greatest length and one byte more',
         [feed_ends(Fault(change=in_place('in.wav', zeros(count))), end)
          for count, end in ((68157440, NOT_RIFF), (68157441, TOO_LONG))]),
    case('a folder in the place of a file',
         [save_fails(Fault(change=in_place('out.wav', os.mkdir))),
          feed_ends(Fault(change=in_place('in.wav', os.mkdir)), FAULT)]),
    case('a store over a pipe', [save_fails(Fault(change=in_place('out.wav', os.mkfifo)))]),
    case('a load from a pipe', [feed_ends(Fault(change=in_place('in.wav', os.mkfifo)), FAULT)]),
    case('a socket in the place of a file',
         [save_fails(Fault(change=in_place('out.wav', listening))),
          feed_ends(Fault(change=in_place('in.wav', listening)), FAULT)]),
    case('a store over a device', [save_fails(Fault(change=in_place('out.wav', device(minor)))) for minor in (3, 5, 7)],
         ('root',)),
    case('a load from a device',
         [feed_ends(Fault(change=in_place('in.wav', device(minor))), end)
          for minor, end in ((3, FAULT), (5, FAULT), (7, FAULT))], ('root',)),
    case('a store over a symbolic link to a file or to nothing',
         [Run(SAVED, fault, Wanted(0, '', WHOLE, {'out.wav': CALM}), BOTH) for fault in links('out.wav')]),
    case('a store over a symbolic link to something else',
         [save_fails(Fault(change=in_place('out.wav', link_to(target)))) for target in ('.', 'out.wav', '/dev/null')]),
    case('a load through a symbolic link',
         [Run(FED, Fault(change=link), Wanted(0, '', WHOLE), {**BOTH, 'same.wav': IN_WAV})
          for link in (in_place('in.wav', link_to('same.wav')),)]
         + [feed_ends(Fault(change=in_place('in.wav', link_to(target))), end)
            for target, end in (('nothing.wav', MISSING), ('.', FAULT), ('in.wav', FAULT), ('other.wav', NOT_RIFF),
                                ('/proc/self/mem', FAULT))]),
    case('a store beside what ten interrupted ones left',
         [Run(SAVED, Fault(), Wanted(0, '', WHOLE, {'out.wav': CALM}), {**BOTH, **PARTS})]),
    case('a store beside ten folders of such names',
         [Run(SAVED, Fault(change=folders_as_parts), Wanted(0, '', WHOLE, {'out.wav': CALM}), BOTH)]),
]

# The faults that a command on files meets: a name, the fault, how the command ends, the files that may change, and needs.
FILE_FAULTS = [
    ('no file', Fault(change=remove('in.wav')), MISSING, {}, ()),
    ('no WAV file', Fault(change=in_place('in.wav', link_to('other.wav'))), NOT_RIFF, {}, ()),
    ('a folder to read', Fault(change=in_place('in.wav', os.mkdir)), FAULT, {}, ()),
    ('a pipe to read', Fault(change=in_place('in.wav', os.mkfifo)), FAULT, {}, ()),
    ('a folder to write', Fault(change=in_place('out.wav', os.mkdir)), FAULT, {}, ()),
    ('a pipe to write', Fault(change=in_place('out.wav', os.mkfifo)), FAULT, {}, ()),
    ('a full disk', Fault(child=file_limit(100)), FAULT, {}, ()),
    ('a read-only disk', Fault(place=disk('size=64m'), change=read_only_disk), FAULT, {}, ('mount',)),
    ('a full device as standard output', Fault(stdout=opens('/dev/full', os.O_WRONLY)), WRITE, {'out.wav': CALM}, ()),
    ('an output that nobody reads', Fault(stdout=closed_pipe), WRITE, {'out.wav': CALM}, ()),
]


def file_command(name):
    """The cases of a command on files, where the program has it."""
    words = texts.FILE_COMMANDS[name]
    return [case('%s with %s' % (name, what), [Run(b'', fault, Wanted(*end, b'', files), BOTH, words)], (name,) + needs)
            for what, fault, end, files, needs in FILE_FAULTS]


COMMANDS = [row for name in texts.FILE_COMMANDS for row in file_command(name)]
