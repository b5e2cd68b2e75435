"""Cases of memory: each run has a little more of it, from none beyond what it began with to all that it wants."""

import itertools
import os
import resource
import subprocess

import texts
from judge import CALM, EITHER, WHOLE, Case, Run, Told, Wanted, case, problems
from program import Answer, Fault, after_first_line, entries, plain_folder, put_files
from texts import HERE, script

PAGE = 4096
FIRST_PAGES = 40        # the first limits lie one page apart
GROWING = 1.12          # the later ones rise by this factor
MOST = 1 << 30
MEMORY = (8, 'out of memory')


def limits(first, most=MOST):
    """Limits in bytes, page by page and then in growing steps."""
    extra = 0
    while extra < most:
        yield first + extra
        extra = extra + PAGE if extra < FIRST_PAGES * PAGE else int(extra * GROWING) // PAGE * PAGE


def size_of(process):
    """How many bytes of addresses a process has."""
    with open('/proc/%d/statm' % process.pid) as file:
        return int(file.read().split()[0]) * resource.getpagesize()


def page_by_page():
    """The C library takes memory from the system in single pages, as it needs them, and none ahead."""
    os.environ.update(MALLOC_TOP_PAD_='0', MALLOC_MMAP_THRESHOLD_='4096')


def growing_by(extra):
    """A process that can grow by so many bytes, once it has executed a line."""
    def act(process):
        """Sets the limit."""
        size = size_of(process) + extra
        resource.prlimit(process.pid, resource.RLIMIT_AS, (size, size))
    return Fault(sending=after_first_line(act), child=page_by_page)


def small_stack():
    """A stack of 128 KiB."""
    resource.setrlimit(resource.RLIMIT_STACK, (1 << 17, 1 << 17))


def address_limit(size):
    """A process that has so many bytes of addresses from its beginning on."""
    def child():
        """Sets the limit."""
        page_by_page()
        resource.setrlimit(resource.RLIMIT_AS, (size, size))
    return Fault(child=child)


def wanted_of(answer, saved):
    """What is wanted of a run that may lack memory: it ends well, or says so; of its stores some are done."""
    if answer.status == 0:
        return Wanted(0, '', WHOLE, dict.fromkeys(saved, CALM))
    return Wanted(*MEMORY, files=dict.fromkeys(saved, EITHER))


def stepped(program, work, steps, fault_of):
    """Runs under rising limits, until three in a row end well."""
    words, source, files, saved = work
    without = program.calm(words, source, files)
    wrong, lacking, runs, well = [], 0, 0, 0
    for limit in steps:
        answer = program.run(words, source, files, fault_of(limit))
        runs, well, lacking = runs + 1, well + 1 if answer.status == 0 else 0, lacking + (answer.status == 8)
        wrong += ['%d bytes: %s' % (limit, text) for text in problems(wanted_of(answer, saved), answer, without)]
        if well == 3:
            return Told(runs, wrong, '%d of status 8' % lacking)
    return Told(runs, wrong + ['no run had enough'])


def growing(name, text, files=None, saved=()):
    """A script that is run with more and more room to grow."""
    work = (('run',), script(text), files or {}, saved)
    return Case(name, lambda program: stepped(program, work, limits(0), growing_by))


def starts(program, limit):
    """Whether the system starts the program at all with so many bytes."""
    return program.run((), b'', {}, address_limit(limit)).error == b'pcm: usage\n'


def refused_in_gdb(program, work, folder):
    """Has gdb refuse one growth after another; the answers, each with the files before it."""
    words, source, files, _ = work
    put_files(folder, {'script': source})
    os.mkdir(os.path.join(folder, 'files'))
    put_files(os.path.join(folder, 'files'), files)
    subprocess.run(['gdb', '-q', '-nx', '-batch', '-x', os.path.join(HERE, 'refuse.py'), '--args'] + program.words,
                   env=dict(os.environ, FAULTS_FOLDER=folder, FAULTS_WORDS=' '.join(words)), stdin=subprocess.DEVNULL,
                   stdout=subprocess.DEVNULL, stderr=subprocess.DEVNULL, check=True)
    left = entries(folder)
    for number in itertools.takewhile(lambda number: '%d.end' % number in left, itertools.count(1)):
        yield Answer(int(left['%d.end' % number]), left['%d.out' % number], left['%d.err' % number], files,
                     entries(os.path.join(folder, str(number))))


def each_growth(words, source, files, saved):
    """A check in which every growth that the program asks for is refused in turn, and all others are not."""
    def check(program):
        """Judges each answer as one for want of memory."""
        without, wrong, number = program.calm(words, source, files), [], 0
        with plain_folder() as folder:
            for number, answer in enumerate(refused_in_gdb(program, (words, source, files, saved), folder), 1):
                wanted = Wanted(*MEMORY, files=dict.fromkeys(saved, EITHER))
                wrong += ['growth %d: %s' % (number, text) for text in problems(wanted, answer, without)]
        return Told(number, wrong if number else ['gdb refused nothing'])
    return check


def least_start(program):
    """The least limit, in pages, with which the system starts the program."""
    low, high = 0, MOST // PAGE
    while low + 1 < high:
        middle = (low + high) // 2
        low, high = (low, middle) if starts(program, middle * PAGE) else (middle, high)
    return high * PAGE


def from_the_start(words, source, files, saved):
    """Runs with more and more addresses, from the least with which the program starts."""
    def check(program):
        """Seeks the least limit, and steps on from there."""
        least = least_start(program)
        told = stepped(program, (words, source, files, saved), limits(least), address_limit)
        return told._replace(note='%s, from %d bytes on' % (told.note, least))
    return check


def in_file_commands(name):
    """A command on files, where the program has it."""
    words = texts.FILE_COMMANDS[name]
    return Case('memory for ' + name, from_the_start(words, b'', texts.LONG_FILES, ('out.wav',)), (name,))


def each_growth_of(name):
    """A command on files, in which every growth is refused in turn."""
    return Case('each growth of %s refused in turn' % name, each_growth(texts.FILE_COMMANDS[name], b'', texts.BOTH, ('out.wav',)),
                (name, 'gdb'))


# Words, source, files, and the files that it stores.
EVERYTHING = (('run',), script(texts.GROWTH), texts.BOTH, ('out.wav', 'two.wav', 'three.wav'))
REFINING = (('refine',), script(texts.SPACES * 2000), {}, ())

MEMORY_CASES = [
    Case('memory for a script with everything that grows',
         lambda program: stepped(program, EVERYTHING, limits(0), growing_by)),
    growing('memory for a large configuration', texts.LARGE_ONE),
    growing('memory for sixteen configurations', texts.SIXTEEN),
    growing('memory for a long line', texts.LONG_LINE),
    growing('memory for a load of a large file', texts.LONG_FEED, texts.LONG_FILES),
    growing('memory for a store of a large file', texts.LONG_SAVE, texts.BOTH, ('out.wav',)),
    growing('memory for many answers', texts.TALK),
    case('a small stack', [Run(EVERYTHING[1], Fault(child=small_stack),
                               Wanted(0, '', WHOLE, dict.fromkeys(EVERYTHING[3], CALM)), texts.BOTH)]),
    Case('memory for refine', lambda program: stepped(program, REFINING, limits(0), growing_by)),
    Case('memory from the start', from_the_start(*EVERYTHING)),
    Case('each growth refused in turn', each_growth(*EVERYTHING), ('gdb',)),
    in_file_commands('play'),
    in_file_commands('capture'),
    each_growth_of('play'),
    each_growth_of('capture'),
]
