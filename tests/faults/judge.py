"""What a run under a fault must have left."""

from typing import NamedTuple, Optional

from program import Fault

WHOLE, FRONT = 'whole', 'a front'
CALM, EITHER = 'as without the fault', 'as before or as without the fault'
GONE = None


class Lines(NamedTuple):
    """So many lines of the output without the fault, from the first on."""
    count: int


class Bytes(NamedTuple):
    """So many bytes of the output without the fault, from the first on."""
    count: int


class Wanted(NamedTuple):
    """What is wanted of a run. A file that is not named stays as it was."""
    status: int
    error: str = ''            # the text behind the program's name, or '' for none
    output: object = FRONT     # WHOLE, FRONT, Lines, Bytes, or exact bytes
    files: dict = {}           # name: what stands there afterwards, CALM, EITHER or GONE
    shows_error: bool = True   # whether standard error can be seen


class Run(NamedTuple):
    """One run: the source, the fault and what is wanted, over these files, by these words."""
    source: bytes
    fault: Fault
    wanted: Wanted
    files: dict = {}
    words: tuple = ('run',)
    calm: Optional[bytes] = None   # the source of the run without the fault, where it is another


class Told(NamedTuple):
    """What a case came to: how many runs, what was wrong, and what was seen besides."""
    runs: int
    wrong: list
    note: str = ''


class Case(NamedTuple):
    """A line of the table: its name, what it does with a program, and what it needs (run.py says which needs there are)."""
    name: str
    check: object
    needs: tuple = ()


def first_lines(text, count):
    """The first so many lines of a text."""
    return b''.join(text.splitlines(keepends=True)[:count])


def is_output(wanted, output, calm):
    """Whether the output is the wanted one, beside that of the calm run."""
    if isinstance(wanted, bytes):
        return output == wanted
    if wanted == WHOLE:
        return output == calm
    if isinstance(wanted, Lines):
        return output == first_lines(calm, wanted.count)
    if isinstance(wanted, Bytes):
        return output == calm[:wanted.count]
    return calm.startswith(output)


def short(data):
    """Bytes or words, cut to what can be shown."""
    text = repr(data)
    return text if len(text) < 120 else text[:80] + '... of %d' % len(data)


def file_wanted(name, data, answer, calm):
    """What should stand under a name that is named."""
    after, without = answer.after.get(name), calm.after.get(name)
    if data == EITHER and after == answer.before.get(name):
        return after
    return without if data in (CALM, EITHER) else data


def files_wanted(wanted, answer, calm):
    """What should stand in the folder afterwards."""
    files = dict(answer.before)
    for name, data in wanted.files.items():
        files[name] = file_wanted(name, data, answer, calm)
    return {name: data for name, data in files.items() if data is not GONE}


def ended(status):
    """How a run ended, in words."""
    if status is None:
        return 'did not end'
    return 'ended by signal %d' % -status if status < 0 else 'status %d' % status


def problems(wanted, answer, calm):
    """What is wrong with an answer."""
    found = []
    if answer.status != wanted.status:
        found.append('%s, not status %d' % (ended(answer.status), wanted.status))
    error = b'pcm: %s\n' % wanted.error.encode() if wanted.error and wanted.shows_error else b''
    if answer.error != error:
        found.append('standard error %s, not %s' % (short(answer.error), short(error)))
    if not is_output(wanted.output, answer.output, calm.output):
        found.append('output %s, not %s of %s' % (short(answer.output), short(wanted.output), short(calm.output)))
    files = files_wanted(wanted, answer, calm)
    for name in sorted(set(files) | set(answer.after)):
        if files.get(name) != answer.after.get(name):
            found.append('%s is %s, not %s' % (name, short(answer.after.get(name)), short(files.get(name))))
    return found


def checked(program, runs):
    """What these runs came to."""
    wrong, count = [], 0
    for count, run in enumerate(runs, 1):
        without = program.calm(run.words, run.source if run.calm is None else run.calm, run.files)
        answer = program.run(run.words, run.source, run.files, run.fault)
        wrong += ['run %d: %s' % (count, text) for text in problems(run.wanted, answer, without)]
    return Told(count, wrong)


def case(name, runs, needs=()):
    """A case of a list of runs, or of a function that makes it."""
    return Case(name, lambda program: checked(program, runs() if callable(runs) else runs), needs)
