"""Runs inside gdb: refuses the first growth of a program, then in another run the second, and so on.

Its one argument, in the variable FAULTS_FOLDER, is a folder with the folder `files`, in which each run begins, and the
file `script`. Run N has a copy of it, N, and leaves N.out, N.err and N.end, with the status, or the signal as a negative
number. It ends with the run in which no growth is left to refuse; that one has no N.end.
"""

import os
import shutil

import gdb

FOLDER = os.environ['FAULTS_FOLDER']
WORDS = os.environ['FAULTS_WORDS']
MOST = 2000


class Growth(gdb.Breakpoint):
    """A call of the C library that gives memory; it counts those that the program itself makes."""
    count, refused = 0, 0

    def stop(self):
        """Whether this is the call to refuse."""
        caller = gdb.selected_frame().older()
        if not caller or gdb.solib_name(caller.pc()):
            return False
        Growth.count += 1
        return Growth.count == Growth.refused


def run(number):
    """Refuses the growth of this number; whether there was one."""
    place = os.path.join(FOLDER, str(number))
    shutil.copytree(os.path.join(FOLDER, 'files'), place)
    Growth.count, Growth.refused = 0, number
    gdb.execute('set cwd ' + place)
    gdb.execute('run %s < %s/script > %s.out 2> %s.err' % (WORDS, FOLDER, place, place), to_string=True)
    if Growth.count < number:
        return False
    gdb.execute('return (void *) 0', to_string=True)
    gdb.execute('continue', to_string=True)
    ended = gdb.convenience_variable('_exitcode')
    signal = gdb.convenience_variable('_exitsignal')
    with open(place + '.end', 'w') as file:
        file.write(str(int(ended) if ended is not None else -int(signal or 0)))
    if gdb.selected_inferior().pid:
        gdb.execute('kill')
    return True


for setting in ('pagination off', 'confirm off', 'breakpoint pending on', 'startup-with-shell on'):
    gdb.execute('set ' + setting)
Growth('malloc')
Growth('realloc')
for each in range(1, MOST):
    gdb.set_convenience_variable('_exitcode', None)
    gdb.set_convenience_variable('_exitsignal', None)
    if not run(each):
        break
