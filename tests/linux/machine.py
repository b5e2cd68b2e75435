"""The virtual machine: a kernel's packages, the module and the player built for it, and scripts played in it.

Packages are downloaded and unpacked into a folder, never installed. Nothing of the running system is changed.
"""

import os
import re
import shutil
import subprocess
import time
from typing import NamedTuple

HERE = os.path.dirname(os.path.abspath(__file__))
SOURCES = os.path.join(HERE, 'machine')
PLAYER_SOURCES = ['main.c', 'text.c', 'substream.c', 'client.c', 'lines.c']
PLAYER_FLAGS = ['-O1', '-Wall', '-static', '-pthread']
MODULES = ['soundcore', 'core/snd', 'core/snd-timer', 'core/snd-pcm']
TOOLS = {'qemu-system-x86_64': 'qemu-system-x86', 'apt-get': 'apt', 'apt-cache': 'apt', 'dpkg-deb': 'dpkg', 'gcc': 'gcc',
         'make': 'make', 'cpio': 'cpio', 'xz': 'xz-utils'}
SCRIPT_BYTES = 30 * 2 ** 20
FAILED_STARTS = 3


class Missing(Exception):
    """Something that the comparison needs is not there."""


class Kernel(NamedTuple):
    """A kernel: its name, what boots, the folder that modules are built against, and the one with sound/*.ko."""
    release: str
    image: str
    headers: str
    modules: str


def require_tools(install):
    """Sees that all tools are there; installs their packages where that is wanted."""
    packages = sorted({package for tool, package in TOOLS.items() if shutil.which(tool) is None})
    if packages and install:
        subprocess.run(['apt-get', 'install', '--yes', '--no-install-recommends'] + packages, check=True)
    elif packages:
        raise Missing('missing packages: %s (--install gets them)' % ' '.join(packages))


# Packages


def offered(series):
    """The releases of a series that apt offers with their headers, the newest last."""
    names = subprocess.run(['apt-cache', 'pkgnames', 'linux-'], stdout=subprocess.PIPE, check=True, text=True).stdout.split()
    wanted = re.compile(r'linux-image-(%s\.[0-9.]+(-[0-9]+|\+[a-z0-9]+)-amd64)' % re.escape(series))
    found = [match.group(1) for match in map(wanted.fullmatch, names) if match]
    with_headers = [release for release in found if 'linux-headers-' + release in names]
    return sorted(with_headers, key=lambda release: [int(number) for number in re.findall('[0-9]+', release)])


def release_of(word):
    """The release of this name, or the newest one of a series, such as 6.1."""
    if not re.fullmatch(r'[0-9]+\.[0-9]+', word):
        return word
    releases = offered(word)
    if not releases:
        raise Missing('apt offers no kernel %s' % word)
    return releases[-1]


def packages_of(release):
    """The packages that hold the kernel of a release and what its modules are built with."""
    headers = 'linux-headers-' + release
    depends = subprocess.run(['apt-cache', 'depends', headers], stdout=subprocess.PIPE, text=True).stdout
    others = re.findall(r'Depends: (linux-kbuild-\S+|linux-headers-\S+-common)$', depends, re.MULTILINE)
    if len(others) != 2:
        raise Missing('apt offers no %s' % headers)
    return ['linux-image-' + release, headers] + others


def fetch(release, work):
    """The kernel of a release, unpacked in the work folder."""
    root = os.path.join(work, 'root-' + release)
    if not os.path.exists(root):
        partly, store = root + '.part', os.path.join(work, 'packages-' + release)
        for folder in (partly, store):
            shutil.rmtree(folder, ignore_errors=True)
            os.makedirs(folder)
        # The sandbox of apt could not write into a folder of root's.
        download = ['apt-get', '-q', '-o', 'APT::Sandbox::User=root', 'download']
        done = subprocess.run(download + packages_of(release), cwd=store, stdout=subprocess.DEVNULL)
        if done.returncode != 0:
            raise Missing('apt-get could not download the packages of %s' % release)
        for name in sorted(os.listdir(store)):
            subprocess.run(['dpkg-deb', '-x', os.path.join(store, name), partly], check=True)
        os.rename(partly, root)
    return unpacked(release, root)


def unpacked(release, root):
    """The kernel in a folder of unpacked packages, whose headers are told where they lie."""
    sources = os.path.join(root, 'usr', 'src')
    headers = os.path.join(sources, 'linux-headers-' + release)
    common = [name for name in os.listdir(sources) if name.endswith('-common')][0]
    with open(os.path.join(headers, 'Makefile'), 'w') as file:
        file.write('include %s\n' % os.path.join(sources, common, 'Makefile'))
    modules = os.path.join(root, 'lib', 'modules', release, 'kernel')
    if not os.path.isdir(modules):
        modules = os.path.join(root, 'usr', modules[len(root) + 1:])
    return Kernel(release, os.path.join(root, 'boot', 'vmlinuz-' + release), headers, modules)


def built_tree(folder):
    """The kernel of a tree of sources in which it was built."""
    folder = os.path.abspath(folder)
    with open(os.path.join(folder, 'include', 'config', 'kernel.release')) as file:
        release = file.read().strip()
    return Kernel(release, os.path.join(folder, 'arch', 'x86', 'boot', 'bzImage'), folder, folder)


# Building


def build_module(kernel, work):
    """The stepped card, built for the kernel; answers its file."""
    folder = os.path.join(work, 'module-' + kernel.release)
    os.makedirs(folder, exist_ok=True)
    for name in ('stepped_card.c', 'stepped_card.h'):
        shutil.copy(os.path.join(SOURCES, name), folder)
    with open(os.path.join(folder, 'Makefile'), 'w') as file:
        file.write('obj-m := stepped_card.o\n')
    run_quietly(['make', '-s', '-C', kernel.headers, 'M=' + folder, 'CONFIG_DEBUG_INFO_BTF_MODULES=', 'modules'])
    return os.path.join(folder, 'stepped_card.ko')


def run_quietly(command):
    """Runs a command, and shows what it said where it fails."""
    done = subprocess.run(command, stdout=subprocess.PIPE, stderr=subprocess.STDOUT)
    if done.returncode != 0:
        raise Missing('%s failed:\n%s' % (command[0], done.stdout.decode(errors='replace')))


def unpack_module(kernel, name, target):
    """Copies one of the kernel's own modules, which may be packed."""
    base = os.path.join(kernel.modules, 'sound', name + '.ko')
    target = os.path.join(target, os.path.basename(base))
    if os.path.exists(base):
        shutil.copy(base, target)
    elif os.path.exists(base + '.xz'):
        with open(target, 'wb') as file:
            subprocess.run(['xz', '-d', '-c', base + '.xz'], stdout=file, check=True)
    else:
        raise Missing('no module %s' % base)


def build(kernel, work):
    """The folder that becomes the machine's memory disk, but for the scripts."""
    folder = os.path.join(work, 'image-' + kernel.release)
    shutil.rmtree(folder, ignore_errors=True)
    modules = os.path.join(folder, 'modules')
    for name in ('modules', 'dev', 'proc', 'sys'):
        os.makedirs(os.path.join(folder, name))
    for name in MODULES:
        unpack_module(kernel, name, modules)
    shutil.copy(build_module(kernel, work), modules)
    sources = [os.path.join(SOURCES, name) for name in PLAYER_SOURCES]
    run_quietly(['gcc'] + PLAYER_FLAGS + ['-o', os.path.join(folder, 'init')] + sources)
    return folder


# Playing


def pack(folder, target):
    """The memory disk's file."""
    names = subprocess.run(['find', '.'], cwd=folder, stdout=subprocess.PIPE, check=True).stdout
    with open(target, 'wb') as file:
        subprocess.run(['cpio', '-o', '-H', 'newc', '--quiet'], cwd=folder, input=names, stdout=file, check=True)


def boot(kernel, folder, work, limit):
    """One run of the machine, of at most so many seconds; answers what it said."""
    disk, output = os.path.join(work, 'disk.cpio'), os.path.join(work, 'transcripts')
    pack(folder, disk)
    if os.path.exists(output):
        os.unlink(output)
    command = ['qemu-system-x86_64', '-accel', 'tcg', '-smp', '1', '-m', '768', '-display', 'none', '-no-reboot',
               '-nic', 'none', '-monitor', 'none', '-serial', 'file:' + os.path.join(work, 'console'),
               '-debugcon', 'file:' + output, '-device', 'isa-debug-exit,iobase=0xf4,iosize=4',
               '-kernel', kernel.image, '-initrd', disk,
               '-append', 'console=ttyS0 quiet loglevel=4 panic=-1 mitigations=off']
    with open(os.path.join(work, 'qemu'), 'wb') as log:
        try:
            subprocess.run(command, stdin=subprocess.DEVNULL, stdout=log, stderr=log, timeout=limit)
        except subprocess.TimeoutExpired:
            pass
    with open(output, 'rb') as file:
        return file.read().decode('latin-1')


class Run(NamedTuple):
    """What one run of the machine told: its kernel, a transcript a script, and whether it came to its end."""
    kernel: str
    transcripts: dict
    ended: bool
    notes: list


def read_run(text):
    """The transcripts in what the machine said."""
    name, transcripts, ended, notes, lines = '', {}, False, [], None
    for line in text.split('\n'):
        if line.startswith('=== '):
            lines = transcripts.setdefault(int(line[4:]), [])
        elif line.startswith('KERNEL '):
            name = line[7:]
        elif line == 'END':
            ended = True
        elif line and lines is not None:
            lines.append(line)
        if 'NOTE' in line:
            notes.append(line)
    return Run(name, transcripts, ended, notes)


class Played(NamedTuple):
    """The kernel's own name, the transcripts of scripts by their numbers, those that never came back, and the time."""
    kernel: str
    transcripts: dict
    stuck: dict
    notes: list
    seconds: float


def write_scripts(scripts, path):
    """Writes as many scripts as one run of the machine takes."""
    size = 0
    with open(path, 'wb') as file:
        for number, lines in scripts.items():
            size += file.write(b'=== %d\n' % number + b''.join(line + b'\n' for line in lines))
            if size > SCRIPT_BYTES:
                return


def play(kernel, scripts, work, limit):
    """Plays scripts, each a list of lines; a script that the machine does not come back from is left out of the next run."""
    folder = build(kernel, work)
    transcripts, stuck, notes, rest, failed, begin = {}, {}, [], dict(scripts), 0, time.time()
    while rest:
        write_scripts(rest, os.path.join(folder, 'scripts'))
        run = read_run(boot(kernel, folder, work, limit))
        notes += run.notes
        told = list(run.transcripts)
        failed = 0 if told else failed + 1
        if failed == FAILED_STARTS:
            raise Missing('the machine does not run: see %s' % os.path.join(work, 'console'))
        if not run.ended and told:
            last = told.pop()
            stuck[last] = run.transcripts.pop(last)
            del rest[last]
        transcripts.update(run.transcripts)
        for number in told:
            del rest[number]
    return Played(run.kernel, transcripts, stuck, notes, time.time() - begin)
