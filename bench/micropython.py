# MicroPython's collector: its sources from Debian by `apt-get source`, and how gc.c is built alone. Nothing of it is kept in the tree.
import glob
import os
import shutil
import subprocess

# A suite of Debian that has the package, from the mirror that this machine has; apt gets lists of its own, so that nothing of
# the machine's is changed.
SUITE = 'trixie'
SOURCES = ('Types: deb-src\nURIs: {}\nSuites: {}\nComponents: main\n'
           'Signed-By: /usr/share/keyrings/debian-archive-keyring.gpg\n')
# The least configuration, with a collector. What the build of MicroPython generates is empty here, since no Python is run.
CONFIG = '''#include <alloca.h>
#include <stdint.h>
#define MICROPY_CONFIG_ROM_LEVEL (MICROPY_CONFIG_ROM_LEVEL_MINIMUM)
#define MICROPY_ENABLE_GC (1)
typedef intptr_t mp_int_t;
typedef uintptr_t mp_uint_t;
typedef long mp_off_t;
#define MP_STATE_PORT MP_STATE_VM
'''
GENERATED = {'mpconfigport.h': CONFIG, 'mphalport.h': '', 'genhdr/root_pointers.h': '',
             'genhdr/qstrdefs.generated.h': 'QDEF0(MP_QSTRnull, 0, 0, "")\n'}


class Missing(Exception):
    """It cannot be fetched or built; the text says why."""


def run(command, folder):
    try:
        done = subprocess.run(command, cwd=folder, capture_output=True, text=True)
    except OSError as fault:
        raise Missing(f'{command[0]}: {fault.strerror}') from None
    if done.returncode:
        lines = (done.stderr or done.stdout).strip().splitlines()
        raise Missing(f'{" ".join(command[:1] + command[-2:])}: {lines[-1] if lines else "failed"}')


def write(path, text):
    os.makedirs(os.path.dirname(path), exist_ok=True)
    with open(path, 'w', encoding='ascii') as out:
        out.write(text)


# Where this machine gets Debian's packages from.
def mirror():
    asked = ['apt-get', 'indextargets', '--format', '$(REPO_URI)', 'Created-By: Packages']
    found = subprocess.run(asked, capture_output=True, text=True).stdout.split()
    if not found:
        raise Missing('apt-get has no mirror')
    return found[0]


# The folder of the sources; None if they were not fetched yet.
def unpacked(folder):
    found = glob.glob(os.path.join(folder, 'micropython-*', 'py', 'gc.c'))
    return os.path.dirname(os.path.dirname(found[0])) if found else None


def fetch(folder):
    if unpacked(folder):
        return
    if shutil.which('apt-get') is None or shutil.which('dpkg-source') is None:
        raise Missing('apt-get or dpkg-source is not there')
    sources, lists = os.path.join(folder, 'debian.sources'), os.path.join(folder, 'lists')
    write(sources, SOURCES.format(mirror(), SUITE))
    os.makedirs(os.path.join(lists, 'partial'), exist_ok=True)
    own = ['-o', f'Dir::Etc::sourcelist={sources}', '-o', 'Dir::Etc::sourceparts=/dev/null', '-o', f'Dir::State::lists={lists}',
           '-o', 'Dir::Cache::pkgcache=', '-o', 'Dir::Cache::srcpkgcache=', '-o', 'APT::Sandbox::User=root']
    run(['apt-get', *own, 'update'], folder)
    run(['apt-get', *own, 'source', 'micropython'], folder)


# Its version, what a program that includes its headers is given, and the object of its collector.
def build(folder):
    os.makedirs(folder, exist_ok=True)
    fetch(folder)
    source = unpacked(folder)
    if source is None:
        raise Missing('the sources have no py/gc.c')
    for name, text in GENERATED.items():
        write(os.path.join(folder, name), text)
    includes = ['-isystem', folder, '-isystem', source]
    made = os.path.join(folder, 'gc.o')
    run(['gcc', '-std=gnu11', '-O2', '-ffunction-sections', *includes, '-c', os.path.join(source, 'py', 'gc.c'), '-o', made], folder)
    version = os.path.basename(source).split('-', 1)[1].split('+')[0]
    return version, [*includes, '-Wl,--gc-sections', made]
