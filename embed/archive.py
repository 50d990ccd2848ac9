"""Builds the archive `embed/out/libstackwasm.a`: archive.py [FOLDER].

The libraries below are those that `rt ci` left in this clone, or those of FOLDER; where some are missing in this clone, `rt ci` is run
first, which takes an hour where nothing is kept on the machine, and minutes where this text passed before. The archive's own functions are
proved each time.
"""

import subprocess
import sys
from pathlib import Path

ROOT = Path(__file__).resolve().parent.parent
NAME = 'embed'
CRATE = ROOT / 'crates' / NAME
OUT = ROOT / 'embed' / 'out'


def kit():
    """The folder of the toolchain."""
    page = subprocess.run(['rt', 'doc'], stdout=subprocess.PIPE, check=True, text=True).stdout.strip()
    return Path(page).parent


def libraries_below():
    """The project's libraries that the archive stands on."""
    below = {}
    for line in (ROOT / 'crates.txt').read_text(encoding='utf-8').splitlines():
        name, colon, libraries = line.partition(':')
        if colon:
            below[name.split()[0]] = libraries.split()
    found, todo = [], [NAME]
    while todo:
        for library in below.get(todo.pop(), []):
            if library in below and library not in found:
                found.append(library)
                todo.append(library)
    return below[NAME], found


def build_over(folders, direct, rattle_home):
    """Builds the archive over built libraries, each in one of these folders."""
    kit_libraries = rattle_home / 'rlibs'
    places = {library: folder / f'{library}.rlib' for folder in reversed([*folders, kit_libraries]) for library in [*direct, 'std']
              if (folder / f'{library}.rlib').exists()}
    command = [rattle_home / 'bin' / 'rattle', 'build', '--crate-name', NAME, 'src/lib.rt']
    for library in ['std', *direct]:
        command += ['--extern', f'{library}={places[library]}']
    for folder in [*folders, kit_libraries]:
        command += ['-L', f'dependency={folder}']
    command += ['--antt-project', rattle_home / 'rattle' / 'logic' / 'antt-project.json', '--logic-built', rattle_home / 'logic_built',
                '--links', f'{NAME}=', '--crate-type', 'staticlib', '--toolchain', rattle_home / 'toolchain', '--jobs', '2',
                '-o', OUT / 'libstackwasm.a']
    return subprocess.run(command, cwd=CRATE, check=False).returncode


def are_there(libraries, folders):
    """Whether each library is in one of the folders."""
    return all(any((folder / f'{library}.rlib').exists() for folder in folders) for library in libraries)


def build(folder):
    """Builds the archive, and adds the kit's heap, which stands on the C library's."""
    OUT.mkdir(exist_ok=True)
    rattle_home = kit()
    direct, below = libraries_below()
    folders = [folder] if folder else [ROOT / 'crates' / library / 'out' / 'rlib' for library in below]
    if not folder and not are_there(below, folders):
        status = subprocess.run(['rt', 'ci'], cwd=ROOT, check=False).returncode
        if status:
            return status
    status = build_over(folders, direct, rattle_home)
    if status:
        return status
    subprocess.run(['ar', 'x', rattle_home / 'c' / 'liblibc_c.a', 'heap.pic.o'], cwd=OUT, check=True)
    subprocess.run(['ar', 'q', 'libstackwasm.a', 'heap.pic.o'], cwd=OUT, check=True)
    (OUT / 'heap.pic.o').unlink()
    return 0


if __name__ == '__main__':
    sys.exit(build(Path(sys.argv[1]) if len(sys.argv) > 1 else None))
