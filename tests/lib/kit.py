"""C programs for x86-64, made and run with what the Rattle kit has.

The kit has a compiler, a linker and a C library. It has no headers of the C library; those in
tests/host/headers declare what our C files use.
"""

import os
import subprocess
from functools import cache
from pathlib import Path

ROOT = Path(__file__).resolve().parent.parent.parent
TARGET = 'x86_64-unknown-linux-gnu'
GUIDE = subprocess.run(['rt', 'doc'], check=True, stdout=subprocess.PIPE, text=True).stdout.strip()
KIT = Path(GUIDE).parent
TOOLS = KIT / 'toolchain'
EMULATOR = TOOLS / 'bin' / 'qemu-x86_64'  # only where the machine is not x86-64
CLANG = [TOOLS / 'bin' / 'clang', f'--target={TARGET}']
FLAGS = [
    '-std=c17', '-O2', '-Wall', '-Wextra', '-Wpedantic', '-Werror',
    '-nostdinc', '-isystem', ROOT / 'tests' / 'host' / 'headers', '-I', ROOT / 'include',
]


def quietly(words, folder=None):
    """Run a command; print what it says only if it fails."""
    ran = subprocess.run(words, cwd=folder, stdin=subprocess.DEVNULL, stdout=subprocess.PIPE,
                         stderr=subprocess.STDOUT, text=True, errors='replace', check=False)
    if ran.returncode != 0:
        print(ran.stdout, flush=True)
    ran.check_returncode()


def compiled(source: Path, folder: Path, *flags: str, compiler=CLANG) -> Path:
    """Compile a C file, with these flags too; the object file lies in the folder."""
    folder.mkdir(parents=True, exist_ok=True)
    made = folder / f'{source.stem}.o'
    quietly([*compiler, *FLAGS, *flags, '-c', source, '-o', made])
    return made


def linked(program: Path, *files: Path) -> Path:
    """Link object files and static libraries, of which the first has `main`."""
    quietly([KIT / 'bin' / 'rattle-link', '--target', TARGET, '--toolchain', TOOLS, '-o', program,
             *files])
    return program


@cache
def static_library(crate: str) -> Path:
    """Prove a crate of this repository and make its static library; once, however often it is asked
    for."""
    quietly(['rt', 'lib'], ROOT / 'crates' / crate)
    return ROOT / 'crates' / crate / 'out' / f'lib{crate}.a'


@cache
def program(crate: str) -> Path:
    """Prove a program of this repository and build it; once, however often it is asked for."""
    quietly(['rt', 'run'], ROOT / 'crates' / crate)
    return ROOT / 'crates' / crate / 'out' / crate


def command(program: Path, *words: str, emulator_options=()) -> list:
    """The words that run a program with the kit's C library."""
    emulator = [EMULATOR, *emulator_options] if EMULATOR.exists() else []
    libraries = TOOLS / 'lib'
    return [*emulator, libraries / 'ld-linux-x86-64.so.2', '--library-path', libraries,
            program, *words]


def environment() -> dict:
    """The environment without what would set options of the emulator."""
    return {name: value for name, value in os.environ.items() if not name.startswith('QEMU_')}
