"""Plain C, compiled with -O2 by the compiler of the kit and by GCC, where the machine has one for
x86-64."""

import shutil
from functools import cache
from pathlib import Path

import kit

BENCH = Path(__file__).resolve().parent.parent
FOLDER = kit.ROOT / 'target' / 'bench'


def compilers():
    """The words that call each compiler, by its name."""
    gcc = shutil.which('x86_64-linux-gnu-gcc')
    return {'clang': kit.CLANG, **({'gcc': [gcc]} if gcc else {})}


@cache
def plain(*sources):
    """The object files of some files here by each compiler, by its name."""
    return {name: [kit.compiled(BENCH / f'{source}.c', FOLDER / name, compiler=words)
                   for source in sources] for name, words in compilers().items()}
