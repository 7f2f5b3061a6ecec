"""How many instructions a call takes, counted one by one: the same number in each run.

A program has the kind of call and a number as its words, and the data as its standard input. It
makes a first call, says what that answers, and makes the call so many times more. It is run with 1
and with 2; the difference is the count. It holds about ten instructions of the loop around the call.

On Arm the kit's emulator translates one instruction at a time and notes each that it runs. On
x86-64 the program is stepped from instruction to instruction (ptrace), between the two marks that it
sets around the calls (bench/marking.h); a program that sets none is stepped from its start. In both
ways an instruction that repeats itself, as `rep movsb`, counts once for each time.
"""

import ctypes
import os
import re
import signal
import subprocess
import tempfile
from pathlib import Path

import kit

ADDRESS = re.compile(rb'^Trace .*?/(\w+)/', re.MULTILINE)
PTRACE_TRACEME, PTRACE_CONT, PTRACE_SINGLESTEP = 0, 7, 9
MARKED = 'marked'  # a third word: the program is to mark its calls
ADDR_NO_RANDOMIZE = 0x40000


def answer(program, kind, data):
    """What the program says that the call answers."""
    return subprocess.run(kit.command(program, kind, '0'), input=data, stdout=subprocess.PIPE,
                          check=True, env=kit.environment()).stdout


def count(program, kind, data):
    """How many instructions one call takes. Both numbers of calls are words of one length, so that
    all else in the two runs is alike; and calls are made in both, so that what leads to the first of
    them is not counted."""
    once, twice = (instructions(program, [kind, times], data) for times in ('1', '2'))
    return twice - once


def instructions(program, words, data):
    """How many instructions a program runs on these words and this standard input."""
    with tempfile.TemporaryDirectory() as folder:
        given = Path(folder) / 'input'
        given.write_bytes(data)
        with given.open('rb') as file:
            if kit.EMULATOR.exists():
                return noted(program, words, file, Path(folder) / 'log')
            return stepped(kit.command(program, *words, *([MARKED] if words else [])), file, bool(words))


def noted(program, words, file, log):
    """By the emulator's log, which has a line `Trace ..` for each instruction."""
    options = ['-one-insn-per-tb', '-d', 'exec,nochain', '-D', log]
    subprocess.run(kit.command(program, *words, emulator_options=options), stdin=file,
                   stdout=subprocess.DEVNULL, check=True, env=kit.environment())
    return log.read_bytes().count(b'Trace ')


def trace(program, words, data):
    """The addresses of the instructions that a program runs, in their order. The emulator's log has
    them, so this is for Arm alone."""
    if not kit.EMULATOR.exists():
        raise SystemExit('only the emulator notes addresses, and this machine has none')
    with tempfile.TemporaryDirectory() as folder:
        given, log = Path(folder) / 'input', Path(folder) / 'log'
        given.write_bytes(data)
        with given.open('rb') as file:
            noted(program, words, file, log)
        return ADDRESS.findall(log.read_bytes())


def stepped(command, file, marked):
    """By ptrace: the program stops after each instruction, and is waited for each time. What stands before
    the first mark and behind the second runs on its own. Both stay on one processor: they take turns, and
    to wake another takes longer than a step."""
    os.sched_setaffinity(0, {min(os.sched_getaffinity(0))})
    c_library = ctypes.CDLL(None, use_errno=True)
    c_library.ptrace.argtypes = 4 * [ctypes.c_long]
    child = os.fork()
    if child == 0:
        try:
            os.dup2(file.fileno(), 0)
            os.dup2(os.open(os.devnull, os.O_WRONLY), 1)
            c_library.personality(ADDR_NO_RANDOMIZE)  # or the start of a program differs a little
            c_library.ptrace(PTRACE_TRACEME, 0, 0, 0)
            os.execv(command[0], command)
        finally:
            os._exit(1)

    def on(request):
        """Let it run to its next stop, without the signal that it stopped for."""
        if c_library.ptrace(request, child, 0, 0) != 0:
            raise OSError(ctypes.get_errno(), 'ptrace')
        return os.waitpid(child, 0)[1]

    count, marks = 0, 0 if marked else 1
    status = os.waitpid(child, 0)[1]  # it stops as it starts
    while os.WIFSTOPPED(status):
        marks += os.WSTOPSIG(status) == signal.SIGUSR1
        status = on(PTRACE_SINGLESTEP if marks == 1 else PTRACE_CONT)
        count += marks == 1
    if status != 0 or (marked and marks != 2):
        raise RuntimeError(f'the program ended with status {status}')
    return count
