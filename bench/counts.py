"""Counts what a program takes for an input."""
import os
import re
import resource
import shutil
import subprocess
import tempfile

TOP = os.path.dirname(os.path.dirname(os.path.abspath(__file__)))
PROGRAM = os.path.join(TOP, 'crates', 'axinet', 'out', 'axinet')
# Another simulator may read the newer form of TOML only where it is told to.
ENVIRONMENT = dict(os.environ, AXINET_TOML='1.1')


def can_count():
    """Whether there is a program, and valgrind to count with."""
    return shutil.which('valgrind') is not None and os.access(PROGRAM, os.X_OK)


def seconds(program, words, data):
    """The least processor time of five calls, that of the system's calls included."""
    def spent():
        used = resource.getrusage(resource.RUSAGE_CHILDREN)
        return used.ru_utime + used.ru_stime

    best = None
    for _ in range(5):
        begun = spent()
        subprocess.run([program] + words, input=data, stdout=subprocess.DEVNULL, env=ENVIRONMENT)
        took = spent() - begun
        best = took if best is None else min(best, took)
    return best


def instructions(program, words, data):
    """How many instructions the program takes, and what it writes."""
    with tempfile.TemporaryFile() as given:
        given.write(data)
        given.seek(0)
        done = subprocess.run(
            ['valgrind', '--tool=callgrind', '--callgrind-out-file=/dev/null', program] + words,
            stdin=given, capture_output=True, env=ENVIRONMENT)
    found = re.search(rb'refs:\s*([\d,]+)', done.stderr)
    return int(found.group(1).replace(b',', b'')), done.stdout


def rounds_of(text):
    """The number in the last line of a run's text."""
    return int(text.split()[-1])
