#!/usr/bin/env python3
"""Measures the program by instruction counts, and beside it another simulator on the same inputs.

    bench/measure.py [OTHER] [TRANSACTIONS]

Counts the instructions (valgrind's callgrind) and takes the processor time of a start, of a run of mixed bursts,
of the same run with its trace, of the check of that trace, of inputs of 16 MiB that are refused as too much
traffic or that are comments alone, and of 1,024 writes of 256 beats; prints them with the ratios to OTHER's,
which is a program with the same words and texts. Then it tells what one more round costs in which all
five channels move. The built program is measured as `./axinet` leaves it. Without valgrind nothing is measured.
"""
import random
import subprocess
import sys

from counts import PROGRAM, can_count, instructions, rounds_of, seconds

NETWORK = b"""version = 1
node = [
 {name="m", kind="manager", bus=4, id_width=4, to="ram"},
 {name="ram", kind="memory", bus=4, base=0, size=8192},
]
%%
"""

# The most bytes of an input.
LIMIT = 1 << 24


def burst(r):
    """A random legal burst on a bus of 4 bytes: its address, size, kind and beats."""
    size = r.choice((1, 2, 4, 4, 4))
    kind = r.choice(('incr', 'incr', 'incr', 'wrap', 'fixed'))
    address = r.randrange(8192)
    if kind == 'wrap':
        return address - address % size, size, kind, r.choice((2, 4, 8, 16))
    if kind == 'fixed':
        return address, size, kind, r.randrange(1, 9)
    room = (4096 - (address - address % size) % 4096) // size
    return address, size, kind, min(r.randrange(1, 17), room)


def data_words(r, address, size, kind, beats):
    """The data words of a write, now and then with a byte that isn't strobed."""
    first = size - address % size
    widths = [first] + [first if kind == 'fixed' else size] * (beats - 1)
    return ' '.join(''.join('--' if r.random() < 0.1 else '%02x' % r.randrange(256) for _ in range(width))
                    for width in widths)


def traffic(count):
    """Mixed traffic: bursts of all kinds under random IDs, half of them writes, now and then a wait."""
    r = random.Random(1)
    lines = []
    for _ in range(count):
        address, size, kind, beats = burst(r)
        request = 'm %d 0x%x %d %s' % (r.randrange(16), address, size, kind)
        if r.random() < 0.5:
            lines.append('write %s %s' % (request, data_words(r, address, size, kind, beats)))
        else:
            lines.append('read %s %d' % (request, beats))
        if r.random() < 0.02:
            lines.append('wait m')
    return NETWORK + ('\n'.join(lines) + '\n').encode()


def long_bursts(count):
    """Reads and writes of 256 beats each, so that all five channels are busy."""
    write = 'write m 0 0x0 4 incr' + ' 0123abcd' * 256
    return NETWORK + ((write + '\nread m 1 0x1000 4 incr 256\n') * count).encode()


def filled(line):
    """As many of these lines as an input may have in all."""
    return NETWORK + line * ((LIMIT - len(NETWORK)) // len(line))


def long_writes(count):
    """Writes of 256 beats each; 1,024 of them have as many beats as one input may have."""
    return NETWORK + b'write m 0 0x0 4 incr' + ((' 0123abcd' * 256 + '\nwrite m 0 0x0 4 incr') * (count - 1)
                                                + ' 0123abcd' * 256 + '\n').encode()


def busy_round(program):
    """The instructions of one more busy round."""
    few, many = (instructions(program, ['run'], long_bursts(count)) for count in (4, 12))
    return (many[0] - few[0]) // (rounds_of(many[1]) - rounds_of(few[1]))


def measure(name, words, data, other):
    """Prints a row: instructions and seconds, and their ratios to the other program's."""
    own, text = instructions(PROGRAM, words, data)
    took = seconds(PROGRAM, words, data)
    line = '%-16s %14d %8.3f s' % (name, own, took)
    if other is not None:
        theirs, same = instructions(other, words, data)
        slow = seconds(other, words, data)
        line += '  ratios %.2f %.2f%s' % (own / theirs, took / slow, '' if same == text else '  OTHER TEXT')
    print(line)


def main():
    if not can_count():
        print('skipped: valgrind is missing, or the program is not built')
        return 0
    other = sys.argv[1] if len(sys.argv) > 1 else None
    count = int(sys.argv[2]) if len(sys.argv) > 2 else 16384
    document = traffic(count)
    traced = subprocess.run([PROGRAM, 'run', '--trace=all'], input=document, capture_output=True).stdout
    print('%d transactions, %d rounds, a trace of %d bytes' % (count, rounds_of(traced), len(traced)))
    measure('start', ['run'], NETWORK, other)
    measure('run', ['run'], document, other)
    measure('run --trace=all', ['run', '--trace=all'], document, other)
    measure('check', ['check'], traced, other)
    measure('16 MiB refused', ['run'], filled(b'read m 1 0x40 4 incr 2\n'), other)
    measure('16 MiB comments', ['run'], filled(b'# a line that says nothing\n'), other)
    measure('256 beats', ['run'], long_writes(1024), other)
    own = busy_round(PROGRAM)
    line = '%-16s %14d' % ('a busy round', own)
    if other is not None:
        line += '             ratio %.2f' % (own / busy_round(other))
    print(line)
    return 0


sys.exit(main())
