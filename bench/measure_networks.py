#!/usr/bin/env python3
"""Measures runs of networks by instruction counts, and beside them another simulator on the same documents.

    bench/measure_networks.py [OTHER]

Of each network it prints how many nodes it has, what one more round of it costs for each node (by valgrind's
callgrind), the kilobytes that a run holds at most, and the ratios of both to OTHER's, which is a program with the same words and
texts: chains of slices, busy and quiet; managers with a memory each, all busy or only one; a crossbar under full
load; and at last the start of a run with 1,024 nodes. Without valgrind nothing is measured.
"""
import os
import re
import subprocess
import sys
import tempfile

from counts import ENVIRONMENT, PROGRAM, can_count, instructions, rounds_of


def table(**keys):
    return ' {%s},\n' % ', '.join('%s=%s' % (key, thing if isinstance(thing, int) or key == 'region' else '"%s"' % thing)
                                  for key, thing in keys.items())


def region(base, size, to):
    return '{base=%d, size=%d, to="%s"}' % (base, size, to)


def manager(name, to):
    return table(name=name, kind='manager', bus=4, id_width=4, to=to)


def memory(name, base=0, size=4096):
    return table(name=name, kind='memory', bus=4, base=base, size=size)


def document(tables, lines):
    return ('version = 1\nnode = [\n%s]\n%%%%\n%s' % (''.join(tables), ''.join(line + '\n' for line in lines))).encode()


def busy(name, base, count):
    """Writes and reads of 256 beats each, so that all five channels move in each round."""
    write = 'write %s 0 0x%x 4 incr' % (name, base) + ' 0123abcd' * 256
    return [write, 'read %s 1 0x%x 4 incr 256' % (name, base)] * count


def quiet(name, count):
    """Reads of one beat, each issued when the one before it is answered."""
    return ['read %s 0 0x0 4 incr 1' % name, 'wait %s' % name] * count


def chain(slices, lines):
    names = ['s%d' % place for place in range(slices)] + ['ram']
    tables = [manager('m', names[0])]
    tables += [table(name=name, kind='slice', to=to) for name, to in zip(names, names[1:])]
    return document(tables + [memory('ram')], lines)


def pairs(count, busy_ones, times):
    """So many managers with a memory each, of which the first ones are busy."""
    tables = [manager('m%d' % place, 'ram%d' % place) + memory('ram%d' % place) for place in range(count)]
    return document(tables, [line for place in range(busy_ones) for line in busy('m%d' % place, 0, times)])


def crossbar(count, times):
    """So many managers and memories about one crossbar; each manager is busy at a memory of its own."""
    regions = ', '.join(region(4096 * place, 4096, 'ram%d' % place) for place in range(count))
    tables = [manager('m%d' % place, 'x') for place in range(count)]
    tables.append(table(name='x', kind='crossbar', region='[%s]' % regions))
    tables += [memory('ram%d' % place, 4096 * place) for place in range(count)]
    return document(tables, [line for place in range(count) for line in busy('m%d' % place, 4096 * place, times)])


def large():
    """1,024 nodes once it is laid out: 16 managers, and below them 16 demuxes, 16 crossbars, 4 crossbars and 64 memories."""
    mega, quarter = 1 << 20, 1 << 18

    def parted(name, kind, regions):
        return table(name=name, kind=kind, region='[%s]' % ', '.join(region(*each) for each in regions))

    places = [(part, place) for part in range(4) for place in range(16)]
    tables = [manager('m%d' % place, 's%d' % place) for place in range(16)]
    tables += [table(name='s%d' % place, kind='slice', to='c%d' % place) for place in range(16)]
    tables += [parted('c%d' % place, 'demux', [(mega * to, mega, 'x%d' % to) for to in range(16)]) for place in range(16)]
    tables += [parted('x%d' % place, 'crossbar', [(mega * place + quarter * to, quarter, 'y%d' % to) for to in range(4)])
               for place in range(16)]
    tables += [parted('y%d' % part, 'crossbar', [(mega * to + quarter * part, quarter, 'd%d_%d' % (part, to)) for to in range(16)])
               for part in range(4)]
    tables += [parted('d%d_%d' % (part, place), 'demux', [(0, 16 * mega, 'ram%d_%d' % (part, place))]) for part, place in places]
    tables += [memory('ram%d_%d' % (part, place), mega * place + quarter * part) for part, place in places]
    tables = [line.replace('id_width=4', 'id_width=0') for line in tables]
    return document(tables, ['read m%d 0 0x%x 4 incr 1' % (place, mega * place) for place in range(16)])


# The networks: a name, the number of nodes, and the document with so many times the same traffic.
NETWORKS = [('chain of %d slices, %s' % (slices, name), slices + 2, lambda times, slices=slices, lines=lines: chain(slices, lines(times)))
            for slices in (10, 100, 250)
            for name, lines in (('busy', lambda times: busy('m', 0, times)), ('quiet', lambda times: quiet('m', 4 * times)))]
NETWORKS += [('16 busy managers', 32, lambda times: pairs(16, 16, times)),
             ('1 of 64 managers busy', 128, lambda times: pairs(64, 1, times)),
             ('crossbar 16 by 16, busy', 80, lambda times: crossbar(16, times))]


def node_round(program, nodes, made):
    """The instructions of one more round for each node."""
    few, many = (instructions(program, ['run'], made(times)) for times in (1, 3))
    return (many[0] - few[0]) / (rounds_of(many[1]) - rounds_of(few[1])) / nodes


def held(process, program):
    """The kilobytes that a process of this program has held at most so far, 0 where it is gone or doesn't run it yet."""
    try:
        with open('/proc/%d/status' % process) as status:
            found = re.search(r'VmHWM:\s+(\d+)', status.read())
        is_program = os.readlink('/proc/%d/exe' % process) == os.path.realpath(program)
    except OSError:
        return 0
    return int(found.group(1)) if found and is_program else 0


def kilobytes(program, data):
    """The most memory that a run holds, as it is seen while the run goes on."""
    most = 0
    with tempfile.TemporaryFile() as given:
        given.write(data)
        given.seek(0)
        run = subprocess.Popen([program, 'run'], stdin=given, stdout=subprocess.DEVNULL, env=ENVIRONMENT)
        while run.poll() is None:
            most = max(most, held(run.pid, program))
    return most


def ratio(mine, theirs):
    """One number by the other, or a dash where a run was too short for its memory to be seen."""
    return '%.2f' % (mine / theirs) if mine and theirs else '-'


def line(name, nodes, own, other):
    """A row: its numbers, and their ratios to the other program's."""
    text = '%-28s %5d nodes  %12.1f instructions  %8d kB' % (name, nodes, *own)
    if other is not None:
        text += '  ratios %s %s' % tuple(ratio(mine, theirs) for mine, theirs in zip(own, other))
    print(text, flush=True)


def measured(program, nodes, made):
    return node_round(program, nodes, made), kilobytes(program, made(3))


def main():
    if not can_count():
        print('skipped: valgrind is missing, or the program is not built')
        return 0
    programs = [PROGRAM] + sys.argv[1:2]
    for name, nodes, made in NETWORKS:
        line(name, nodes, *([measured(program, nodes, made) for program in programs] + [None])[:2])
    data = large()
    starts = [(instructions(program, ['run'], data)[0], kilobytes(program, data)) for program in programs]
    line('whole run of 16 reads', 1024, *(starts + [None])[:2])
    return 0


sys.exit(main())
