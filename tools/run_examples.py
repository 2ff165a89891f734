#!/usr/bin/env python3
"""Runs every example with built programs, and compares what they write and how they end.

    tools/run_examples.py PROGRAM ..

The input examples/NAME.txt is given to `run`, and examples/NAME.trace to `check`. What is written
has to be examples/NAME.out to the byte, and its first word tells the exit status that is wanted.
An input of `run` is given to `plan` too. What is written has to be examples/NAME.plan where that file
is there; where the topology is refused it is what `run` writes, and else a plan, whose bound isn't
less than the rounds of the run.
Where an input runs, its trace is asked for too: it stands before the same answers, and `check` has
to find it legal. Standard error stays empty.

So it is with documents at the limits of their size, which are made here.

Then each program is called with words that it doesn't take, with an input that can't be read, with
an output that takes nothing, and with too little memory for its input: each has its status and its
line on standard error. The last line says how many calls agreed; the exit status is 1 where one
differs.
"""
import os
import pathlib
import resource
import subprocess
import sys

EXAMPLES = pathlib.Path(__file__).resolve().parent.parent / 'examples'
STATUSES = {b'refused': 3, b'broken': 4}
USAGE = b'usage: axinet run|check|plan [options]\n'
# Words that name no command, of which nothing is read.
NO_COMMANDS = [[], ['ran'], ['run', 'run'], ['run', '--trace'], ['run', '--trace=some'], ['run', '--workers=0'], ['--help'], [b'run\xff']]
# Too little memory for the longest input, and enough to start a program.
FEW_BYTES = 12 << 20
LONG_INPUT = b' ' * (16 << 20)


def call(program, words, data, **how):
    """The exit status, the standard output and standard error of a program, or why there is none."""
    how = {'stdout': subprocess.PIPE, **how}
    if 'stdin' not in how:
        how['input'] = data
    try:
        done = subprocess.run([program, *words], stderr=subprocess.PIPE, timeout=60, **how)
    except (OSError, subprocess.TimeoutExpired) as error:
        return str(error), b'', b''
    return done.returncode, done.stdout or b'', done.stderr


def expected(name):
    """The exit status, the output and the standard error that an example has to have."""
    path = EXAMPLES / (name + '.out')
    if not path.is_file():
        return 'there is no ' + path.name, b'', b''
    out = path.read_bytes()
    return STATUSES.get(out.split(b' ')[0], 0), out, b''


def differs(what, found, wanted):
    """Tells where a call ended otherwise than wanted."""
    if found == wanted:
        return False
    print('%s: status %s, and not %s' % (what, found[0], wanted[0]))
    for name, (_, out, complaint) in (('written', found), ('wanted', wanted)):
        print('  %s: %s, on standard error %s' % (name, out[:1000], complaint[:1000]))
    return True


def bound_fits(plan, answers):
    """Whether a plan ends with a bound that a run kept, or with none where its traffic is refused."""
    bound = plan.split(b'\n')[-2].removeprefix(b'bound ')
    if answers.startswith(b'refused '):
        return bound == b'-'
    return bound.isdigit() and int(answers.split()[-1]) <= int(bound)


def plan_disagrees(program, path, data, ran):
    """Whether the plan of an example is anything else than what is stored, or doesn't suit the example's run."""
    status, out, complaint = found = call(program, ['plan'], data)
    stored = path.with_suffix('.plan')
    if stored.is_file():
        return differs(path.name + ', planned', found, (0, stored.read_bytes(), b''))
    if ran[0] == 3 and int(ran[1].split()[1]) not in range(17, 22):
        return differs(path.name + ', planned', found, ran)
    if status != 0 or complaint or not out.startswith(b'node 0 ') or not bound_fits(out, ran[1]):
        print('%s, planned: status %s, written %s, on standard error %s' % (path.name, status, out[:1000], complaint[:1000]))
        return True
    return False


def disagrees(program, path):
    """Whether a program does anything else with an example than its output has."""
    data, wanted = path.read_bytes(), expected(path.stem)
    words = ['run'] if path.suffix == '.txt' else ['check']
    if differs(path.name, call(program, words, data), wanted):
        return True
    if words == ['run'] and plan_disagrees(program, path, data, wanted):
        return True
    if words == ['check'] or wanted[0] != 0:
        return False
    status, traced, complaint = call(program, ['run', '--trace=all'], data)
    trace, _, answers = traced.partition(b'%%\n')
    legal = b'legal %d\n' % trace.count(b'\n')
    return (differs(path.name + ', traced', (status, answers, complaint), wanted)
            or differs('the trace of ' + path.name, call(program, ['check'], traced), (0, legal, b'')))


def chain(slices):
    """A manager, so many slices below one another, a memory, and a read."""
    names = ['s%d' % place for place in range(slices)] + ['ram']
    nodes = ['{name="m", kind="manager", bus=4, id_width=4, to="%s"}' % names[0]]
    nodes += ['{name="%s", kind="slice", to="%s"}' % ends for ends in zip(names, names[1:])]
    nodes += ['{name="ram", kind="memory", bus=4, base=0, size=4096}']
    return document(nodes, 'read m 0 0x0 4 incr 1')


def two_rows_of_crossbars(slice_above_the_last):
    """16 crossbars with two managers each, and below all of them 16 with five memories each.

    Of the plan these are 32 managers, 16 * (2 * 2 + 16) and 16 * (2 * 16 + 5) parts of crossbars, and 80 memories: 1,024
    nodes. A slice above the last memory is one more, and the 145th node of the document.
    """
    nodes = ['{name="m%d", kind="manager", bus=4, id_width=0, to="x%d"}' % (place, place // 2) for place in range(32)]
    wide = ', '.join('{base=%d, size=20480, to="y%d"}' % (20480 * place, place) for place in range(16))
    nodes += ['{name="x%d", kind="crossbar", region=[%s]}' % (place, wide) for place in range(16)]
    memories = ['p%d' % place for place in range(80)]
    targets = memories[:-1] + ['s'] if slice_above_the_last else memories
    pages = ['{base=%d, size=4096, to="%s"}' % (4096 * place, target) for place, target in enumerate(targets)]
    nodes += ['{name="y%d", kind="crossbar", region=[%s]}' % (place, ', '.join(pages[5 * place:5 * place + 5])) for place in range(16)]
    nodes += ['{name="%s", kind="memory", bus=4, base=%d, size=4096}' % (name, 4096 * place) for place, name in enumerate(memories)]
    nodes += ['{name="s", kind="slice", to="p79"}'] if slice_above_the_last else []
    return document(nodes, 'read m31 0 0x4f000 4 incr 1')


def document(nodes, line):
    return ('version = 1\nnode = [\n%s,\n]\n%%%%\n%s\n' % (',\n'.join(nodes), line)).encode()


def large_documents():
    """Documents at the limits, their ends, and what has to be written.

    A read through n nodes takes 2 * n + 4 rounds: each of them passes the address on in a round and the data in another.
    """
    yield '254 slices', chain(254), (0, b'1 read m 1 512 okay:00000000\nrounds 512\n', b'')
    yield '256 slices', chain(256), (3, b'refused 16 TooLarge 257\n', b'')
    yield '1,024 plan nodes', two_rows_of_crossbars(False), (0, b'1 read m31 1 12 okay:00000000\nrounds 12\n', b'')
    yield '1,025 plan nodes', two_rows_of_crossbars(True), (3, b'refused 16 TooLarge 145\n', b'')


def limited():
    """Leaves little memory, in a program that is about to start."""
    resource.setrlimit(resource.RLIMIT_AS, (FEW_BYTES, FEW_BYTES))


def closed_pipe():
    """The end of a pipe from which nobody reads."""
    reader, writer = os.pipe()
    os.close(reader)
    return writer


def failing_calls(program):
    """What calls fail, their ends, and the ends that they have to have."""
    for words in NO_COMMANDS:
        yield 'the words %s' % words, call(program, words, b'%%\n'), (2, b'', USAGE)
    for command in ('run', 'check', 'plan'):
        with open('/dev/null', 'rb') as nothing, open('/dev/full', 'wb') as full:
            folder = os.open('/', os.O_RDONLY)
            pipe = closed_pipe()
            yield (command + ' on a folder', call(program, [command], b'', stdin=folder),
                   (5, b'', b'axinet: read failed\n'))
            for what, output in (('full', full), ('closed', pipe)):
                yield ('%s with its output %s' % (command, what),
                       call(program, [command], b'', stdin=nothing, stdout=output),
                       (6, b'', b'axinet: write failed\n'))
            os.close(folder)
            os.close(pipe)
        yield (command + ' with little memory', call(program, [command], LONG_INPUT, preexec_fn=limited),
               (7, b'', b'axinet: out of memory\n'))


def main():
    programs = sys.argv[1:]
    inputs = sorted(EXAMPLES.glob('*.txt')) + sorted(EXAMPLES.glob('*.trace'))
    if not programs or not inputs:
        print('usage: tools/run_examples.py PROGRAM ..' if inputs else 'there are no examples')
        return 2
    agreed = [not disagrees(program, path) for program in programs for path in inputs]
    agreed += [not differs('%s: %s' % (program, what), call(program, ['run'], data), wanted)
               for program in programs for what, data, wanted in large_documents()]
    agreed += [not differs('%s: %s' % (program, what), found, wanted)
               for program in programs for what, found, wanted in failing_calls(program)]
    print('examples: %d agreed, %d differ' % (agreed.count(True), agreed.count(False)))
    return 1 if False in agreed else 0


sys.exit(main())
