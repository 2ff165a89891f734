#!/usr/bin/env python3
"""Compares the program's traces and verdicts with those of another simulator, on random inputs.

    tools/compare_traces.py OTHER [COUNT] [SEED]

OTHER is a program with the same words and texts. For each of COUNT seeds the traced run of random
bursts is compared, on the smallest network and on a random one, and then the verdicts on traces of
random bursts, on random traces of AXI4-Lite ports, and on traces in which lines were changed, dropped,
doubled or swapped. The last line
says how many agreed. Without OTHER, or before the program is built, nothing is compared.
"""
import os
import random
import subprocess
import sys

import random_networks

TOP = os.path.dirname(os.path.dirname(os.path.abspath(__file__)))
PROGRAM = os.path.join(TOP, 'crates', 'axinet', 'out', 'axinet')


# The other simulator reads the newer form of TOML where it is told to.
ENVIRONMENT = dict(os.environ, AXINET_TOML='1.1')


def call(program, words, data):
    """The exit code and the standard output of a program."""
    done = subprocess.run([program] + words, input=data, capture_output=True, timeout=60, env=ENVIRONMENT)
    return done.returncode, done.stdout


def burst_line(r):
    """A line of traffic: a burst of some kind, mostly a legal one, or now and then a wait."""
    if r.random() < 0.05:
        return 'wait m'
    size = r.choice([1, 2, 4])
    kind = r.choice(['fixed', 'incr', 'wrap'])
    beats = {'fixed': r.randint(1, 16), 'incr': r.randint(1, 20), 'wrap': r.choice([2, 4, 8])}[kind]
    address = r.randrange(3000)
    if kind == 'wrap':
        address -= address % size
    head = '%d 0x%x %d %s' % (r.randrange(4), address, size, kind)
    if r.random() < 0.5:
        return 'read m %s %d' % (head, beats)
    words = []
    for beat in range(beats):
        pairs = size - address % size if beat == 0 or kind == 'fixed' else size
        words.append(''.join('--' if r.random() < 0.2 else '%02x' % r.randrange(256) for _ in range(pairs)))
    return 'write m %s %s' % (head, ' '.join(words))


def document(r, most):
    """Bursts on the smallest network."""
    return random_networks.ONE_MEMORY + ('%%\n' + ''.join(burst_line(r) + '\n' for _ in range(r.randint(0, most)))).encode()


def network_document(r):
    """Bursts on a random network."""
    found = random_networks.network(r)
    return (random_networks.text(found) + '%%\n' + ''.join(line + '\n' for line in random_networks.traffic(r, found))).encode()


class LitePort:
    """A port of AXI4-Lite that keeps the rules: what waits on each channel, and what is not answered."""

    def __init__(self, r, link):
        self.r, self.link, self.bus = r, link, r.choice([4, 8])
        self.waits, self.counts = {}, dict.fromkeys(('aw', 'w', 'ar'), 0)

    def lanes(self):
        return ''.join('%02x' % self.r.choice([0, self.r.randrange(256)]) for _ in range(self.bus))

    def beat(self, channel):
        """A new beat of a channel, or none where nothing is to be answered, or by chance."""
        r, tag = self.r, '%d:0:%d' % (self.r.randrange(3), self.bus - 1)
        due = {'b': min(self.counts['aw'], self.counts['w']), 'r': self.counts['ar']}.get(channel, 1)
        if not due or r.random() < 0.5:
            return None
        if channel in ('aw', 'ar'):
            return '0,%x,0,%d,1,0,%s' % (r.randrange(64), 2 if self.bus == 4 else 3, tag)
        if channel == 'w':
            return '%s,%x,1,%s' % (self.lanes(), r.randrange(1 << self.bus), tag)
        return '0,%s%d,%s%s' % (self.lanes() + ',' if channel == 'r' else '', r.choice([0, 0, 2, 3]), '1,' if channel == 'r' else '', tag)

    def line(self, number):
        """The line of a round; what it transfers is known after it."""
        words, moved = [], []
        for channel in ('aw', 'w', 'b', 'ar', 'r'):
            beat = self.waits.pop(channel, None) or self.beat(channel)
            taken = self.r.random() < 0.6
            words.append('-' if beat is None else ('+' if taken else '=') + beat)
            if beat is not None and taken:
                moved.append(channel)
            elif beat is not None:
                self.waits[channel] = beat
        for channel in moved:
            for counted, step in {'b': [('aw', -1), ('w', -1)], 'r': [('ar', -1)]}.get(channel, [(channel, 1)]):
                self.counts[counted] += step
        return '%d %d lite %d %s' % (number, self.link, self.bus, ' '.join(words))


def lite_trace(r):
    """A legal trace of one or two AXI4-Lite ports."""
    ports = [LitePort(r, link) for link in range(r.randint(1, 2))]
    lines = [port.line(number) for number in range(1, r.randint(2, 25)) for port in ports]
    return ''.join(line + '\n' for line in lines).encode()


def with_a_wrong_field(r, trace):
    """A trace in which a field of one beat, but not its tag, has another value."""
    lines = [line.split(b' ') for line in trace.split(b'\n')]
    beats = [(words, place) for words in lines for place in range(4, len(words)) if words[place] != b'-']
    if beats:
        words, place = r.choice(beats)
        fields = words[place].split(b',')
        field = r.randrange(len(fields) - 1)
        fields[field] = (fields[field][:1] if field == 0 else b'') + r.choice([b'0', b'1', b'2', b'3'])
        words[place] = b','.join(fields)
    return b'\n'.join(b' '.join(words) for words in lines)


def changed(r, trace):
    """A trace with one to three changes."""
    lines = trace.split(b'\n')
    for _ in range(r.randint(1, 3)):
        at = r.randrange(len(lines))
        choice = r.random()
        if choice < 0.35 and lines[at]:
            line = bytearray(lines[at])
            line[r.randrange(len(line))] = r.choice(b'0123456789abcdef-+=,: %')
            lines[at] = bytes(line)
        elif choice < 0.5:
            del lines[at]
            lines = lines or [b'']
        elif choice < 0.65:
            lines[at] = lines[at].replace(b'+', b'=', 1)
        elif choice < 0.8:
            lines[at] = lines[at].replace(b'=', b'+', 1)
        elif choice < 0.9:
            lines.insert(at, lines[r.randrange(len(lines))])
        else:
            other = r.randrange(len(lines))
            lines[at], lines[other] = lines[other], lines[at]
    return (b'\r\n' if r.random() < 0.1 else b'\n').join(lines)


def main():
    if len(sys.argv) < 2 or not os.access(sys.argv[1], os.X_OK) or not os.access(PROGRAM, os.X_OK):
        print('skipped: no other simulator is given, or the program is not built')
        return 0
    other = sys.argv[1]
    count = int(sys.argv[2]) if len(sys.argv) > 2 else 200
    seed = int(sys.argv[3]) if len(sys.argv) > 3 else 1
    agreed = differing = 0

    def compare(what, words, mine):
        nonlocal agreed, differing
        a, b = call(PROGRAM, words, mine), call(other, words, mine)
        if a == b:
            agreed += 1
            return
        differing += 1
        if differing <= 5:
            print('differs:', what, '\n ', mine[:2000], '\n  program', a[0], a[1][:300], '\n  other  ', b[0], b[1][:300])

    for number in range(count):
        r = random.Random(seed * 1000003 + number)
        for tried in (document(r, 40), network_document(r)):
            compare('run', ['run', '--trace=all'], tried)
        for tried in (document(r, 12), network_document(r)):
            trace = call(other, ['run', '--trace=all'], tried)[1]
            compare('check', ['check'], trace)
            for _ in range(4):
                compare('check', ['check'], changed(r, trace))
        for trace in (lite_trace(r), lite_trace(r)):
            compare('check', ['check'], trace)
            for _ in range(6):
                compare('check', ['check'], changed(r, trace))
                compare('check', ['check'], with_a_wrong_field(r, trace))
    print('%d agreed, %d differ' % (agreed, differing))
    return 1 if differing else 0


sys.exit(main())
