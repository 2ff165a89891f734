#!/usr/bin/env python3
"""Compares what the program and another simulator answer to random documents, good and bad.

    tools/compare_runs.py OTHER [COUNT] [SEED] [PROGRAM]

OTHER is a program with the same words and texts; PROGRAM is the one that is built in this tree,
where none is named. A third of the COUNT documents are good and bad traffic on the smallest network,
the others random networks of all kinds that `random_networks` makes, with
legal traffic, some of them with something wrong in the topology. The status and the text of `run` and
of `plan` are compared, and for a third those of `run --trace=all`. It prints how many inputs OTHER accepts, how
many it refuses for which cause, and how many calls agreed, and ends with 1 where any differs. Without
OTHER nothing is done; before the program is built, OTHER's answers are counted.
"""
import collections
import os
import random
import subprocess
import sys

import random_networks

TOP = os.path.dirname(os.path.dirname(os.path.abspath(__file__)))
PROGRAM = os.path.join(TOP, 'crates', 'axinet', 'out', 'axinet')
# The other simulator reads the newer form of TOML where it is told to.
ENVIRONMENT = dict(os.environ, AXINET_TOML='1.1')
BUS = 4
MEMORY = 8192
PAGE = 4096
TOP_ADDRESS = 1 << 63


def call(program, words, data):
    """The exit code and the standard output of a program, or None where it doesn't end in time."""
    try:
        done = subprocess.run([program] + words, input=data, capture_output=True, timeout=60, env=ENVIRONMENT)
    except subprocess.TimeoutExpired:
        return None
    return done.returncode, done.stdout


# The words of a line.


def decimal(r, number):
    """A number, at times with zeros in front of it, in at most ten digits."""
    return str(number).zfill(r.randint(1, 10)) if r.random() < 0.08 else str(number)


def hexadecimal(r, number):
    """An address, at times with zeros in front of it or in capitals, in at most 16 digits."""
    digits = '%x' % number
    if r.random() < 0.1:
        digits = digits.zfill(r.randint(1, 16))
    return '0x' + (digits.upper() if r.random() < 0.1 else digits)


def address_for(r, kind, size):
    """An address: mostly one of few, so that reads meet writes; also at the ends of pages and of the memory."""
    choice = r.random()
    if choice < 0.6:
        address = r.randrange(48)
    elif choice < 0.75:
        address = PAGE * r.randint(1, 3) - r.randint(1, 40)
    elif choice < 0.85:
        address = r.randrange(MEMORY)
    elif choice < 0.95:
        address = r.randrange(MEMORY, 3 * MEMORY)
    else:
        address = r.choice([r.randrange(1 << 32, TOP_ADDRESS), TOP_ADDRESS - r.randint(1, 16)])
    return address - address % size if kind == 'wrap' else address


def legal_burst(r):
    """The address, size, kind and number of beats of a burst that is legal on the bus."""
    size = r.choice([1, 2, 4, 4])
    kind = r.choice(['fixed', 'incr', 'incr', 'wrap'])
    address = address_for(r, kind, size)
    if kind == 'fixed':
        return address, size, kind, r.randint(1, 16)
    if kind == 'wrap':
        return address, size, kind, r.choice([2, 4, 8, 16])
    most = min(256, (PAGE - address % PAGE + address % size) // size)
    return address, size, kind, r.randint(1, most if r.random() < 0.05 else min(most, 12))


def byte(r):
    """The pair of a byte, or the one that leaves a byte as it is."""
    if r.random() < 0.2:
        return '--'
    return ('%02X' if r.random() < 0.1 else '%02x') % r.randrange(256)


def data_words(r, burst):
    """The data of a write, with as many pairs as each beat has."""
    address, size, kind, beats = burst
    pairs = [size - address % size if beat == 0 or kind == 'fixed' else size for beat in range(beats)]
    return [''.join(byte(r) for _ in range(count)) for count in pairs]


def burst_words(r, burst, write, name='m', number=None):
    """The words of a line that reads or writes a burst."""
    number = r.randrange(16 if r.random() < 0.3 else 3) if number is None else number
    address, size, kind, beats = burst
    head = ['write' if write else 'read', name, decimal(r, number), hexadecimal(r, address), str(size), kind]
    return head + (data_words(r, burst) if write else [decimal(r, beats)])


def is_write(r):
    return r.random() < 0.5


# Good lines.


def good_words(r):
    """The words of a line that is accepted; none for an empty line."""
    choice = r.random()
    if choice < 0.84:
        return burst_words(r, legal_burst(r), is_write(r))
    if choice < 0.92:
        return ['wait', 'm']
    return r.choice([[], ['#'], ['# write m'], ['#read', 'm', '-1'], ['#', 'caf\u00e9', '\u2192', '%%']])


# Bad lines, each with one thing wrong. A few come out good, as a write that lacks its last data word.


def wrong_first_word(r):
    words = good_words(r) or ['wait', 'm']
    return [r.choice(['Write', 'READ', 'waits', 'rea', 'write:', '%%', '-', '\u00b5'])] + words[1:]


def missing_word(r):
    words = burst_words(r, legal_burst(r), is_write(r)) if r.random() < 0.8 else ['wait', 'm']
    del words[r.randrange(len(words))]
    return words or ['wait']


def surplus_word(r):
    words = r.choice([['wait', 'm'], burst_words(r, legal_burst(r), False)])
    words.insert(r.randint(1, len(words)), r.choice(['m', '1', '#', '0x0', 'incr']))
    return words


def replaced(place, choices):
    """What makes a line in which one of these stands in place of a word of a read."""

    def line(r):
        words = burst_words(r, legal_burst(r), False)
        words[place] = r.choice(choices)
        return words

    return line


def signed_number(r):
    words = burst_words(r, legal_burst(r), False)
    place = r.choice([2, 3, 4, 6])
    words[place] = r.choice(['+', '-']) + words[place]
    return words


def wrong_pairs(r):
    """A write of which one data word has a pair or a digit too few or too many, or one that is no pair."""
    words = burst_words(r, legal_burst(r), True)
    place = r.randrange(6, len(words))
    word = words[place]
    no_pair = r.choice('-+g') + word[1:].replace('-', '0')
    words[place] = r.choice([word + byte(r), word[2:], word[:-1], word + '0', no_pair])
    return [w for w in words if w]


def wrong_blank(r):
    """A line with a character that is no blank between two words or behind them."""
    words = burst_words(r, legal_burst(r), is_write(r))
    place = r.randrange(len(words))
    words[place] += r.choice(['\x0b', '\x0c', '\r', '\x00', '\u00a0', '\u3000']) + r.choice(['', 'm'])
    return words


def unknown_manager(r):
    name = r.choice(['ram', 'M', 'mm', 'n', 'm,', '0', 'manager', 'm\u0302', 'm' * 33])
    if r.random() < 0.2:
        return ['wait', name]
    return burst_words(r, legal_burst(r), is_write(r), name=name)


def large_id(r):
    number = r.choice([16, 17, r.randrange(16, 256), r.randrange(16, 1 << 32), (1 << 32) - 1])
    return burst_words(r, legal_burst(r), is_write(r), number=number)


def too_wide(r):
    size = r.choice([8, 8, 16, 32, 64, 128])
    kind = r.choice(['incr', 'fixed', 'wrap'])
    beats = 2 if kind == 'wrap' else r.randint(1, 3)
    return burst_words(r, (address_for(r, kind, size), size, kind, beats), is_write(r))


def wrong_length(r):
    size = r.choice([1, 2, 4])
    kind = r.choice(['fixed', 'incr', 'wrap'])
    write = is_write(r)
    lengths = {
        'fixed': [17, r.randint(17, 40)],
        'incr': [257, r.randint(257, 300)],
        'wrap': [1, 3, 5, 15, 17, 32],
    }
    beats = r.choice(lengths[kind] + ([] if write else [65536 + 4, (1 << 32) - 1]))
    return burst_words(r, (address_for(r, kind, size), size, kind, beats), write)


def unaligned_wrap(r):
    size = r.choice([2, 4])
    address = address_for(r, 'wrap', size) + r.randrange(1, size)
    return burst_words(r, (address, size, 'wrap', r.choice([2, 4, 8, 16])), is_write(r))


def crossed_page(r):
    """An `incr` burst whose last byte lies just behind the end of its page, or further behind it."""
    size = r.choice([1, 2, 4])
    left = r.randint(1, 20)
    address = PAGE * r.choice([1, 2, 3, TOP_ADDRESS // PAGE - 1]) - left
    least = (left + address % size) // size + 1
    return burst_words(r, (address, size, 'incr', r.choice([least, r.randint(least, 40)])), is_write(r))


# The bad lines by the code that is told of most of them.
BAD = {
    17: [
        wrong_first_word,
        missing_word,
        surplus_word,
        signed_number,
        wrong_pairs,
        wrong_pairs,
        wrong_blank,
        replaced(2, ['', 'x', '0x1', '00000000001', '4294967296', '99999999999', '1_0', '\u0661']),
        replaced(3, ['0X10', '0x', '10', 'x10', '0xg', '0x1_0', '0x' + '0' * 17]),
        replaced(3, ['0x8000000000000000', '0xffffffffffffffff']),
        replaced(4, ['0', '3', '04', '256', '5', '1x', '2.', '0x4']),
        replaced(5, ['Incr', 'FIXED', 'wrapp', 'inc', 'incr,']),
        replaced(6, ['0', '00', '4294967296', '00000000002', '1x', '0x1', '11223344aa', '--']),
    ],
    18: [unknown_manager],
    19: [large_id],
    20: [too_wide, wrong_length, unaligned_wrap, crossed_page],
}


def bad_words(r):
    return r.choice(BAD[r.choice([17, 17, 18, 19, 20, 20])])(r)


# Whole inputs.


def line_of(r, words):
    """The words with blanks and tabs between them, and at times around them."""
    if r.random() < 0.7:
        return ' '.join(words)

    def blank(least):
        return ''.join(r.choice(' \t') for _ in range(r.randint(least, 3)))

    return blank(0) + ''.join(word + blank(1) for word in words[:-1]) + ''.join(words[-1:]) + blank(0)


def text_of(r, lines):
    """The lines with their ends; the last one has one mostly, or the first half of one."""
    ends = r.choice([['\n'], ['\n'], ['\r\n'], ['\n', '\r\n']])
    text = ''.join(line + r.choice(ends) for line in lines)
    if r.random() < 0.2:
        text = text.removesuffix('\n')
        return text if r.random() < 0.3 else text.removesuffix('\r')
    return text


def traffic_lines(r, bad):
    """Good lines, among them so many bad ones in random places."""
    lines = [good_words(r) for _ in range(r.randint(0, 24))]
    for _ in range(bad):
        lines.insert(r.randint(0, len(lines)), bad_words(r))
    return [line_of(r, words) for words in lines]


def without_separator(r):
    """An input in which no line is `%%`."""
    first = r.choice(['', '%', '%%%', ' %%', '%% ', '%%\t', '\ufeff%%', '# %%', '%%\r\r'])
    lines = [first] + traffic_lines(r, 0)
    if r.random() < 0.1:
        lines = []
    return text_of(r, [line for line in lines if line != '%%']).encode()


def no_text(r):
    """An input with bytes that are no UTF-8 in some place, the first line's too."""
    data = text_of(r, ['%%'] + traffic_lines(r, r.choice([0, 0, 1]))).encode()
    lone = [b'\xff', b'\x80', b'\xc3', b'\xe2\x82', b'\xf0\x9f\x98']
    wrong = r.choice(lone + [b'\xc0\xaf', b'\xed\xa0\x80', b'\xf4\x90\x80\x80'])
    # After a break of a line or a word no earlier byte makes the wrong ones right.
    places = [0, len(data)] + [place for place, byte in enumerate(data) if byte in b' \n']
    place = r.choice(places)
    return data[:place] + wrong + data[place:]


def network_document(r):
    """A random network with legal traffic; at times with a bad topology, or with a line that may be wrong."""
    found = random_networks.network(r)
    lines = random_networks.traffic(r, found)
    if r.random() < 0.05:
        lines.insert(r.randint(0, len(lines)), line_of(r, bad_words(r)))
    topology = random_networks.spoilt(r, found) if r.random() < 0.25 else random_networks.text(found)
    return (topology + text_of(r, ['%%'] + lines)).encode()


def document(r):
    """An input of `run`."""
    if r.random() < 2 / 3:
        return network_document(r)
    # Not every input of this kind has a line `%%`, or is text.
    return random_networks.ONE_MEMORY + traffic_document(r)


def traffic_document(r):
    """Good and bad traffic with what stands before it."""
    choice = r.random()
    if choice < 0.05:
        return no_text(r)
    if choice < 0.1:
        return without_separator(r)
    lines = traffic_lines(r, 0 if choice < 0.62 else r.choice([1, 1, 1, 2, 3]))
    return text_of(r, ['%%'] + lines).encode()


# The comparison.


def cause(answer):
    """What an answer comes to: accepted, or the refusal without its line."""
    if answer is None:
        return 'no end in 60 s'
    status, text = answer
    if status == 0:
        return 'accepted'
    words = text.decode(errors='replace').split()
    if status != 3 or words[:1] != ['refused']:
        return 'status %d' % status
    return ' '.join(words[:3]) + (', rule ' + words[4] if words[1:2] == ['20'] else '')


def shown(answer):
    return 'no end in 60 s' if answer is None else '%d %r' % (answer[0], answer[1][:400])


def compare(program, other, count, seed):
    """Compares the runs of `count` inputs; answers the causes, how many calls agreed, and how many differ."""
    causes = collections.Counter()
    agreed = differing = 0
    for number in range(count):
        r = random.Random(seed * 1000003 + number)
        mine = document(r)
        runs = [['run'], ['plan']] + ([['run', '--trace=all']] if r.random() < 1 / 3 else [])
        for words in runs:
            theirs = call(other, words, mine)
            if words == ['run']:
                causes[cause(theirs)] += 1
            if program is None:
                continue
            ours = call(program, words, mine)
            if ours == theirs and ours is not None:
                agreed += 1
                continue
            differing += 1
            if differing <= 5:
                print('differs: %s of input %d of seed %d' % (' '.join(words), number, seed))
                print('  %r' % mine[:2000])
                print('  program %s\n  other   %s' % (shown(ours), shown(theirs)))
    return causes, agreed, differing


def main():
    if len(sys.argv) < 2 or not os.access(sys.argv[1], os.X_OK):
        print('skipped: no other simulator is given')
        return 0
    count = int(sys.argv[2]) if len(sys.argv) > 2 else 200
    seed = int(sys.argv[3]) if len(sys.argv) > 3 else 1
    program = sys.argv[4] if len(sys.argv) > 4 else PROGRAM
    if not os.access(program, os.X_OK):
        if len(sys.argv) > 4:
            print('there is no program', program)
            return 2
        program = None
    causes, agreed, differing = compare(program, sys.argv[1], count, seed)
    for name in sorted(causes, key=lambda name: [int(word) if word.isdigit() else 0 for word in name.split()]):
        print('%6d %s' % (causes[name], name))
    if program is None:
        print('nothing compared: the program is not built')
        return 0
    print('%d agreed, %d differ' % (agreed, differing))
    return 1 if differing else 0


sys.exit(main())
