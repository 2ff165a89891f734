"""What is wrong with a line of traffic or of a trace, for explain.py.

Each function answers (column, length, what): the offending word by its place in the line, and what is wrong with it.
"""

import re

import axinet_texts as texts
from axinet_topology import near

ORDERS = ("write", "read", "wait")
SIZES = tuple(str(1 << power) for power in range(8))
BURSTS = ("fixed", "incr", "wrap")
BURST_NAMES = ("FIXED", "INCR", "WRAP", "reserved")
PAGE = 4096
LENGTHS = "FIXED has 1 to 16 beats, INCR 1 to 256, WRAP 2, 4, 8 or 16"


def words_of(line):
    """The words of a line of traffic with their columns."""
    return [(word.start(), word[0]) for word in re.finditer(r"[^ \t]+", line)]


# Traffic


def pairs_of(number, size, address, burst):
    """How many pairs the data word of this number, from 0, has."""
    return size - address % size if number == 0 or burst == "fixed" else size


def data_fault(words, size, address, burst):
    """The first data word that has not a pair of digits for each byte of its beat."""
    for number, (column, word) in enumerate(words):
        pairs = pairs_of(number, size, address, burst)
        if len(word) != 2 * pairs or not re.fullmatch("([0-9a-fA-F]{2}|--)*", word):
            what = f"data word {number + 1} has to be {pairs} pair{'s' if pairs > 1 else ''} of hexadecimal digits or --"
            if number == 0 and address % size:
                what += f", since the first beat begins at {address:#x} and ends at a multiple of {size}"
            return column, len(word), what
    return None


def word_fault(number, word):
    """What is wrong with the word of this number in a read or a write, or None."""
    if number == 2 and (not re.fullmatch("[0-9]{1,10}", word) or int(word) >= 1 << 32):
        return "the ID is a decimal below 4294967296"
    if number == 3 and (not re.fullmatch("0x[0-9a-fA-F]{1,16}", word) or int(word, 16) >= 1 << 63):
        return "the address is 0x (with a small x) and hexadecimal digits, below 2^63"
    if number == 4 and word not in SIZES:
        return "the size is 1, 2, 4, 8, 16, 32, 64 or 128: it is the bytes of a beat, neither bits nor AxSIZE"
    if number == 5 and word not in BURSTS:
        return "the kind of the burst is fixed, incr or wrap" + near(word, BURSTS)
    return None


def bad_line(line):
    """Why a line of traffic is none."""
    words = words_of(line)
    column, order = words[0]
    if order not in ORDERS:
        return column, len(order), "a line begins with write, read or wait" + near(order, ORDERS)
    form = "MANAGER" if order == "wait" else f"MANAGER ID ADDRESS SIZE KIND {'DATA ..' if order == 'write' else 'BEATS'}"
    for number, (column, word) in enumerate(words[:6] if order != "wait" else []):
        if what := word_fault(number, word):
            return column, len(word), what
    wanted = len(form.replace(" ..", "").split()) + 1
    if len(words) < wanted:
        return len(line), 1, f"a word is missing: {order} {form}"
    if order == "write":
        fault = data_fault(words[6:], int(words[4][1]), int(words[3][1], 16), words[5][1])
        return fault or (column, len(order), "a value is out of its range")
    if len(words) > wanted:
        column, word = words[wanted]
        comment = "; a comment has its own line" if word.startswith("#") else ""
        return column, len(line) - column, f"{order} ends after {form.split()[-1]}{comment}"
    column, word = words[-1]
    return column, len(word), "the number of beats is a decimal from 1 on"


def unknown_manager(line, managers):
    column, word = words_of(line)[1]
    return column, len(word), f"no manager has the name {word!r}{near(word, managers)}"


def bad_id(line, managers):
    column, word = words_of(line)[2]
    manager = words_of(line)[1][1]
    bits = managers.get(manager)
    has = f"those of {manager} have {bits} (0 to {(1 << bits) - 1})" if bits is not None else "its manager has fewer"
    return column, len(word), f"the ID {word} needs {int(word).bit_length()} bits, and {has}: take a smaller ID, or a greater id_width"


def illegal_burst(line, rule, buses):
    """Why a burst isn't legal on the bus of its manager, by the rule of legal bursts that it breaks."""
    words = words_of(line)
    texts_only = [word for _, word in words]
    address, size = int(texts_only[3], 16), int(texts_only[4])
    beats = int(texts_only[6]) if texts_only[0] == "read" else len(words) - 6
    if rule == 1:
        bus = buses.get(texts_only[1], "fewer")
        return words[4][0], len(texts_only[4]), f"a beat has {size} bytes, and the bus {bus}: take a smaller size and more beats"
    if rule == 2:
        return words[6][0], len(texts_only[6]), f"{texts_only[5]} can't have {beats} beats: {LENGTHS.lower()}"
    if rule == 3:
        near_by = address - address % size
        return words[3][0], len(texts_only[3]), f"a wrap burst starts at a multiple of its size {size}: {near_by:#x} or {near_by + size:#x}"
    end = address - address % size + size * beats - 1
    page = (address // PAGE + 1) * PAGE
    return words[3][0], len(texts_only[3]), f"the burst ends at {end:#x}, over the end of its page of 4096 bytes: make two bursts that meet at {page:#x}"


# Traces

NUMBERS = {"id": 32, "len": 8, "size": 3, "burst": 2, "lock": 1, "resp": 2, "last": 1}


def is_decimal(word, most):
    return bool(re.fullmatch("0|[1-9][0-9]*", word)) and int(word) <= most


def is_hexadecimal(word, most):
    return bool(re.fullmatch("0|[1-9a-f][0-9a-f]*", word)) and int(word, 16) <= most


def field_fault(name, word, bus):
    """What is wrong with a field of a beat, or None."""
    if name == "data" and not re.fullmatch("[0-9a-f]{%d}" % (2 * bus), word):
        return f"data has {2 * bus} small hexadecimal digits on a bus of {bus} bytes, and here {len(word)}"
    if name == "addr" and not is_hexadecimal(word, (1 << 63) - 1):
        return "an address has small hexadecimal digits, no 0x, no zero at the front, and is below 2^63"
    if name == "strb" and not is_hexadecimal(word, (1 << bus) - 1):
        return f"WSTRB is a number in small hexadecimal digits, of {bus} bits, with no zero at the front"
    if name == "tag":
        parts = word.split(":")
        good = len(parts) == 3 and is_decimal(parts[0], (1 << 32) - 1) and all(is_decimal(part, 127) for part in parts[1:])
        return None if good else "a tag is NUMBER:LOW:HIGH; where you have none write 0:0:0"
    if name in NUMBERS and not is_decimal(word, (1 << NUMBERS[name]) - 1):
        return f"{name} is a decimal from 0 to {(1 << NUMBERS[name]) - 1}, with no zero at the front"
    return None


def fields_of(channel, column, word):
    """The fields of a beat with their columns."""
    place = column + 1
    for name, text in zip(texts.FIELDS[channel], word[1:].split(",")):
        yield name, place, text
        place += len(text) + 1


def beat_fault(channel, column, word, bus):
    if word == "-":
        return None
    if word[0] not in "+=":
        return column, len(word), f"the word of {channel.upper()} is -, or a beat that begins with + (taken) or = (it waits)"
    if len(word[1:].split(",")) != len(texts.FIELDS[channel]):
        return column, len(word), f"a beat of {channel.upper()} has the fields {','.join(texts.FIELDS[channel])}"
    for name, place, text in fields_of(channel, column, word):
        if what := field_fault(name, text, bus):
            return place, max(len(text), 1), what
    return None


def trace_words(line):
    """The words of a trace line with their columns."""
    column, found = 0, []
    for word in line.split(" "):
        found.append((column, word))
        column += len(word) + 1
    return found


def shape_fault(words):
    """What is wrong with the first four words of a trace line, or with their number."""
    empty = next((column for column, word in words if not word), None)
    if empty is not None:
        return empty, 1, "the line is empty" if len(words) == 1 else "words have one space between two, and none stands at the front or at the end"
    if len(words) != 9:
        return words[0][0], len(words[0][1]), f"a trace line has 9 words, and this has {len(words)}: round link kind bus aw w b ar r"
    (first, number), (second, link), (third, kind), (fourth, bus) = words[:4]
    if not is_decimal(number, (1 << 63) - 1) or number == "0":
        return first, len(number), "the round is a decimal from 1 on, with no zero at the front"
    if not is_decimal(link, 4095):
        return second, len(link), "the link is a decimal below 4096"
    if kind not in ("axi", "lite"):
        return third, len(kind), "the kind of the port is axi or lite"
    buses = ("4", "8") if kind == "lite" else ("4", "8", "16", "32", "64", "128")
    if bus not in buses:
        return fourth, len(bus), f"the bus of {kind} is {', '.join(buses[:-1])} or {buses[-1]} bytes (not bits)"
    return None


def bad_trace_line(lines, number):
    """Why the line of this number, from 0, is refused."""
    words = trace_words(lines[number])
    if fault := shape_fault(words):
        return fault
    for channel, (column, word) in zip(texts.CHANNELS, words[4:]):
        if fault := beat_fault(channel, column, word, int(words[3][1])):
            return fault
    place = int(words[0][1]), int(words[1][1])
    before = lines[number - 1].split(" ") if number else ["0", "0"]
    if (int(before[0]), int(before[1])) >= place:
        return 0, len(words[0][1]), "lines come in order of round, and in one round in order of link: sort -n -k1,1 -k2,2"
    for earlier in lines[:number]:
        shown = earlier.split(" ")
        if shown[1] == words[1][1] and shown[2:4] != [word for _, word in words[2:4]]:
            return words[2][0], len(words[2][1]) + 1 + len(words[3][1]), f"link {shown[1]} was {shown[2]} of {shown[3]} bytes in an earlier line"
    return 0, 1, "the line is none of a trace"
