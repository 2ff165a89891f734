"""What the line of a broken rule shows, for explain.py: the rule in words, the offending field, and the way to mend it."""

import axinet_texts as texts
from axinet_lines import BURST_NAMES, LENGTHS, PAGE, fields_of, trace_words

KEEP_VALID = "an offer was withdrawn before it was taken: keep VALID high until READY"
KEEP_PAYLOAD = "a beat changed while it waited: keep all its fields until READY"
# Of each rule the field that it is about (None: the whole beat), and what is wrong.
AXI_RULES = {
    1: (None, KEEP_VALID),
    2: (None, KEEP_PAYLOAD),
    3: ("burst", "AxBURST is 3, which is reserved: 0 is FIXED, 1 INCR, 2 WRAP"),
    4: ("size", "a beat has more bytes than the bus: take a smaller AxSIZE (2 to its power is the bytes of a beat)"),
    5: ("len", f"this number of beats isn't allowed: {LENGTHS} (AxLEN is one less)"),
    6: ("addr", "a WRAP burst starts at a multiple of its beats' size"),
    7: ("addr", f"an INCR burst crosses a page of {PAGE} bytes: make two bursts that meet at its end"),
    8: (None, "exclusive accesses aren't known here: keep AxLOCK low, and answer no EXOKAY"),
    9: ("last", "WLAST is on the wrong beat: it is high on beat AxLEN of its burst, counted from 0, and on no other"),
    10: ("strb", "a strobe is outside the valid lanes of its beat, which its address and AxSIZE name"),
    11: ("id", "an answer to no request of this ID, or too early: it may come one cycle after its address and, for a write, its last W beat were taken"),
    12: ("last", "RLAST is on the wrong beat: it is high on the last beat of its request; the reads of one ID are answered in their order"),
}
LITE_RULES = {
    1: (None, KEEP_VALID),
    2: (None, KEEP_PAYLOAD),
    3: (None, "no access of AXI4-Lite: it has ID 0, AxLEN 0, AxSIZE of the whole bus, AxBURST 1 and no lock"),
    4: (None, "on AXI4-Lite WLAST and RLAST are always high, and BID and RID are 0"),
    5: ("resp", "a response of AXI4-Lite is never EXOKAY (1)"),
    6: (None, "an answer to no request, or too early: it may come one cycle after its address and, for a write, its data were taken"),
}


def beat_of(line, channel):
    """(column, word, {field: (column, text)}) of a channel in a trace line."""
    column, word = trace_words(line)[4 + texts.CHANNELS.index(channel)]
    fields = {} if word == "-" else {name: (place, text) for name, place, text in fields_of(channel, column, word)}
    return column, word, fields


def lines_of(lines, link):
    """The numbers, from 0, of the lines of a link, up to the first line %%."""
    end = lines.index("%%") if "%%" in lines else len(lines)
    return [number for number, line in enumerate(lines[:end]) if line.split(" ")[1:2] == [link]]


def bad_lite_field(fields, bus):
    """The first field of a request or a beat that AXI4-Lite doesn't have so."""
    wanted = {"id": "0", "len": "0", "size": str(bus.bit_length() - 1), "burst": "1", "lock": "0", "last": "1"}
    return next((name for name, (_, text) in fields.items() if text != wanted.get(name, text)), None)


def changed_field(lines, before, fields, channel):
    """The field that changed since the line before, as (name, old text)."""
    old = beat_of(lines[before], channel)[2]
    return next(((name, old[name][1]) for name, (_, text) in fields.items() if name in old and old[name][1] != text), (None, ""))


def values(rule, fields):
    """What the fields of a broken AXI4 rule say, in numbers."""
    def number(name, base=10):
        return int(fields[name][1], base)

    if rule == 4:
        return f" (AxSIZE {number('size')} is {1 << number('size')} bytes)"
    if rule == 5:
        return f" ({BURST_NAMES[number('burst')]} of {number('len') + 1} beats)"
    if rule == 6:
        return f" (0x{fields['addr'][1]} is no multiple of {1 << number('size')})"
    if rule == 7:
        size, address = 1 << number("size"), number("addr", 16)
        return f" (its last byte is at {address - address % size + size * (number('len') + 1) - 1:#x})"
    return ""


def explain_rule(words, lines):
    """(line from 0, column, length, what) of a line `broken LINE ROUND LINK CHANNEL RULE`."""
    _, line, round_number, link, channel, rule = words
    shown = lines_of(lines, link)
    kind, bus = lines[shown[0]].split(" ")[2:4]
    rules = LITE_RULES if kind == "lite" else AXI_RULES
    name, what = rules[int(rule)]
    front = f"cycle {round_number}, link {link}, channel {channel.upper()}, rule {rule} of {'AXI4-Lite' if kind == 'lite' else 'AXI4'}: "
    if line == "0":
        last = max(number for number in shown if int(lines[number].split(" ")[0]) < int(round_number))
        column, word, _ = beat_of(lines[last], channel)
        return last, column, len(word), f"{front}{what} (this beat waits, and cycle {round_number} has no line of the link)"
    number = int(line) - 1
    column, word, fields = beat_of(lines[number], channel)
    if int(rule) == 2:
        before = max(other for other in shown if other < number)
        name, old = changed_field(lines, before, fields, channel)
        what += f" ({name} was {old})"
    elif kind == "lite" and int(rule) in (3, 4):
        name = bad_lite_field(fields, int(bus))
    elif int(rule) == 8:
        name = "lock" if "lock" in fields else "resp"
    elif kind == "axi" and fields:
        what += values(int(rule), fields)
    column, word = fields.get(name, (column, word))
    return number, column, len(word), front + what
