"""Reads what axinet writes (traces, answers, plans) into plain records, for the scripts beside it."""

import sys

ADDRESS_FIELDS = ("id", "addr", "len", "size", "burst", "lock", "tag")
FIELDS = {
    "aw": ADDRESS_FIELDS,
    "w": ("data", "strb", "last", "tag"),
    "b": ("id", "resp", "tag"),
    "ar": ADDRESS_FIELDS,
    "r": ("id", "data", "resp", "last", "tag"),
}
CHANNELS = tuple(FIELDS)
HEXADECIMAL = ("addr", "strb")
RESPONSES = ("okay", "exokay", "slverr", "decerr")


class Unreadable(Exception):
    """A line is not what axinet writes."""


def read_tag(word):
    return dict(zip(("number", "low", "high"), map(int, word.split(":"))))


def read_beat(channel, word):
    """A beat as a dictionary, with `taken`, and `data` as a number whose lowest byte is lane 0; None for `-`."""
    if word == "-":
        return None
    beat = {"taken": word[0] == "+"}
    for name, text in zip(FIELDS[channel], word[1:].split(","), strict=True):
        if name == "tag":
            beat["tag"] = read_tag(text)
        elif name == "data":
            beat["data"] = int.from_bytes(bytes.fromhex(text), "little")
        else:
            beat[name] = int(text, 16 if name in HEXADECIMAL else 10)
    return beat


def write_beat(channel, beat, bus):
    """The word of a trace line that `read_beat` reads."""
    if beat is None:
        return "-"
    words = []
    for name in FIELDS[channel]:
        value = beat[name]
        if name == "tag":
            words.append("{number}:{low}:{high}".format(**value))
        elif name == "data":
            words.append(value.to_bytes(bus, "little").hex())
        else:
            words.append(format(value, "x" if name in HEXADECIMAL else "d"))
    return ("+" if beat["taken"] else "=") + ",".join(words)


def write_trace_line(round_number, link, kind, bus, beats):
    words = [write_beat(channel, beats.get(channel), bus) for channel in CHANNELS]
    return " ".join([str(round_number), str(link), kind, str(bus), *words])


def read_trace(lines):
    """The port rounds of a trace, up to its first line `%%`: (round, link, kind, bus, beats by channel)."""
    for number, line in enumerate(lines, 1):
        line = line.rstrip("\r\n")
        if line == "%%":
            return
        words = line.split(" ")
        try:
            beats = {c: read_beat(c, w) for c, w in zip(CHANNELS, words[4:], strict=True)}
            yield int(words[0]), int(words[1]), words[2], int(words[3]), beats
        except (ValueError, IndexError):
            raise Unreadable(f"line {number} is no trace line: {line[:60]!r}") from None


def read_answer(words):
    row = {"number": int(words[0]), "direction": words[1], "manager": words[2],
           "issued": int(words[3]), "answered": int(words[4])}
    if words[1] == "write":
        row["response"] = words[5]
    else:
        row["beats"] = [dict(zip(("response", "bytes"), word.split(":", 1))) for word in words[5:]]
    return row


def read_answers(lines):
    """The answers of a run, and the number of its rounds (None where its last line is missing). A trace before them
    is passed over."""
    lines = [line.rstrip("\r\n") for line in lines]
    if "%%" in lines:
        lines = lines[lines.index("%%") + 1:]
    answers, rounds = [], None
    for line in lines:
        words = line.split(" ")
        try:
            if words[0] == "rounds":
                rounds = int(words[1])
            elif words[1] in ("read", "write"):
                answers.append(read_answer(words))
            else:
                raise ValueError
        except (ValueError, IndexError):
            raise Unreadable(f"no answer: {line[:60]!r}") from None
    return answers, rounds


LINK_FIELDS = ("number", "upper", "lower", "kind", "bus", "id_width", "depth")


def read_plan(lines):
    """The nodes and links of a plan as dictionaries, and its bound (None where it has none)."""
    nodes, links, bound = [], [], None
    for line in lines:
        words = line.split()
        try:
            if words[0] == "node":
                nodes.append({"number": int(words[1]), "part": words[2], "name": words[3]})
            elif words[0] == "link":
                values = [word if name == "kind" else int(word) for name, word in zip(LINK_FIELDS, words[1:], strict=True)]
                links.append(dict(zip(LINK_FIELDS, values)))
            elif words[0] == "bound":
                bound = None if words[1] == "-" else int(words[1])
            else:
                raise ValueError
        except (ValueError, IndexError):
            raise Unreadable(f"no line of a plan: {line[:60]!r}") from None
    return nodes, links, bound


def run_script(main):
    """Runs `main`, and ends with a line on standard error and status 1 where an input is not what axinet writes."""
    try:
        main()
    except Unreadable as fault:
        sys.exit(f"{sys.argv[0]}: {fault}")
    except BrokenPipeError:
        sys.stderr.close()
        sys.exit(1)
