#!/usr/bin/env python3
"""Says what is wrong with an input, as compilers do: FILE:LINE: error: what is wrong, and how to mend it.

    axinet run < INPUT | tools/explain.py INPUT
    axinet check < TRACE | tools/explain.py TRACE

It reads the one line that axinet wrote, and the input for the line and the word that it is about. Lines are the
editor's: the first line of the file is 1. It judges nothing itself. The status is 1 where something is wrong, else 0.
Before Python 3.11 it says less of topologies.
"""

import argparse
import sys

import axinet_lines
import axinet_topology as topology
from axinet_rules import explain_rule

WIDE = 160
# What is said of a refusal, and of a node where nothing more is known.
CAUSES = {
    1: "the input has more than 16,777,216 bytes: make two inputs (of a trace, cut where nothing is under way)",
    2: "the input isn't UTF-8: save it as plain text",
    3: "no line is exactly %%: put one between the topology and the traffic",
    4: "the topology isn't TOML: look for a missing quote, bracket or comma, or a key that stands twice",
    5: "the keys are not those of the node's kind, or a value is out of its range",
    6: "an earlier node has this name: rename one of them",
    7: "a `to` names no node",
    8: "two nodes are above this one, or one is above a manager: put a mux between",
    9: "nothing is above this node: name it in a `to`, or take it out",
    10: "the links below this node lead back to it: links lead from managers to memories",
    11: "a region, memory or range is empty, isn't made of whole pages (ranges: lines of 128 bytes), or ends too high",
    12: "two regions of this node share an address: make one smaller",
    13: "buses of different widths meet here: put an `up` or `down` between",
    14: "the IDs below this node would have more than 16 bits: put a `remap` above it",
    15: "AXI4-Lite and AXI4 meet here, or the bus above a `lite` isn't 4 or 8 bytes",
    16: "the network is too large from this node on: make two networks",
    21: "there are more than 16,384 transactions, or more than 262,144 beats: make two inputs (the second begins with new memories)",
    22: "no trace line, or out of order",
    23: "nodes of this kind don't run yet",
}


def separator(lines):
    """The number, from 0, of the first line %%; -1 where there is none."""
    return lines.index("%%") if "%%" in lines else -1


def text_place(text, offset):
    """(line from 0, column) of a place in a text."""
    return text.count("\n", 0, offset), offset - text.rfind("\n", 0, offset) - 1


def word_place(text, span, word):
    """The offset and the length of a word in a node's table; of its beginning where there is none."""
    start, end = span
    if word:
        for place, character in topology.plain_places(text) if not word.startswith('"') else ():
            if start <= place < end and text.startswith(word, place) and is_key(text, place, len(word)):
                return place, len(word)
        if word.startswith('"') and (place := text.find(word, start, end)) >= 0:
            return place, len(word)
    return start, 1


def is_key(text, place, length):
    """Whether a whole word with = after it stands there."""
    after = text[place + length:].lstrip(" \t")
    return not (text[place - 1].isalnum() or text[place - 1] == "_") and after.startswith("=")


def explain_node(code, number, lines):
    end = separator(lines)
    text = "\n".join(lines[:end] if end >= 0 else lines)
    nodes, spans = topology.nodes_of(text), topology.node_spans(text)
    if not 0 < number <= len(spans):
        return 0, 0, 1, CAUSES[code] + ("" if number else ": the top level has the keys version=1 and node, an array of tables")
    word, what = topology.find_fault(code, nodes, number) if code in (5, *topology.FINDERS) and len(nodes) == len(spans) else ("kind", None)
    offset, length = word_place(text, spans[number - 1], word)
    name = nodes[number - 1].get("name") if len(nodes) == len(spans) else None
    told = f"node {number}" + (f" ({name})" if name else "")
    return *text_place(text, offset), length, f"{told}: {what or CAUSES[code]}"


def explain_toml(lines):
    end = separator(lines)
    fault = topology.toml_fault("\n".join(lines[:end] if end >= 0 else lines))
    if fault is None:
        return 0, 0, 1, CAUSES[4]
    line, column, why = fault
    return min(line, len(lines)) - 1, column - 1, 1, f"{why}, here or before: {CAUSES[4]}"


def explain_separator(lines):
    for number, line in enumerate(lines):
        if line.strip(" \t\ufeff") == "%%":
            return number, 0, len(line), "this line isn't exactly %%: take away what stands beside it"
    return 0, 0, 1, CAUSES[3]


def explain_bytes(lines):
    """The first place at which the input isn't UTF-8, which was read as a character that replaces it."""
    number = next((number for number, line in enumerate(lines) if "\ufffd" in line), 0)
    return number, max(lines[number].find("\ufffd"), 0), 1, CAUSES[2]


def explain_traffic(code, place, rule, lines):
    number = separator(lines) + place
    line = lines[number]
    nodes = topology.nodes_of("\n".join(lines[:separator(lines)]))
    managers = {node["name"]: node for node in nodes if node.get("kind") == "manager"}
    if code == 17:
        return number, *axinet_lines.bad_line(line)
    if code == 18:
        return number, *axinet_lines.unknown_manager(line, managers)
    if code == 19:
        return number, *axinet_lines.bad_id(line, {name: node["id_width"] for name, node in managers.items()})
    return number, *axinet_lines.illegal_burst(line, rule, {name: node["bus"] for name, node in managers.items()})


def explain_refusal(words, lines):
    """(line from 0, column, length, what) of a line `refused CODE NAME ..`."""
    code, place = int(words[1]), int(words[3]) if len(words) > 3 else 0
    if code in (2, 3, 4):
        return {2: explain_bytes, 3: explain_separator, 4: explain_toml}[code](lines)
    if 5 <= code <= 16 or code == 23:
        return explain_node(code, place, lines)
    if 17 <= code <= 20:
        return explain_traffic(code, place, int(words[4]) if len(words) > 4 else 0, lines)
    if code == 22:
        return place - 1, *axinet_lines.bad_trace_line(lines, place - 1)
    return (max(separator(lines), 0) if code == 21 else 0), 0, 1, CAUSES[code]


def print_line(line, column, length):
    """The line, or the part of a long one, with its word marked."""
    start = max(0, column - 60) if len(line) > WIDE else 0
    shown = line[start:start + WIDE].replace("\t", " ")
    length = max(1, min(length, len(shown) - (column - start)))
    print(f"    {shown}\n    {' ' * (column - start)}^{'~' * (length - 1)}")


def main():
    parser = argparse.ArgumentParser(description=__doc__, formatter_class=argparse.RawDescriptionHelpFormatter)
    parser.add_argument("input")
    path = parser.parse_args().input
    written = sys.stdin.read().splitlines()
    words = written[-1].split() if written else []
    if not words or words[0] not in ("refused", "broken"):
        print(f"{path}: nothing is refused ({' '.join(words) or 'nothing was written'})")
        return 0
    with open(path, encoding="utf-8", errors="replace", newline="") as source:
        lines = [line.removesuffix("\r") for line in source.read().split("\n")]
    number, column, length, what = (explain_refusal if words[0] == "refused" else explain_rule)(words, lines)
    print(f"{path}:{number + 1}: error: {what} [{' '.join(words[:3]) if words[0] == 'refused' else 'broken'}]")
    if number < len(lines):
        print_line(lines[number], column, length)
    return 1


sys.exit(main())
