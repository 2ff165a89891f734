#!/usr/bin/env python3
"""Turns a trace into a waveform that GTKWave and other viewers open.

    axinet run --trace=all < X | tools/trace_to_vcd.py > X.vcd

Each link is a scope, each round a cycle of `aclk`: what a line of a round says is there at the rising edge. A trace
doesn't show READY where nothing is offered, nor payload without VALID: these are x. More than 64 rounds in which
nothing is offered are drawn as four; `round` tells which round each cycle is. With `--plan` scopes are named after the
nodes that the link joins. tools/vcd_to_trace.py turns the waveform into the same trace again:

    tools/vcd_to_trace.py X.vcd --clock axinet.aclk --round axinet.round --port 0=axinet.link0.
"""

import argparse
import sys

import axinet_texts as texts

BITS = {"id": 32, "addr": 63, "len": 8, "size": 3, "burst": 2, "lock": 1, "resp": 2, "last": 1,
        "number": 32, "low": 7, "high": 7}
QUIET_ROUNDS, CYCLE = 64, 10


def code_of(number):
    """The short name of a signal in the file: printable characters without a space."""
    code = ""
    while True:
        number, digit = divmod(number, 94)
        code += chr(33 + digit)
        if not number:
            return code


def signals_of(channel, bus):
    """The signals of a channel with their bits, in order."""
    yield "valid", 1
    yield "ready", 1
    for field in texts.FIELDS[channel]:
        if field == "tag":
            yield from ((name, BITS[name]) for name in ("number", "low", "high"))
        elif field == "data":
            yield "data", 8 * bus
        else:
            yield field, bus if field == "strb" else BITS[field]


def value_of(beat, name):
    """What a signal shows: None is x."""
    if name == "valid":
        return int(beat is not None)
    if beat is None:
        return None
    if name == "ready":
        return int(beat["taken"])
    return beat["tag"][name] if name in beat["tag"] else beat[name]


class Waveform:
    """Writes values as they change."""

    def __init__(self):
        self.codes, self.shown = {}, {}

    def declare(self, key, name, bits):
        self.codes[key] = (code_of(len(self.codes)), bits)
        print(f"$var wire {bits} {self.codes[key][0]} {name} $end")

    def show(self, key, value):
        if key in self.shown and self.shown[key] == value:
            return
        self.shown[key] = value
        code, bits = self.codes[key]
        text = "x" if value is None else format(value, "b")
        print(text + code if bits == 1 else f"b{text} {code}")


def scope_names(ports, plan_file):
    names = {link: f"link{link}" for link in ports}
    if plan_file:
        with open(plan_file) as lines:
            nodes, links, _ = texts.read_plan(lines)
        node_names = {node["number"]: node["name"].replace(".", "_") for node in nodes}
        for link in links:
            if link["number"] in names:
                names[link["number"]] += f'_{node_names[link["upper"]]}_to_{node_names[link["lower"]]}'
    return names


def declare_all(wave, ports, names):
    print("$version axinet trace_to_vcd $end\n$timescale 1ns $end\n$scope module axinet $end")
    wave.declare("aclk", "aclk", 1)
    wave.declare("round", "round", 63)
    for link, bus in sorted(ports.items()):
        print(f"$scope module {names[link]} $end")
        for channel in texts.CHANNELS:
            for name, bits in signals_of(channel, bus):
                wave.declare((link, channel, name), channel + name, bits)
        print("$upscope $end")
    print("$upscope $end\n$enddefinitions $end")


def cycles_of(rounds):
    """The rounds that are drawn: all up to one after the last, without the middle of long quiet stretches."""
    before = 0
    for number in sorted({*rounds, *(number + 1 for number in rounds)}):
        if number - before > QUIET_ROUNDS:
            yield from (before + 1, before + 2, number - 1, number)
        else:
            yield from range(before + 1, number + 1)
        before = number


def main():
    parser = argparse.ArgumentParser(description=__doc__, formatter_class=argparse.RawDescriptionHelpFormatter)
    parser.add_argument("--plan", help="the text that `axinet plan` wrote")
    arguments = parser.parse_args()
    rounds, ports = {}, {}
    for number, link, _, bus, beats in texts.read_trace(sys.stdin):
        ports[link] = bus
        rounds.setdefault(number, {})[link] = beats
    wave = Waveform()
    declare_all(wave, ports, scope_names(ports, arguments.plan))
    time = 0
    for number in cycles_of(rounds):
        print(f"#{time}")
        wave.show("aclk", 0)
        wave.show("round", number)
        seen = rounds.get(number, {})
        for link, bus in sorted(ports.items()):
            for channel in texts.CHANNELS:
                beat = seen.get(link, {}).get(channel)
                for name, _ in signals_of(channel, bus):
                    wave.show((link, channel, name), value_of(beat, name))
        print(f"#{time + CYCLE // 2}")
        wave.show("aclk", 1)
        time += CYCLE
    print(f"#{time}")
    if time:
        wave.show("aclk", 0)


texts.run_script(main)
