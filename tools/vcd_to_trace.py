#!/usr/bin/env python3
"""Turns a waveform (VCD, of any simulator) into a trace for `axinet check`.

    tools/vcd_to_trace.py waves.vcd --clock top.aclk --reset top.aresetn --port top.s_axi_ --port top.m_axi_ > X.trace

For each rising edge of the clock outside reset it writes what stood on each port just before the edge. A port is the
front of its signals' names: `top.s_axi_` has `top.s_axi_awvalid`, `top.s_axi_awready`, `top.s_axi_awaddr` and so on, in
small or capital letters; outer scopes that a simulator adds may be left out. Ports are numbered from 0 in the order of the words, or as told: `--port 7=top.m_axi_`. `--lite`
is a port of AXI4-Lite. A signal that is missing reads as the standard's default: ID, LEN, LOCK and BRESP 0, SIZE the
bus, BURST INCR, LAST 1, READY 1, WSTRB all lanes. x or z on VALID, or under VALID, is an error with its round and name.
"""

import argparse
import re
import sys

import axinet_texts as texts


def read_events(lines):
    """("signal", name, code, bits), then ("time", t) and ("value", code, text)."""
    scope, words = [], iter(lines)
    for line in words:
        word = line.split()
        if not word:
            continue
        if word[0] == "$scope":
            scope.append(word[2])
        elif word[0] == "$upscope":
            scope.pop()
        elif word[0] == "$var":
            yield "signal", ".".join([*scope, re.sub(r"\[.*", "", word[4])]).lower(), word[3], int(word[2])
        elif word[0] == "$enddefinitions":
            break
    for line in words:
        line = line.strip()
        if line.startswith("#"):
            yield ("time", int(line[1:]))
        elif line[:1] in ("b", "B"):
            text, code = line[1:].split()
            yield "value", code, text
        elif line[:1] in tuple("01xXzZ"):
            yield "value", line[1:], line[0]


class Signals:
    """The values of signals by name, as they stood before the edge."""

    def __init__(self):
        self.codes, self.bits, self.values = {}, {}, {}

    def declare(self, name, code, bits):
        """Files a signal under its name, and under each end of it that no other signal has."""
        self.bits[code] = bits
        while True:
            self.codes[name] = code if self.codes.get(name, code) == code else None
            if "." not in name:
                return
            name = name.split(".", 1)[1]

    def code(self, name):
        return self.codes.get(name.lower())

    def text(self, name):
        code = self.code(name)
        return None if code is None else self.values.get(code, "x")

    def number(self, name, default, round_number):
        text = self.text(name)
        if text is None:
            return default
        if re.search("[xXzZ]", text):
            raise texts.Unreadable(f"round {round_number}: {name} is {text}")
        return int(text, 2)


class Port:
    """One port: its number, the front of its signals' names, its kind."""

    def __init__(self, word, number, kind):
        link, equals, front = word.partition("=")
        self.link, self.front = (int(link), front) if equals else (number, word)
        self.kind = kind

    def bus(self, signals):
        for name in ("wdata", "rdata"):
            if (code := signals.code(self.front + name)) is not None:
                return signals.bits[code] // 8
        raise texts.Unreadable(f"no signal {self.front}wdata or {self.front}rdata")

    def beat(self, channel, signals, bus, round_number):
        def number(name, default):
            return signals.number(self.front + channel + name, default, round_number)

        if number("valid", 0) == 0:
            return None
        defaults = {"size": bus.bit_length() - 1, "burst": 1, "last": 1, "strb": (1 << bus) - 1}
        beat = {name: number(name, defaults.get(name, 0)) for name in texts.FIELDS[channel] if name != "tag"}
        beat["tag"] = {name: number(name, 0) for name in ("number", "low", "high")}
        beat["taken"] = number("ready", 1) == 1
        return beat

    def line(self, signals, round_number):
        """The trace line of a round, or None where nothing is offered."""
        bus = self.bus(signals)
        beats = {channel: self.beat(channel, signals, bus, round_number) for channel in texts.CHANNELS}
        if not any(beats.values()):
            return None
        return texts.write_trace_line(round_number, self.link, self.kind, bus, beats)


class Recorder:
    """Counts rounds, and writes the lines of each."""

    def __init__(self, arguments):
        self.signals, self.arguments, self.rounds = Signals(), arguments, 0
        ports = [*((word, "axi") for word in arguments.port), *((word, "lite") for word in arguments.lite)]
        self.ports = sorted((Port(word, n, kind) for n, (word, kind) in enumerate(ports)), key=lambda port: port.link)

    def edge(self):
        if self.arguments.reset and self.signals.text(self.arguments.reset) != "1":
            return
        self.rounds += 1
        if self.arguments.round:
            self.rounds = self.signals.number(self.arguments.round, self.rounds, self.rounds)
        for port in self.ports:
            if (line := port.line(self.signals, self.rounds)) is not None:
                print(line)

    def record(self, events):
        clock, changes, rises = None, [], False
        for event in events:
            if event[0] == "signal":
                self.signals.declare(*event[1:])
                continue
            if event[0] == "time":
                if rises:
                    self.edge()
                self.signals.values.update(changes)
                changes, rises = [], False
                continue
            clock = clock or self.clock_code()
            changes.append(event[1:])
            rises = rises or (event[1] == clock and event[2] == "1" and self.signals.values.get(clock) == "0")
        if rises:
            self.edge()

    def clock_code(self):
        code = self.signals.code(self.arguments.clock)
        if code is None:
            raise texts.Unreadable(f"no signal {self.arguments.clock}")
        return code


def main():
    parser = argparse.ArgumentParser(description=__doc__, formatter_class=argparse.RawDescriptionHelpFormatter)
    parser.add_argument("vcd")
    parser.add_argument("--clock", required=True)
    parser.add_argument("--reset", help="the active-low reset: rounds are counted where it is 1")
    parser.add_argument("--round", help="a signal that tells the number of the round")
    parser.add_argument("--port", action="append", default=[], metavar="[LINK=]PREFIX")
    parser.add_argument("--lite", action="append", default=[], metavar="[LINK=]PREFIX")
    arguments = parser.parse_args()
    if not arguments.port + arguments.lite:
        parser.error("no --port and no --lite is named")
    with open(arguments.vcd) as lines:
        Recorder(arguments).record(read_events(lines))


texts.run_script(main)
