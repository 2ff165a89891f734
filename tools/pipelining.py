#!/usr/bin/env python3
"""Prints how many rounds the same traffic takes through more slices and deeper queues, as a table of Markdown.

    tools/pipelining.py PROGRAM

The network is a manager, so many slices, and a memory, all with the same `depth`.
"""

import subprocess
import sys

DEPTHS = (1, 2)
SLICES = (0, 1, 2, 4, 8, 16)
TRAFFIC = {
    "a read of one beat": ["read m 0 0x0 4 incr 1"],
    "a write of 64 beats": ["write m 0 0x0 4 incr" + " 00000000" * 64],
    "64 reads of one beat": [f"read m 0 {4 * number:#x} 4 incr 1" for number in range(64)],
}


def document(slices, depth, lines):
    names = [*(f"s{number}" for number in range(slices)), "ram"]
    nodes = [f'{{name="m", kind="manager", bus=4, id_width=0, to="{names[0]}", depth={depth}}}']
    nodes += [f'{{name="{name}", kind="slice", to="{below}", depth={depth}}}' for name, below in zip(names, names[1:])]
    nodes += ['{name="ram", kind="memory", bus=4, base=0, size=4096}']
    return "version = 1\nnode = [\n" + ",\n".join(nodes) + ",\n]\n%%\n" + "\n".join(lines) + "\n"


def rounds(program, slices, depth, lines):
    done = subprocess.run([program, "run"], input=document(slices, depth, lines).encode(), stdout=subprocess.PIPE, check=False)
    return done.stdout.split()[-1].decode()


def main():
    program = sys.argv[1]
    columns = [(name, depth) for name in TRAFFIC for depth in DEPTHS]
    print("| slices | " + " | ".join(f"{name}, depth {depth}" for name, depth in columns) + " |")
    print("|---" * (1 + len(columns)) + "|")
    for slices in SLICES:
        cells = [rounds(program, slices, depth, TRAFFIC[name]) for name, depth in columns]
        print(f"| {slices} | " + " | ".join(cells) + " |")


if len(sys.argv) != 2:
    sys.exit(__doc__)
main()
