#!/usr/bin/env python3
"""Draws a plan for Graphviz: managers at the top, memories at the bottom, each link with its number, protocol, bus and IDs.

    axinet plan < X | tools/plan_to_dot.py | dot -Tsvg > X.svg

A link is as thick as its bus is wide; AXI4-Lite is dashed; links to error subordinates are grey. The parts of a
crossbar stand in one box.
"""

import argparse
import re
import sys

import axinet_texts as texts

# Shape and colour of each part.
LOOKS = {
    "manager": ("box", "#cfe2ff"),
    "memory": ("cylinder", "#d1e7dd"),
    "lite_memory": ("cylinder", "#e8f3da"),
    "error": ("octagon", "#f8d7da"),
    "demux": ("triangle", "#fff3cd"),
    "mux": ("invtriangle", "#fff3cd"),
    "slice": ("box", "#eeeeee"),
    "remap": ("hexagon", "#e2d9f3"),
    "split": ("house", "#fde2c8"),
    "up": ("invtrapezium", "#d6f0f5"),
    "down": ("trapezium", "#d6f0f5"),
    "lite": ("component", "#e8f3da"),
}


def crossbar_of(node):
    """The name of the crossbar whose part the node is, or None."""
    match = re.fullmatch(r"(.*)\.[dem]\d+", node["name"])
    return match and match[1]


def node_lines(nodes):
    crossbars = {}
    for node in nodes:
        crossbars.setdefault(crossbar_of(node), []).append(node)
    for number, (name, members) in enumerate(crossbars.items()):
        if name:
            yield f'  subgraph cluster_{number} {{ label="{name}"; color=gray;'
        for node in members:
            shape, colour = LOOKS[node["part"]]
            label = f'{node["name"]}\\n{node["part"]}'
            yield f'  n{node["number"]} [shape={shape} fillcolor="{colour}" label="{label}"];'
        if name:
            yield "  }"


def rank_line(nodes, part, rank):
    members = "; ".join(f'n{node["number"]}' for node in nodes if node["part"] == part)
    return [f"  {{ rank={rank}; {members}; }}"] if members else []


def link_lines(nodes, links):
    parts = {node["number"]: node["part"] for node in nodes}
    for link in links:
        ids = f', ID {link["id_width"]} bits' if link["kind"] == "axi" else ""
        label = f'{link["number"]}: {link["kind"]}{ids}\\n{link["bus"]} bytes ({8 * link["bus"]} bits), depth {link["depth"]}'
        looks = ["style=dashed"] if link["kind"] == "lite" else []
        looks.append("color=gray" if parts[link["lower"]] == "error" else f'penwidth={0.5 + link["bus"] ** 0.5 / 2:.1f}')
        yield f'  n{link["upper"]} -> n{link["lower"]} [label="{label}" {" ".join(looks)}];'


def main():
    argparse.ArgumentParser(description=__doc__, formatter_class=argparse.RawDescriptionHelpFormatter).parse_args()
    nodes, links, bound = texts.read_plan(sys.stdin)
    print("digraph axinet {")
    print('  node [fontname="Helvetica" fontsize=10 style=filled]; edge [fontname="Helvetica" fontsize=9];')
    if bound:
        print(f'  label="finished within {bound} rounds";')
    for line in [*node_lines(nodes), *rank_line(nodes, "manager", "source"), *link_lines(nodes, links)]:
        print(line)
    print("}")


texts.run_script(main)
