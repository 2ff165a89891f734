#!/usr/bin/env python3
"""Turns what axinet writes into JSON: one value a line of a trace or of answers, one value for a plan.

    axinet run < X | tools/to_json.py answers
    axinet run --trace=all < X | tools/to_json.py trace
    axinet plan < X | tools/to_json.py plan

Data is a number whose lowest byte is lane 0. The last line of answers is {"rounds": N}.
"""

import argparse
import json
import sys

import axinet_texts as texts


def print_trace(lines):
    for round_number, link, kind, bus, beats in texts.read_trace(lines):
        print(json.dumps({"round": round_number, "link": link, "kind": kind, "bus": bus, **beats}))


def print_answers(lines):
    answers, rounds = texts.read_answers(lines)
    for answer in answers:
        print(json.dumps(answer))
    print(json.dumps({"rounds": rounds}))


def print_plan(lines):
    nodes, links, bound = texts.read_plan(lines)
    print(json.dumps({"nodes": nodes, "links": links, "bound": bound}))


PRINTERS = {"trace": print_trace, "answers": print_answers, "plan": print_plan}


def main():
    parser = argparse.ArgumentParser(description=__doc__, formatter_class=argparse.RawDescriptionHelpFormatter)
    parser.add_argument("what", choices=PRINTERS)
    PRINTERS[parser.parse_args().what](sys.stdin)


texts.run_script(main)
