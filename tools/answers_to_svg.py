#!/usr/bin/env python3
"""Draws the answers of a run: a bar for each transaction, from the round of its issue to that of its answer.

    axinet run < X | tools/answers_to_svg.py > X.svg

Writes are blue, reads green; what is answered with an error is red. A manager's bars stand together, in issue order.
"""

import argparse
import sys

import axinet_texts as texts

COLOURS = {"write": "#4a7fc1", "read": "#5aa469"}
ERROR_COLOUR = "#c94f4f"
ROW_HEIGHT, BAR_HEIGHT, LEFT, TOP, WIDTH = 16, 11, 130, 24, 800


def has_error(answer):
    responses = [answer.get("response", "okay"), *(beat["response"] for beat in answer.get("beats", []))]
    return any(response not in ("okay", "exokay") for response in responses)


def step_of(rounds):
    """The least of 1, 2, 5, 10, 20, .. that gives at most ten marks."""
    step = 1
    while rounds > 10 * step:
        step = step * 5 // 2 if str(step)[0] == "2" else step * 2
    return step


def bar_lines(row, answer, scale):
    y = TOP + row * ROW_HEIGHT
    start, end = LEFT + (answer["issued"] - 1) * scale, LEFT + answer["answered"] * scale
    colour = ERROR_COLOUR if has_error(answer) else COLOURS[answer["direction"]]
    label = f'{answer["manager"]} {answer["direction"]} {answer["number"]}'
    yield f'<text x="{LEFT - 6}" y="{y + 9}" text-anchor="end">{label}</text>'
    yield (f'<rect x="{start:.1f}" y="{y}" width="{end - start:.1f}" height="{BAR_HEIGHT}" fill="{colour}">'
           f'<title>{label}: rounds {answer["issued"]} to {answer["answered"]}</title></rect>')


def main():
    argparse.ArgumentParser(description=__doc__, formatter_class=argparse.RawDescriptionHelpFormatter).parse_args()
    answers, rounds = texts.read_answers(sys.stdin)
    rounds = max([rounds or 1, *(answer["answered"] for answer in answers)])
    managers = list(dict.fromkeys(answer["manager"] for answer in answers))
    answers.sort(key=lambda answer: (managers.index(answer["manager"]), answer["number"]))
    scale, bottom = WIDTH / rounds, TOP + len(answers) * ROW_HEIGHT
    print(f'<svg xmlns="http://www.w3.org/2000/svg" width="{LEFT + WIDTH + 20}" height="{bottom + 8}" '
          'font-family="Helvetica, sans-serif" font-size="10">')
    print('<rect width="100%" height="100%" fill="white"/>')
    for mark in range(0, rounds + 1, step_of(rounds)):
        x = LEFT + mark * scale
        print(f'<line x1="{x:.1f}" y1="{TOP - 6}" x2="{x:.1f}" y2="{bottom}" stroke="#ddd"/>')
        print(f'<text x="{x:.1f}" y="{TOP - 10}" text-anchor="middle">{mark}</text>')
    for row, answer in enumerate(answers):
        print(*bar_lines(row, answer, scale), sep="\n")
    print("</svg>")


texts.run_script(main)
