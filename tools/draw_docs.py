#!/usr/bin/env python3
"""Draws the pictures of docs/ again, from examples, with the scripts beside it.

    tools/draw_docs.py PROGRAM [FOLDER]

They are written to FOLDER, or to docs/. Plans need Graphviz (Debian's package graphviz); the waveform needs gtkwave, xvfb
and xauth. What is missing is told, and its pictures are left as they are.
"""

import os
import pathlib
import shutil
import subprocess
import sys
import tempfile

TOP = pathlib.Path(__file__).resolve().parent.parent
EXAMPLES = TOP / "examples"
PLANS = {"crossbar_plan": "crossbar.txt", "system_on_chip": "system_on_chip.txt", "crossed_orders": "crossed_orders.txt"}
# The plan of a network with nodes of all kinds, those too that don't run yet.
ALL_KINDS = EXAMPLES / "tools" / "small_system.plan"
BARS = {"system_on_chip_answers": "system_on_chip.txt"}
WAVES = {"early_response": "rtl_early_response.trace"}
# What would wait for what where a demux passed addresses on as soon as it can (docs/NO_DEADLOCK.md).
TRAP = """digraph trap {
  node [fontname="Helvetica" fontsize=10 style=filled shape=box fillcolor="#f8d7da"]; edge [fontname="Helvetica" fontsize=9];
  rankdir=LR;
  mp [label="mux mp has b's second address" fillcolor="#fff3cd"];
  b2 [label="b's second data"];
  b1 [label="b's first data"];
  mq [label="mux mq has a's second address" fillcolor="#fff3cd"];
  a2 [label="a's second data"];
  a1 [label="a's first data"];
  mp -> b2 [label="waits for"]; b2 -> b1 [label="stands after"]; b1 -> mq [label="waits at"];
  mq -> a2 [label="waits for"]; a2 -> a1 [label="stands after"]; a1 -> mp [label="waits at"];
}
"""
SIGNALS = "aclk awvalid awready wvalid wready wlast bvalid bready bresp"
GRAB = """foreach name {%s} {
  for {set i 0} {$i < [gtkwave::getNumFacs]} {incr i} {
    set fac [gtkwave::getFacName $i]
    if {[string match "*.$name*" $fac]} { gtkwave::addSignalsFromList [list $fac] }
  }
}
gtkwave::/Time/Zoom/Zoom_Full
gtkwave::/File/Grab_To_File %s
gtkwave::/File/Quit
"""


def written(words, text):
    return subprocess.run([str(word) for word in words], input=text, stdout=subprocess.PIPE, check=True).stdout


def script(name, text):
    return written([sys.executable, TOP / "tools" / name], text)


def draw_plan(folder, name, plan):
    (folder / f"{name}.svg").write_bytes(written(["dot", "-Tsvg"], script("plan_to_dot.py", plan)))


def draw_plans(program, folder):
    for name, example in PLANS.items():
        draw_plan(folder, name, written([program, "plan"], (EXAMPLES / example).read_bytes()))
    draw_plan(folder, "all_kinds", ALL_KINDS.read_bytes())
    (folder / "crossed_trap.svg").write_bytes(written(["dot", "-Tsvg"], TRAP.encode()))


def draw_bars(program, folder):
    for name, example in BARS.items():
        answers = written([program, "run"], (EXAMPLES / example).read_bytes())
        (folder / f"{name}.svg").write_bytes(script("answers_to_svg.py", answers))


def draw_wave(folder, name, example):
    with tempfile.TemporaryDirectory() as place:
        waves, commands = pathlib.Path(place, f"{name}.vcd"), pathlib.Path(place, "grab.tcl")
        waves.write_bytes(script("trace_to_vcd.py", (EXAMPLES / example).read_bytes()))
        commands.write_text(GRAB % (SIGNALS, folder.resolve() / f"{name}.png"))
        words = ["xvfb-run", "-a", "-s", "-screen 0 1280x1024x24", "gtkwave", "-S", commands.name, waves.name]
        subprocess.run(words, cwd=place, env=dict(os.environ, HOME=place), timeout=60, check=True,
                       stdout=subprocess.DEVNULL, stderr=subprocess.DEVNULL)


def draw_waves(folder):
    """Draws the waveforms. A screen may not be had everywhere: where there is none the pictures stay as they are."""
    for name, example in WAVES.items():
        try:
            draw_wave(folder, name, example)
        except (OSError, subprocess.SubprocessError) as error:
            print(f"draw_docs.py: {name}.png is left as it is, since GTKWave didn't draw it: {error}", file=sys.stderr)


def is_missing(*names):
    missing = [name for name in names if shutil.which(name) is None]
    if missing:
        print(f"draw_docs.py: not installed: {', '.join(missing)}; pictures that need that are left as they are", file=sys.stderr)
    return bool(missing)


def main():
    program, folder = os.path.abspath(sys.argv[1]), pathlib.Path(sys.argv[2] if len(sys.argv) > 2 else TOP / "docs")
    draw_bars(program, folder)
    if not is_missing("dot"):
        draw_plans(program, folder)
    if not is_missing("gtkwave", "xvfb-run", "xauth"):
        draw_waves(folder)


if len(sys.argv) not in (2, 3):
    sys.exit(__doc__)
main()
