#!/usr/bin/env python3
"""Runs the scripts that read axinet's texts on the examples, and compares what they write with examples/tools.

    tools/run_tools.py PROGRAM            compares, to the byte
    tools/run_tools.py PROGRAM --store    stores what they write today

Then it runs the mended twins of examples/refused, the benches (run_rtl.py), the commands in the pages (run_docs.py), the
install step, and draws the pictures of docs/ for a trial. It says nothing where all agree; on standard error it says what
isn't installed and was left out. The exit status is 1 where something differs.
"""

import pathlib
import re
import shutil
import subprocess
import sys
import tempfile

TOP = pathlib.Path(__file__).resolve().parent.parent
EXAMPLES, STORED = TOP / "examples", TOP / "examples" / "tools"
# The plan of a network with nodes of all kinds.
ALL_KINDS = (STORED / "small_system.plan").read_bytes()
DRAWN = ("crossbar", "system_on_chip", "crossed_orders")
# What axinet writes of inputs that are too large to be stored.
MADE_UP = ("refused 1 InputTooLong", "refused 21 TooMuchTraffic")


def call(words, text=b""):
    return subprocess.run(list(map(str, words)), input=text, cwd=TOP, stdout=subprocess.PIPE, check=False)


def script(name, *words, text=b""):
    return call([sys.executable, TOP / "tools" / name, *words], text).stdout


def written(program, command, example, *words):
    return call([program, command, *words], (EXAMPLES / example).read_bytes()).stdout


def is_refused(path):
    return not path.stem.endswith("_mended")


def explained(program):
    """What explain.py says of each refused document and each broken trace, in order of name."""
    documents = [EXAMPLES / "misspelt_key.txt", EXAMPLES / "refused_line.txt", *filter(is_refused, sorted((EXAMPLES / "refused").glob("*.txt")))]
    traces = [*sorted((EXAMPLES / "broken").glob("*.trace")), *sorted(EXAMPLES.glob("rtl_*.trace"))]
    for command, paths in (("run", documents), ("check", traces)):
        for path in paths:
            name = path.relative_to(TOP)
            yield script("explain.py", name, text=written(program, command, path.relative_to(EXAMPLES)))
    for line in MADE_UP:
        yield script("explain.py", "examples/write_then_read.txt", text=line.encode())


def same_trace(traced):
    """What the way to a waveform and back makes of a trace: its own lines, where it is right."""
    waveform = STORED / "waits.vcd"
    words = ("--clock", "axinet.aclk", "--round", "axinet.round", "--port", "0=axinet.link0.")
    return script("vcd_to_trace.py", waveform, *words) == traced.split(b"%%\n")[0]


def outputs(program):
    """The name of each stored file, and what it has to hold."""
    traced = written(program, "run", "waits.txt", "--trace=all")
    yield "waits.answers.json", script("to_json.py", "answers", text=traced)
    yield "waits.trace.json", script("to_json.py", "trace", text=traced)
    yield "waits.svg", script("answers_to_svg.py", text=traced)
    yield "waits.vcd", script("trace_to_vcd.py", text=traced)
    yield "crossbar.json", script("to_json.py", "plan", text=written(program, "plan", "crossbar.txt"))
    for name in DRAWN:
        yield f"{name}.dot", script("plan_to_dot.py", text=written(program, "plan", f"{name}.txt"))
    yield "small_system.dot", script("plan_to_dot.py", text=ALL_KINDS)
    yield "pipelining.md", script("pipelining.py", program)
    yield "explained.txt", b"".join(explained(program))


def differing_outputs(program, store):
    for name, found in outputs(program):
        path = STORED / name
        if store:
            path.write_bytes(found)
        elif not path.is_file() or path.read_bytes() != found:
            yield f"examples/tools/{name} differs from what is written today"
    if not same_trace(written(program, "run", "waits.txt", "--trace=all")):
        yield "the trace of waits.txt doesn't come back from its waveform"


def twins_that_fail(program):
    for path in sorted((EXAMPLES / "refused").glob("*_mended.txt")):
        done = call([program, "run"], path.read_bytes())
        if done.returncode != 0:
            yield f"{path.relative_to(TOP)} doesn't run: {done.stdout[:100]!r}"


def words_of(picture):
    """What a drawing of Graphviz says of nodes and links; their places differ from version to version."""
    return sorted(re.findall("<(?:title|text)[^>]*>(.*?)</", picture.read_text()))


def pictures_that_differ(program):
    with tempfile.TemporaryDirectory() as folder:
        if call([sys.executable, TOP / "tools" / "draw_docs.py", program, folder]).returncode != 0:
            yield "draw_docs.py failed"
        for picture in sorted(pathlib.Path(folder).iterdir()):
            stored = TOP / "docs" / picture.name
            if not stored.is_file() or (picture.suffix == ".svg" and words_of(stored) != words_of(picture)):
                yield f"docs/{picture.name} isn't what draw_docs.py draws today"


def failed_scripts(program):
    """The scripts that compare by themselves, and say what differs."""
    for words in (["doubled_names.py"], ["run_rtl.py"], ["run_docs.py", program]):
        done = call([sys.executable, TOP / "tools" / words[0], *words[1:]])
        if done.returncode != 0:
            yield f"{words[0]}: {done.stdout.decode(errors='replace')}"


def failed_install(program):
    with tempfile.TemporaryDirectory() as folder:
        done = call(["bash", TOP / "tools" / "install.sh", folder, program])
        if done.returncode != 0 or not call([pathlib.Path(folder) / "bin" / "axinet", "run"], b"").stdout.startswith(b"refused 3"):
            yield f"install.sh: status {done.returncode}, or the installed program doesn't run"


def main():
    program, store = shutil.which(sys.argv[1]) or sys.argv[1], sys.argv[2:] == ["--store"]
    program = pathlib.Path(program).resolve()
    wrong = [*differing_outputs(program, store), *twins_that_fail(program), *pictures_that_differ(program), *failed_scripts(program),
             *failed_install(program)]
    for line in wrong:
        print(line)
    return 1 if wrong else 0


if len(sys.argv) < 2:
    sys.exit(__doc__)
sys.exit(main())
