#!/usr/bin/env python3
"""Tries what the pages say: their links, the commands in them, and the texts that they have from examples/.

    tools/run_docs.py PROGRAM

A line `    $ COMMAND` of a page is run at the top of the repository, with PROGRAM in place of ./axinet; the lines up to the next
empty one have to be what it writes. It says what differs; the exit status is 1 where something does.
"""

import difflib
import pathlib
import re
import shlex
import subprocess
import sys

TOP = pathlib.Path(__file__).resolve().parent.parent
TOPOLOGY = TOP / "docs" / "TOPOLOGY.md"
REFUSED = TOP / "examples" / "refused"
# The refusals of a topology whose texts are short enough for the page.
SHOWN = range(4, 16)


def pages():
    return sorted([*TOP.glob("*.md"), *(TOP / "docs").glob("*.md"), TOP / "examples" / "README.md"])


def anchors(path):
    """The names of a page's headings as links have them."""
    heads = re.findall(r"^#+ (.*)$", re.sub(r"^```.*?^```", "", path.read_text(), flags=re.MULTILINE | re.DOTALL), re.MULTILINE)
    return {re.sub(r"[^\w\- ]", "", re.sub(r"\[(.*?)\]\(.*?\)", r"\1", head)).lower().replace(" ", "-") for head in heads}


def broken_links(path):
    text = re.sub(r"^```.*?^```", "", path.read_text(), flags=re.MULTILINE | re.DOTALL)
    for link in re.findall(r"\]\(([^)\s]+)\)", text):
        place, _, anchor = link.partition("#")
        target = (path.parent / place).resolve() if place else path
        if "://" in link:
            continue
        if not target.exists() or (anchor and anchor not in anchors(target)):
            yield f"{path.relative_to(TOP)}: the link {link} leads nowhere"


def commands(path):
    """Each command of a page, and the lines that have to be written."""
    for command, lines in re.findall(r"^    \$ (.*)\n((?:    .*\n)*)", path.read_text(), re.MULTILINE):
        yield command, [line[4:] for line in lines.splitlines()]


def wrong_commands(path, program):
    for command, wanted in commands(path):
        words = command.replace("./axinet", shlex.quote(str(program)))
        done = subprocess.run(["bash", "-c", words], cwd=TOP, stdout=subprocess.PIPE, text=True, check=False)
        if done.stdout.splitlines() != wanted:
            yield f"{path.relative_to(TOP)}: `{command}` writes\n{done.stdout}"


def topology(path):
    return path.read_text().split("%%")[0]


def twin(bad):
    """A refused text and its mended twin, line by line."""
    mended = bad.with_name(bad.stem + "_mended.txt")
    lines = difflib.ndiff(topology(bad).splitlines(), topology(mended).splitlines())
    return "\n".join(line for line in lines if not line.startswith("?"))


def wrong_texts():
    page = TOPOLOGY.read_text()
    wanted = {path.stem: twin(path) for path in sorted(REFUSED.glob("*.txt"))
              if not path.stem.endswith("_mended") and int(path.stem[:2]) in SHOWN}
    wanted["system_on_chip.txt"] = topology(TOP / "examples" / "system_on_chip.txt")
    wanted["pipelining.md"] = (TOP / "examples" / "tools" / "pipelining.md").read_text()
    for name, text in wanted.items():
        if text not in page:
            yield f"docs/TOPOLOGY.md hasn't {name} as it is in examples:\n{text}"


def main():
    program = pathlib.Path(sys.argv[1]).resolve()
    wrong = list(wrong_texts())
    for path in pages():
        wrong += [*broken_links(path), *wrong_commands(path, program)]
    for line in wrong:
        print(line)
    return 1 if wrong else 0


if len(sys.argv) != 2:
    sys.exit(__doc__)
sys.exit(main())
