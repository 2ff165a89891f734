#!/usr/bin/env python3
"""Lists the names that more than one definition of specs/ has.

    tools/doubled_names.py

Each name of a definition in specs/ has one meaning over the whole repository, and each notion one
name. Names that more than one crate has for a reason stand in tools/doubled_names.txt, a line each:
the name, how many definitions have it, and why. A name that isn't there, or has another number of
definitions, is printed with the places of its definitions, and so is a line of the list that no
name needs; then the exit status is 1.
"""
import collections
import pathlib
import re
import sys

ROOT = pathlib.Path(__file__).resolve().parent.parent
LIST = ROOT / 'tools' / 'doubled_names.txt'
DEFINITION = re.compile(r'\s*(?:abbrev|record|data|unfoldable|foldable|opaque)\s+(?:pub\s+)?([^\s:({]+)')


def definitions():
    """The places of each name's definitions: the file below crates/ and the line."""
    places = collections.defaultdict(list)
    for path in sorted((ROOT / 'crates').glob('*/specs/**/*.antt')):
        for number, line in enumerate(path.read_text().splitlines(), 1):
            found = DEFINITION.match(line)
            if found:
                places[found.group(1)].append('%s:%d' % (path.relative_to(ROOT / 'crates'), number))
    return places


def justified():
    """The names that are doubled for a reason, and how many definitions each has."""
    counts = {}
    for line in LIST.read_text().splitlines() if LIST.is_file() else []:
        words = line.split(None, 2)
        if words and not line.startswith('#'):
            counts[words[0]] = int(words[1])
    return counts


def main():
    places, counts = definitions(), justified()
    doubled = {name: found for name, found in places.items() if len(found) > 1}
    wrong = [name for name, found in doubled.items() if counts.get(name) != len(found)]
    for name in sorted(wrong):
        print(name, *doubled[name])
    needless = sorted(set(counts) - set(doubled))
    for name in needless:
        print('%s: in %s, and not doubled' % (name, LIST.name))
    return 1 if wrong or needless else 0


sys.exit(main())
