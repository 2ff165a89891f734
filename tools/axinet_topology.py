"""Reads the topology of a document for explain.py: its nodes, where each stands in the text, and what is wrong with one.

It judges nothing: it looks for the word that a refusal is about, and says what is known of it. The functions that are
named after a refusal answer (word, what): the offending word, as it stands in the node's table, and what is wrong.
"""

import difflib
import re

try:
    import tomllib
except ImportError:  # before Python 3.11
    tomllib = None

PASSING, STORING = {"to"}, {"base", "size"}
STORED, PACED = {"fill", "read_only", "hole"}, {"accept", "give"}
# The keys of each kind besides `name` and `kind`: those that it must have, and those that it may have.
KEYS = {
    "manager": (PASSING | {"bus", "id_width"}, {"depth"} | PACED),
    "memory": (STORING | {"bus"}, STORED | PACED),
    "lite_memory": (STORING, STORED | PACED),
    "slice": (PASSING, {"depth"}),
    "mux": (PASSING, {"depth"}),
    "demux": ({"region"}, {"depth"}),
    "crossbar": ({"region"}, {"depth"}),
    "remap": (PASSING | {"id_width"}, {"depth"}),
    "up": (PASSING | {"bus"}, {"depth"}),
    "down": (PASSING | {"bus"}, {"depth"}),
    "lite": (PASSING, {"depth"}),
}
LIMITS = {"id_width": (0, 16), "depth": (1, 16), "fill": (0, 255), "base": (0, None), "size": (0, None)}
BUSES = (4, 8, 16, 32, 64, 128)
JOINING, TABLES = ("mux", "crossbar"), {"region": {"base", "size", "to"}, "read_only": {"base", "size"}, "hole": {"base", "size"}}
PAGE, LINE, END = 4096, 128, 1 << 63


def near(word, known):
    """A question for the nearest of the known words, or all of them."""
    if not known:
        return ""
    found = difflib.get_close_matches(str(word), sorted(known), 1)
    return f"; did you mean {found[0]!r}?" if found else f"; it can be {', '.join(sorted(known))}"


# Where nodes stand


def plain_places(text):
    """The places and characters of the text outside comments and strings."""
    pattern = re.compile(r'"""(?:\\.|[^\\])*?"""|\'\'\'.*?\'\'\'|"(?:\\.|[^"\\\n])*"|\'[^\'\n]*\'|#[^\n]*', re.DOTALL)
    place = 0
    for skipped in pattern.finditer(text):
        yield from enumerate(text[place:skipped.start()], place)
        place = skipped.end()
    yield from enumerate(text[place:], place)


def inline_tables(text):
    """The (start, end) of each table that is an element of an array at the top level."""
    depth, start = 0, 0
    for place, character in plain_places(text):
        if character in "[{":
            depth += 1
            if character == "{" and depth == 2:
                start = place
        elif character in "]}":
            depth -= 1
            if character == "}" and depth == 1:
                yield start, place + 1


def node_spans(text):
    """The (start, end) of the table of each node, in their order, in either of the two spellings."""
    heads = [match.start() for match in re.finditer(r"^[ \t]*\[\[\s*node\s*\]\]", text, re.MULTILINE)]
    return list(zip(heads, [*heads[1:], len(text)])) if heads else list(inline_tables(text))


def nodes_of(text):
    """The tables of the nodes, or nothing where the text can't be read."""
    try:
        nodes = tomllib.loads(text).get("node", [])
    except (AttributeError, ValueError):
        return []
    return [node if isinstance(node, dict) else {} for node in nodes] if isinstance(nodes, list) else []


def toml_fault(text):
    """The line from 1 and the column from 1 at which the text stops to be TOML, and why; None where that isn't known."""
    try:
        tomllib.loads(text)
    except AttributeError:
        return None
    except ValueError as fault:
        found = re.search(r"\(at line (\d+), column (\d+)\)", str(fault))
        why = str(fault).split(" (at ")[0]
        return (int(found[1]), int(found[2]), why) if found else (len(text.rstrip().split("\n")), 1, why)
    return None


# Keys and values


def is_number(value):
    return isinstance(value, int) and not isinstance(value, bool)


def delays_fault(key, value):
    if not isinstance(value, list) or not 1 <= len(value) <= 64:
        return key, f"{key} is an array of 1 to 64 delays"
    bad = [delay for delay in value if not is_number(delay) or not 0 <= delay <= 63]
    return (key, f"the delay {bad[0]!r} of {key} isn't a whole number from 0 to 63") if bad else None


def tables_fault(key, value):
    if not isinstance(value, list) or (key == "region" and not value):
        return key, f"{key} is an array of tables, as {key}=[{{base=0, size=4096{', to=..' if key == 'region' else ''}}}]"
    for table in value:
        if not isinstance(table, dict):
            return key, f"{table!r} in {key} isn't a table"
        if strange := set(table) - TABLES[key]:
            return min(strange), f"a table of {key} has no key {min(strange)!r}{near(min(strange), TABLES[key])}"
        if missing := TABLES[key] - set(table):
            return key, f"a table of {key} lacks the key {min(missing)!r}"
        for name, inner in table.items():
            if fault := value_fault(name, inner):
                return fault
    return None


def value_fault(key, value):
    """What is wrong with a value, by its key alone."""
    if key == "name" and not (isinstance(value, str) and re.fullmatch("[a-z][a-z0-9_]{0,31}", value)):
        return "name", f"the name {value!r} isn't a small letter and at most 31 small letters, digits or _"
    if key == "to" and not isinstance(value, str):
        return "to", "to is a name in quotes"
    if key == "bus" and value not in BUSES:
        return "bus", f"bus is {value!r}: it is 4, 8, 16, 32, 64 or 128 bytes (not bits)"
    if key in LIMITS:
        least, most = LIMITS[key]
        if not is_number(value) or value < least or (most is not None and value > most):
            return key, f"{key} is {value!r}: it is a whole number, without quotes, {f'{least} to {most}' if most else f'from {least} on'}"
    if key in PACED:
        return delays_fault(key, value)
    return tables_fault(key, value) if key in TABLES else None


def bad_key(node):
    kind = node.get("kind")
    if kind is None:
        alike = difflib.get_close_matches("kind", node, 1)
        return (alike[0], f"it has no key kind, but {alike[0]!r}") if alike else (None, "it has no key kind")
    if kind not in KEYS:
        return "kind", f"there is no kind {kind!r}{near(kind, KEYS)}"
    must, may = KEYS[kind]
    for key in node:
        if key not in must | may | {"name", "kind"}:
            return key, f"a {kind} has no key {key!r}{near(key, (must | may) - set(node))}"
    if missing := (must | {"name"}) - set(node):
        return None, f"a {kind} must have the key {min(missing)!r}"
    faults = filter(None, (value_fault(key, value) for key, value in node.items()))
    return next(faults, (None, "a value is out of its range"))


# The network


def targets(node):
    """The names that a node names, each once, in their order."""
    names = [region.get("to") for region in node.get("region", [])] if "region" in node else [node.get("to")]
    return list(dict.fromkeys(name for name in names if name))


def uppers(nodes, name):
    return [node for node in nodes if name in targets(node)]


def names_of(nodes):
    return [node["name"] for node in nodes]


def ring(nodes, name):
    """The names on a way from the node back to itself, the name at both ends."""
    by_name = {node["name"]: node for node in nodes}
    paths, seen = [[name]], set()
    for path in paths:
        for below in targets(by_name[path[-1]]):
            if below == name:
                return [*path, name]
            if below not in seen:
                seen.add(below)
                paths.append([*path, below])
    return [name]


def links_below(nodes):
    """By the name of each node of a network without rings: (is AXI4-Lite, bus, bits of an ID) of the links below it."""
    above = {node["name"]: names_of(uppers(nodes, node["name"])) for node in nodes}
    links, waiting = {}, nodes
    while waiting:
        ready = [node for node in waiting if all(name in links for name in above[node["name"]])]
        for node in ready:
            links[node["name"]] = link_below(node, [links[name] for name in above[node["name"]]] or [(False, 0, 0)])
        waiting = [node for node in waiting if node["name"] not in links] if ready else []
    return links


def link_below(node, above):
    lite, bus, bits = above[0]
    kind = node["kind"]
    if kind == "manager":
        return False, node["bus"], node["id_width"]
    if kind in JOINING:
        return lite, bus, max(link[2] for link in above) + (len(above) - 1).bit_length()
    if kind == "lite":
        return True, bus, 0
    return lite, node["bus"] if kind in ("up", "down") else bus, node["id_width"] if kind == "remap" else bits


def duplicate_name(nodes, node):
    first = next(number for number, other in enumerate(nodes, 1) if other.get("name") == node["name"])
    return "name", f"node {first} has the name {node['name']!r} too: rename one of them"


def unknown_name(nodes, node):
    name = next((name for name in targets(node) if name not in names_of(nodes)), "")
    return f'"{name}"', f"no node has the name {name!r}{near(name, names_of(nodes))}"


def fan_in(nodes, node):
    above = ", ".join(names_of(uppers(nodes, node["name"])))
    if node["kind"] == "manager":
        return "name", f"{above} stands above it: nothing can stand above a manager"
    return "name", f"{above} stand above it, and a {node['kind']} has one link from above: put a mux between"


def loose(_, node):
    return "name", f"no node has to={node['name']!r}: name it in a `to`, or take it out"


def cycle(nodes, node):
    return "to", f"the links below it lead back to it: {' -> '.join(ring(nodes, node['name']))}; links lead from managers to memories"


def span_fault(table, unit):
    base, size = table["base"], table["size"]
    if size == 0:
        return "size", "its size is 0: it has no address"
    if base % unit:
        return "base", f"its base {base:#x} is no multiple of {unit}: take {base - base % unit:#x} or {base - base % unit + unit:#x}"
    if size % unit:
        return "size", f"its size {size:#x} is no multiple of {unit}: take {size - size % unit + unit:#x}"
    return ("size", f"it ends at {base + size:#x}, over 2^63") if base + size > END else None


def bad_region(_, node):
    """The first region, memory or range that is bad."""
    for table in [*node.get("region", []), *([node] if "base" in node else [])]:
        if fault := span_fault(table, PAGE):
            return fault[0], ("" if table is node else f"a region at {table['base']:#x}: ") + fault[1]
    for key in ("read_only", "hole"):
        for table in node.get(key, []):
            if fault := span_fault(table, LINE):
                return key, f"a range of {key}: {fault[1]}"
            if table["base"] < node["base"] or table["base"] + table["size"] > node["base"] + node["size"]:
                return key, f"the range of {key} at {table['base']:#x} doesn't lie in the memory"
    return None, "a region, a memory or a range is bad"


def overlap(_, node):
    spans = sorted((region["base"], region["base"] + region["size"], region["to"]) for region in node["region"])
    for (_, end, name), (base, _, other) in zip(spans, spans[1:]):
        if base < end:
            return f'"{other}"', f"the region of {name} ends at {end:#x}, after the base {base:#x} of that of {other}: make one smaller, or move it"
    return "region", "two regions share an address"


def width_mismatch(nodes, node):
    links = links_below(nodes)
    buses = {upper["name"]: links[upper["name"]][1] for upper in uppers(nodes, node["name"])}
    told = ", ".join(f"{name} has {bus} bytes ({8 * bus} bits)" for name, bus in buses.items())
    if node["kind"] in JOINING:
        return "name", f"the links above it have different buses: {told}; take one bus, or put an `up` or `down` between"
    if node["kind"] == "memory":
        return "bus", f"its bus is {node['bus']} bytes ({8 * node['bus']} bits), and the link above from {told}: change one, or put an `up` or `down` between"
    leads = "a wider" if node["kind"] == "up" else "a narrower"
    return "bus", f"an {node['kind']} leads to {leads} bus than the one above, and its bus is {node['bus']} bytes; {told}".replace("an down", "a down")


def id_overflow(nodes, node):
    links = links_below(nodes)
    bits = [links[upper["name"]][2] for upper in uppers(nodes, node["name"])]
    more = (len(bits) - 1).bit_length()
    return "name", f"IDs below it would have {max(bits)} + {more} bits, and may have 16: put a `remap` above it, or take smaller IDs"


def lite_mismatch(nodes, node):
    lite, bus, _ = links_below(nodes)[uppers(nodes, node["name"])[0]["name"]]
    if node["kind"] == "lite_memory" and not lite:
        return "kind", "a lite_memory speaks AXI4-Lite, and the link above it AXI4: put a `lite` above it, or take a `memory`"
    if node["kind"] == "lite" and not lite:
        return "kind", f"the bus above a lite is 4 or 8 bytes, and here {bus}: put a `down` above it"
    return "kind", f"AXI4-Lite comes to it, and a {node['kind']} speaks AXI4: below a `lite` stand slices and a `lite_memory`"


def too_large(nodes, node):
    if nodes.index(node) == 256:
        return "name", "it is the 257th node: make two networks"
    above, below = len(uppers(nodes, node["name"])), len(targets(node))
    if above > 16 or below > 16:
        return "name", f"{max(above, below)} nodes stand {'above' if above > 16 else 'below'} it, and 16 may: put a mux, a demux or a crossbar between"
    for key in TABLES:
        if len(node.get(key, [])) > 64:
            return key, f"it has {len(node[key])} tables of {key}, and may have 64"
    return "name", "with it the plan has over 1,024 nodes or 4,096 links: make two networks"


FINDERS = {6: duplicate_name, 7: unknown_name, 8: fan_in, 9: loose, 10: cycle, 11: bad_region, 12: overlap, 13: width_mismatch,
           14: id_overflow, 15: lite_mismatch, 16: too_large}


def find_fault(code, nodes, number):
    """The offending word of the node (or None) and what is wrong, for the codes 5 to 16."""
    node = nodes[number - 1]
    try:
        return bad_key(node) if code == 5 else FINDERS[code](nodes, node)
    except (KeyError, TypeError, StopIteration, IndexError, AttributeError):
        return None, None
