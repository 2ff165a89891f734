"""Random documents for the scripts that compare axinet with another simulator.

`one_memory` is the text of the smallest network; `network` makes a random one of managers, slices, muxes, demuxes,
crossbars, remappers, up converters, Lite bridges, memories and Lite memories; `traffic` makes legal traffic on it; `spoilt`
makes a topology that is mostly refused.
"""
import collections

BUSES = [4, 4, 4, 8, 8, 16, 32, 128]
PAGE = 4096

# The smallest network: its manager `m` has IDs below 16 on a bus of 4 bytes, its memory 8,192 bytes from 0.
ONE_MEMORY = b"""version = 1
node = [
 {name="m", kind="manager", bus=4, id_width=4, to="ram"},
 {name="ram", kind="memory", bus=4, base=0, size=8192},
]
"""

# A node: its kind, the names of the nodes below it, and its other keys.
Node = collections.namedtuple('Node', 'kind below keys')
# A network: its nodes by name in order, and the bases of the memories.
Network = collections.namedtuple('Network', 'nodes bases')


def delays(r):
    return [r.choice([0, 0, 1, 2, 5]) for _ in range(r.randint(1, 4))]


def paced(r, keys):
    """The keys, at times with delays of what is taken and put."""
    for name in ('accept', 'give'):
        if r.random() < 0.2:
            keys[name] = delays(r)
    return keys


def deep(r, keys):
    """The keys, at times with another depth of the links below."""
    if r.random() < 0.3:
        keys['depth'] = r.choice([1, 1, 2, 3, 4, 16])
    return keys


def ranges(r, base, size):
    """One or two ranges of whole lines in a memory."""
    lines = size // 128
    found = []
    for _ in range(r.randint(1, 2)):
        first = r.randrange(min(lines, 4))
        found.append({'base': base + 128 * first, 'size': 128 * r.randint(1, min(2, lines - first))})
    return found


def memory(r, bus, base):
    size = PAGE * r.randint(1, 2)
    keys = paced(r, {'bus': bus, 'base': base, 'size': size})
    if r.random() < 0.5:
        keys['fill'] = r.randrange(256)
    for name in ('read_only', 'hole'):
        if r.random() < 0.25:
            keys[name] = ranges(r, base, size)
    return Node('memory', [], keys)


def manager(r, bus, below):
    return Node('manager', [below], deep(r, paced(r, {'bus': bus, 'id_width': r.randint(0, 5)})))


def between(r, later, bases):
    """A node between managers and memories, which leads to some of the later nodes."""
    kind = r.choice(['slice', 'slice', 'mux', 'demux', 'crossbar', 'remap'])
    if kind == 'remap':
        return Node(kind, [r.choice(later)], deep(r, {'id_width': r.choice([0, 0, 1, 2, 4])}))
    if kind in ('slice', 'mux'):
        return Node(kind, [r.choice(later)], deep(r, {}))
    chosen = r.sample(bases, r.randint(1, len(bases)))
    below = [r.choice(later) for _ in chosen]
    regions = [{'base': base, 'size': PAGE * r.randint(1, 2), 'to': to} for base, to in zip(chosen, below)]
    return Node(kind, below, deep(r, {'region': regions}))


def joined(nodes):
    """The nodes without those that nothing leads to, and with a mux above each that several lead to."""
    while True:
        uppers = collections.Counter(to for node in nodes.values() for to in node.below)
        loose = [name for name, node in nodes.items() if node.kind != 'manager' and not uppers[name]]
        if not loose:
            break
        for name in loose:
            del nodes[name]
    for name in [n for n, node in nodes.items() if uppers[n] > 1 and node.kind not in ('mux', 'crossbar')]:
        above = 'x_' + name
        for upper, node in list(nodes.items()):
            nodes[upper] = redirected(node, name, above)
        nodes[above] = Node('mux', [name], {})
    return nodes


def redirected(node, old, new):
    keys = dict(node.keys)
    if 'region' in keys:
        keys['region'] = [dict(region, to=new if region['to'] == old else region['to']) for region in keys['region']]
    return node._replace(below=[new if to == old else to for to in node.below], keys=keys)


def widened(r, nodes, buses):
    """The nodes with an up converter on each link that leads to a wider bus."""
    for upper, node in list(nodes.items()):
        for below in sorted(set(node.below)):
            if buses[upper] < buses[below]:
                above = 'u%d' % len(nodes)
                nodes[upper] = redirected(nodes[upper], below, above)
                nodes[above] = Node('up', [below], deep(r, {'bus': buses[below]}))
    return nodes


def buses_of(r, names):
    """A bus for each node, by name: all of one width, or of some widths, of which the last node has the widest."""
    if r.random() < 0.3:
        return dict.fromkeys(names, r.choice(BUSES))
    return dict(zip(names, sorted(r.choice(BUSES) for _ in names)))


def bridged(r, nodes):
    """The nodes with some memories as Lite memories, each below a bridge, and at times a slice between them."""
    for name, node in list(nodes.items()):
        if node.kind != 'memory' or node.keys['bus'] > 8 or r.random() < 0.6:
            continue
        bridge = 'l%d' % len(nodes)
        for upper, above in list(nodes.items()):
            nodes[upper] = redirected(above, name, bridge)
        below = name
        if r.random() < 0.2:
            below = 's' + bridge
            nodes[below] = Node('slice', [name], deep(r, {}))
        nodes[bridge] = Node('lite', [below], deep(r, {}))
        nodes[name] = Node('lite_memory', [], {key: value for key, value in node.keys.items() if key != 'bus'})
    return nodes


def network(r):
    """A network of all these kinds, in which links lead from managers to memories, and from no bus to a narrower one."""
    bases = [2 * PAGE * place for place in range(r.randint(1, 4))]
    names = ['n%d' % place for place in range(r.randint(0, 6))]
    memories = ['ram%d' % place for place in range(len(bases))]
    managers = ['m%d' % place for place in range(r.randint(1, 4))]
    buses = buses_of(r, managers + names + r.sample(memories, len(memories)))
    nodes = {}
    for name in managers:
        nodes[name] = manager(r, buses[name], r.choice(names + memories))
    for place, name in enumerate(names):
        nodes[name] = between(r, names[place + 1:] + memories, bases)
    for name, base in zip(memories, bases):
        nodes[name] = memory(r, buses[name], base)
    return Network(bridged(r, joined(widened(r, nodes, buses))), bases)


# The text of a topology.


def value(thing):
    if isinstance(thing, str):
        return '"%s"' % thing
    if isinstance(thing, list):
        return '[%s]' % ', '.join(map(value, thing))
    if isinstance(thing, dict):
        return table(thing)
    return str(thing)


def table(keys):
    return '{%s}' % ', '.join('%s=%s' % (key, value(thing)) for key, thing in keys.items())


def keys_of(name, node):
    keys = dict(name=name, kind=node.kind, **node.keys)
    if node.below and 'region' not in keys:
        keys['to'] = node.below[0]
    return keys


def topology(tables):
    return 'version = 1\nnode = [\n%s]\n' % ''.join(' %s,\n' % table(keys) for keys in tables)


def text(found):
    return topology([keys_of(name, node) for name, node in found.nodes.items()])


# Topologies with one thing wrong.


def misspelt(r, tables):
    keys = r.choice(tables)
    key = r.choice(list(keys))
    keys[key + 's'] = keys.pop(key)


def twice(r, tables):
    tables.append(dict(r.choice(tables)))


def unknown(r, tables):
    r.choice([keys for keys in tables if 'to' in keys])['to'] = 'nobody'


def ring(r, tables):
    """Some node leads to some other, mostly not where the network leads."""
    keys = r.choice([keys for keys in tables if 'to' in keys])
    keys['to'] = r.choice(tables)['name']


def lone_ring(r, tables):
    """Two slices that lead to each other, beside the rest."""
    tables.insert(r.randint(0, len(tables)), {'name': 'r1', 'kind': 'slice', 'to': 'r2'})
    tables.insert(r.randint(0, len(tables)), {'name': 'r2', 'kind': 'slice', 'to': 'r1'})


def overlap(r, tables):
    regions = [keys['region'] for keys in tables if 'region' in keys]
    for region in regions:
        r.choice(region)['size'] = 4 * PAGE


def crowded(r, tables):
    """A node with over 16 nodes above it."""
    to = r.choice([keys['to'] for keys in tables if 'to' in keys] or ['ram0'])
    for number in range(r.choice([15, 16, 17])):
        tables.append({'name': 'c%d' % number, 'kind': 'manager', 'bus': 4, 'id_width': 0, 'to': to})


def wrong_number(r, tables):
    keys = r.choice(tables)
    numbers = [key for key, thing in keys.items() if isinstance(thing, int)]
    if numbers:
        keys[r.choice(numbers)] = r.choice([0, 1, 3, 17, 127, 4095, 4096 * 3, -1, 1 << 62])


def other_bus(r, tables):
    r.choice([keys for keys in tables if 'bus' in keys])['bus'] = r.choice([4, 8, 16, 32])


def wide_ids(r, tables):
    for keys in tables:
        if keys['kind'] == 'manager':
            keys['id_width'] = 16


def spoilt(r, found):
    """The text of a network with something wrong."""
    tables = [keys_of(name, node) for name, node in found.nodes.items()]
    r.choice([misspelt, twice, unknown, ring, lone_ring, overlap, crowded, wrong_number, other_bus, wide_ids])(r, tables)
    return topology(tables)


# Legal traffic.


def burst(r, bus, bases):
    """The address, size, kind and number of beats of a legal burst, mostly in some memory."""
    size = r.choice([width for width in (1, 2, 4, 8, 16, 32) if width <= bus])
    kind = r.choice(['fixed', 'incr', 'incr', 'wrap'])
    base = r.choice(bases) if r.random() < 0.95 else PAGE * r.randrange(1 << 20)
    address = base + (r.randrange(300) if r.random() < 0.8 else r.randrange(2 * PAGE))
    if kind == 'wrap':
        return address - address % size, size, kind, r.choice([2, 4, 8, 16])
    if kind == 'fixed':
        return address, size, kind, r.randint(1, 8)
    most = (PAGE - address % PAGE + address % size) // size
    return address, size, kind, r.randint(1, min(most, 10))


def data_words(r, address, size, kind, beats):
    counts = [size - address % size if beat == 0 or kind == 'fixed' else size for beat in range(beats)]
    return [''.join('--' if r.random() < 0.1 else '%02x' % r.randrange(256) for _ in range(count)) for count in counts]


def line(r, name, node, found):
    """A line of traffic of a manager."""
    if r.random() < 0.08:
        return 'wait ' + name
    shape = burst(r, node.keys['bus'], found.bases)
    head = '%s %d 0x%x %d %s' % (name, r.randrange(1 << node.keys['id_width']), *shape[:3])
    if r.random() < 0.5:
        return 'read %s %d' % (head, shape[3])
    return 'write %s %s' % (head, ' '.join(data_words(r, *shape)))


def traffic(r, found, most=24):
    """Legal lines of traffic of all managers."""
    managers = [(name, node) for name, node in found.nodes.items() if node.kind == 'manager']
    return [line(r, *r.choice(managers), found) for _ in range(r.randint(0, most))]
