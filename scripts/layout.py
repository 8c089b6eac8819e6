"""A layered drawing of a graph: boxes in rows, edges that lead downward, few crossings, lines mostly straight.

An edge that passes rows does so at places of its own between the boxes. The edges of one box share these places, as one
trunk that they branch off from. Between two rows a line goes sideways on a track, and lines of two boxes share no part of one.

Nothing here depends on chance, and its arithmetic has the same results on every machine, so a graph has one drawing.
"""

from math import sqrt

STARTS = 150  # first orders of the rows that are tried
SWEEPS = 12  # over the rows, to sort them
ROUNDS = 400  # over the rows, to move what stands in them
GAP = 20  # between boxes of a row
TRUNK_GAP = 12  # between a trunk and what stands beside it
PORT = 12  # between the lines that reach one box
MARGIN = 8  # from a line to the corner of its box, or to a box that it passes
NEAR = 5  # so near, two vertical lines would be taken for one


class Trunk(tuple):
    """The place (box, row) at which a box's edges pass a row."""


class Graph:
    """Boxes in rows, from the top row to the lowest, with edges as pairs (upper, lower) and a width for each box.

    A box or a place of a trunk is a node; links lead from a node to one in the next row.
    """

    def __init__(self, rows, edges, width):
        self.rows = [list(row) for row in rows]
        self.row_of = {box: number for number, row in enumerate(rows) for box in row}
        self.width = dict(width)
        self.trunk = {box: [] for box in self.row_of}
        self.above = {box: [] for box in self.row_of}
        self.below = {box: [] for box in self.row_of}
        for edge in edges:
            way = self.way(*edge)
            for upper, lower in zip(way, way[1:]):
                if lower not in self.above:
                    self.trunk[lower[0]].append(lower)
                    self.rows[lower[1]].append(lower)
                    self.width[lower] = 0
                    self.above[lower], self.below[lower] = [], []
                if lower not in self.below[upper]:
                    self.below[upper].append(lower)
                    self.above[lower].append(upper)

    def way(self, upper, lower):
        """What an edge passes: its upper box, places of the trunk, its lower box."""
        return [upper] + [Trunk((upper, row)) for row in range(self.row_of[upper] + 1, self.row_of[lower])] + [lower]


def places(rows):
    """The place of each node in its row."""
    return {node: number for row in rows for number, node in enumerate(row)}


# The order of each row.


def orders(graph):
    """The orders of the rows with the fewest crossings of all that were found."""
    found = [ordered(graph, start) for start in range(STARTS)]
    fewest = min(count for count, _ in found)
    return dict.fromkeys(rows for count, rows in found if count == fewest)


def ordered(graph, start):
    """An order with few crossings, found from one of many first orders: how many it has, and the rows."""
    rows = [shuffled(row, start * len(graph.rows) + number) for number, row in enumerate(graph.rows)]
    for sweep in range(SWEEPS):
        near = graph.below if sweep % 2 else graph.above
        place = {}
        for row in reversed(rows) if sweep % 2 else rows:
            # By the mean place of what is linked in the row before; what has no link there keeps its place.
            mean = places([row])
            mean.update((node, sum(place[other] for other in near[node]) / len(near[node])) for node in row if near[node])
            row.sort(key=mean.get)
            place.update(places([row]))
    place = places(rows)
    sift(graph, rows, place)
    pairs = ((left, right) for row in rows for at, left in enumerate(row) for right in row[at + 1:])
    return sum(crossings(left, right, place, [graph.below]) for left, right in pairs), tuple(map(tuple, rows))


def shuffled(row, seed):
    """A row in another order, the same for the same number."""
    keys = []
    for _ in row:
        seed = (seed * 1103515245 + 12345) % 2**31
        keys.append(seed)
    return [node for _, node in sorted(zip(keys, row), key=lambda each: each[0])]


def sift(graph, rows, place):
    """Moves single nodes within their rows as long as that takes crossings away."""
    sides = [graph.above, graph.below]
    better = True
    while better:
        better = False
        for row in rows:
            for node in list(row):
                at = place[node]
                best, target = 0, at
                for passed in (range(at - 1, -1, -1), range(at + 1, len(row))):
                    change = 0
                    for to in passed:
                        first = crossings(node, row[to], place, sides) - crossings(row[to], node, place, sides)
                        change += first if to < at else -first
                        if change < best:
                            best, target = change, to
                if target != at:
                    row.insert(target, row.pop(at))
                    place.update(places([row]))
                    better = True


def crossings(left, right, place, sides):
    """How many links of two nodes of a row cross where the one is left of the other."""
    count = 0
    for near in sides:
        for one in near[left]:
            for other in near[right]:
                count += place[one] > place[other]
    return count


# The places.


class Drawing:
    """The rows in one order.

    Gives `x`, the middle of each node; `stem`, where its lines leave it; `port`, where the line from one node reaches another;
    `track`, on which a node's lines go sideways, and `tracks`, how many there are below each row; and `faults`, what speaks
    against the drawing: its crossings and bends, then the way that lines go sideways.
    """

    def __init__(self, graph, rows, left, right):
        self.graph, self.rows, self.left, self.right = graph, rows, left, right
        self.offset = self.offsets()
        self.x = {node: round(x) for node, x in self.spread().items()}
        for box in graph.trunk:
            self.straighten(box)
        self.port = {link: self.x[link[1]] + offset for link, offset in self.offset.items()}
        self.stem = {node: self.leave(node) for node in self.x}
        for upper, lower in self.port:
            if abs(self.port[upper, lower] - self.stem[upper]) < NEAR and not isinstance(lower, Trunk):
                self.port[upper, lower] = self.stem[upper]
        self.track, self.tracks, crossed = {}, [], 0
        for row in rows:
            crossed += self.lay(row)
        ways = [abs(self.stem[upper] - port) for (upper, _), port in self.port.items()]
        self.faults = crossed + sum(way > 0 for way in ways), sum(ways)

    def offsets(self):
        """How far from a box's middle each line reaches it: side by side, in the order of where they come from."""
        place = places(self.rows)
        offset = {}
        for lower, above in self.graph.above.items():
            step = min(PORT, (self.graph.width[lower] - 2 * MARGIN) // max(1, len(above) - 1))
            for number, upper in enumerate(sorted(above, key=place.get)):
                offset[upper, lower] = round((number - (len(above) - 1) / 2) * step)
        return offset

    def apart(self, left, right):
        gap = TRUNK_GAP if isinstance(left, Trunk) or isinstance(right, Trunk) else GAP
        return (self.graph.width[left] + self.graph.width[right]) / 2 + gap

    def spread(self):
        """An x for each node, with the lines going sideways as little as can be."""
        x = {}
        for row in self.rows:
            at = 0
            for number, node in enumerate(row):
                at += self.apart(row[number - 1], node) if number else 0
                x[node] = at
            for node in row:
                x[node] += (self.left + self.right - at) / 2
        softness = 400
        for turn in range(ROUNDS):
            # A pull grows with the way at first. Later it is strongest where the way is short: most lines become straight.
            softness = max(0.5, softness * 0.98)
            for row in self.rows if turn % 2 else reversed(self.rows):
                self.settle(row, x, softness)
        return x

    def settle(self, row, x, softness):
        """Puts each node of a row as near to its neighbours above and below as the row's order and the widths let it."""
        above, below, width = self.graph.above, self.graph.below, self.graph.width
        shift, shifts, blocks = 0, [], []
        for number, node in enumerate(row):
            shift += self.apart(row[number - 1], node) if number else 0
            shifts.append(shift)
            wanted = [(other, x[other] - self.offset[other, node]) for other in above[node]]
            wanted += [(other, x[other] + self.offset[node, other]) for other in below[node]]
            weight, total = 1e-9, 1e-9 * x[node]
            for other, there in wanted:
                strength = 8 if isinstance(node, Trunk) and isinstance(other, Trunk) else 1
                way = abs(x[node] - there) + softness
                pull = strength / (way * sqrt(way))
                weight += pull
                total += pull * there
            # Nodes that would stand in one another's way move as one block, to the mean of where they would go.
            blocks.append((total - weight * shift, weight, 1))
            while len(blocks) > 1 and blocks[-2][0] * blocks[-1][1] > blocks[-1][0] * blocks[-2][1]:
                last = blocks.pop()
                blocks[-1] = tuple(one + other for one, other in zip(blocks[-1], last))
        low = self.left + width[row[0]] / 2
        high = self.right - width[row[-1]] / 2 - shift
        at = iter(zip(row, shifts))
        for total, weight, size in blocks:
            for node, shift in [next(at) for _ in range(size)]:
                x[node] = min(max(total / weight, low), high) + shift

    def straighten(self, box):
        """Makes a trunk one straight line where that takes bends away and no box is in its way."""
        trunk = self.graph.trunk[box]
        if not trunk:
            return
        low, high = self.left, self.right
        ports = []
        for node in trunk:
            row = self.rows[node[1]]
            at = row.index(node)
            low = max([low] + [self.x[other] + self.graph.width[other] / 2 + MARGIN for other in row[:at]])
            high = min([high] + [self.x[other] - self.graph.width[other] / 2 - MARGIN for other in row[at + 1:]])
            boxes = [other for other in self.graph.below[node] if not isinstance(other, Trunk)]
            ports += [(node, self.x[lower] + self.offset[node, lower]) for lower in boxes]

        def bends(x):
            inner = [x[one] != x[other] for one, other in zip(trunk, trunk[1:])] + [x[node] != port for node, port in ports]
            return sum(inner) + (abs(x[trunk[0]] - self.x[box]) > self.reach(box))

        tries = [{node: self.x[node] for node in trunk}]
        for at in [self.x[box]] + [self.x[node] for node in trunk] + [port for _, port in ports]:
            if low <= at <= high:
                tries.append(dict.fromkeys(trunk, at))
        self.x.update(min(tries, key=bends))

    def reach(self, node):
        """How far from a node's middle a line may leave it."""
        return max(0, self.graph.width[node] / 2 - MARGIN)

    def leave(self, node):
        """Where a node's lines leave it: above a place that one goes to, where the box is that wide, else in its middle."""
        middle = self.x[node]
        ports = [self.port[node, lower] for lower in self.graph.below[node]]
        near = [port for port in ports if abs(port - middle) <= self.reach(node)]
        return min([middle] + near, key=lambda at: (-ports.count(at), abs(at - middle)))

    # The tracks.

    def lay(self, row):
        """Gives the lines from one row to the next their tracks, and tells how many crossings there are."""
        lines = [Line(node, self.stem[node], [self.port[node, lower] for lower in self.graph.below[node]]) for node in row]
        straight = [line for line in lines if line.low == line.high]
        lines = [line for line in lines if line.low < line.high]
        order = []
        for line in lines:
            order.insert(cheapest(line, order), line)
        better = True
        while better:
            better = False
            for line in lines:
                rest = [each for each in order if each is not line]
                at, best = order.index(line), cheapest(line, rest)
                if price(line, rest, best) < price(line, rest, at):
                    order = rest[:best] + [line] + rest[best:]
                    better = True
        for number, line in enumerate(order):
            beside = [each for each in order[:number] if each.low < line.high + PORT and line.low < each.high + PORT]
            self.track[line.node] = max((self.track[each.node] for each in beside), default=-1) + 1
        self.tracks.append(max((self.track[line.node] for line in lines), default=-1) + 1)
        crossed = sum(line.low < other.stem < line.high for line in lines for other in straight if other.ports)
        return crossed + sum(line.above(other) for number, line in enumerate(order) for other in order[number + 1:])


class Line:
    """The lines from one node to the next row: down, sideways on one track, and down to each port."""

    def __init__(self, node, stem, ports):
        self.node, self.stem, self.ports = node, stem, ports
        self.low, self.high = min([stem] + ports), max([stem] + ports)

    def above(self, other):
        """What it costs to lay this track above another: crossings, and far more where verticals would coincide."""
        crossed = (self.low < other.stem < self.high) + sum(other.low < port < other.high for port in self.ports)
        return crossed + 100 * sum(abs(port - other.stem) < NEAR for port in self.ports)


def price(line, order, at):
    """What it costs to lay a line's track between others that are ordered from the top."""
    return sum(each.above(line) for each in order[:at]) + sum(line.above(each) for each in order[at:])


def cheapest(line, order):
    return min(range(len(order) + 1), key=lambda at: price(line, order, at))


def drawing(rows, edges, width, left, right):
    """The best drawing of boxes in rows, between two x."""
    graph = Graph(rows, edges, width)
    return min((Drawing(graph, order, left, right) for order in orders(graph)), key=lambda each: each.faults)
