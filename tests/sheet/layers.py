"""Which crate stands on which: crates.txt drawn in layers, each crate above all that it stands on."""
from .pages import ROOT, crates
from .svg import BLUE, GREEN, INK, LINE, PALE, SOFT, Picture, wide

GAP, RISE, TALL, SIDE, TURNS = 26, 86, 34, 20, 60


def reduced(below):
    """The dependencies that no other one implies."""
    reach = {}

    def reached(name):
        if name not in reach:
            reach[name] = set(below[name]).union(*(reached(one) for one in below[name]))
        return reach[name]

    return {name: [one for one in deps if not any(one in reached(other) for other in deps if other != one)]
            for name, deps in below.items()}


class Graph:
    """Crates and the bends of long lines, in rows from the bottom."""

    def __init__(self, below):
        self.below = below
        self.row = {}
        for name in below:
            self.level(name)
        above = {name: [one for one in below if name in below[one]] for name in below}
        for name in sorted(below, key=lambda one: -self.row[one]):
            if above[name]:
                self.row[name] = max(self.row[name], min(self.row[one] for one in above[name]) - 1)
        self.rows = [[] for _ in range(1 + max(self.row.values()))]
        self.down, self.size, self.lines = {}, {}, []
        for name in below:
            self.add(name, self.row[name], wide(name) + 22)
        for name, deps in below.items():
            for one in deps:
                self.lines.append(self.line(name, one))
        self.up = {node: [one for one in self.down if node in self.down[one]] for node in self.down}

    def level(self, name):
        """One more than the highest below."""
        if name not in self.row:
            self.row[name] = 1 + max((self.level(one) for one in self.below[name]), default=-1)
        return self.row[name]

    def add(self, node, row, size):
        """A node in its row."""
        self.rows[row].append(node)
        self.down[node], self.size[node] = [], size

    def line(self, name, one):
        """A line down to a crate, with a bend in each row between."""
        path = [name]
        for row in range(self.row[name] - 1, self.row[one], -1):
            bend = "%s-%s-%d" % (name, one, row)
            self.add(bend, row, 8)
            path.append(bend)
        path.append(one)
        for node, lower in zip(path, path[1:]):
            self.down[node].append(lower)
        return path

    def arrange(self):
        """Order each row by the places of its neighbours, down and up in turn."""
        self.place = {node: at for row in self.rows for at, node in enumerate(row)}
        for turn in range(24):
            near = self.down if turn % 2 == 0 else self.up
            for row in self.rows if turn % 2 == 0 else self.rows[::-1]:
                row.sort(key=lambda node: (self.middle(near[node], self.place[node]), node))
                self.place.update({node: at for at, node in enumerate(row)})

    def middle(self, nodes, else_at):
        """The mean place of some nodes."""
        return sum(self.place[one] for one in nodes) / len(nodes) if nodes else else_at

    def spread(self):
        """Places on the page: each node near its neighbours, none on another."""
        for row in self.rows:
            at = 0
            for node in row:
                self.place[node] = at + self.size[node] / 2
                at += self.size[node] + GAP
        for turn in range(TURNS):
            for row in self.rows if turn % 2 == 0 else self.rows[::-1]:
                wish = {node: self.middle(self.down[node] + self.up[node], self.place[node]) for node in row}
                self.settle(row, wish)
        least = min(self.place[node] - self.size[node] / 2 for node in self.place)
        for node in self.place:
            self.place[node] += SIDE - least

    def settle(self, row, wish):
        """As near to what is wished as the order allows: from the left, from the right, and the mean of both."""
        left, right, edge = {}, {}, None
        for node in row:
            half = self.size[node] / 2
            left[node] = wish[node] if edge is None else max(wish[node], edge + half)
            edge = left[node] + half + GAP
        edge = None
        for node in row[::-1]:
            half = self.size[node] / 2
            right[node] = wish[node] if edge is None else min(wish[node], edge - half)
            edge = right[node] - half - GAP
        for node in row:
            self.place[node] = (left[node] + right[node]) / 2


def layers():
    """The picture of crates.txt."""
    listed = crates()
    graph = Graph(reduced({name: [one for one in deps if one in listed] for name, deps in listed.items()}))
    graph.arrange()
    graph.spread()
    high = len(graph.rows) * RISE + 10
    picture = Picture(int(max(graph.place[one] + graph.size[one] / 2 for one in graph.place) + SIDE), high + 50,
                      "Which crate stands on which")
    middle = {node: high - 50 - at * RISE for at, row in enumerate(graph.rows) for node in row}
    for path in graph.lines:
        ends = [(graph.place[path[0]], middle[path[0]] + TALL / 2)]
        ends += [(graph.place[node], middle[node] + side * (TALL / 2 + 4)) for node in path[1:-1] for side in (-1, 1)]
        picture.curve(ends + [(graph.place[path[-1]], middle[path[-1]] - TALL / 2)])
    for name in listed:
        program = (ROOT / "crates" / name / "src/main.rt").is_file()
        shown = name.startswith("show_")
        picture.box(graph.place[name] - graph.size[name] / 2, middle[name] - TALL / 2, graph.size[name], TALL,
                    PALE if shown else GREEN if program else BLUE, LINE, shown)
        picture.text(graph.place[name], middle[name] + 5, name, 13, SOFT if shown else INK)
    at = SIDE
    for text, fill, dash in (("a program", GREEN, False), ("a library", BLUE, False), ("a demonstration", PALE, True)):
        picture.box(at, high + 14, 22, 16, fill, LINE, dash)
        picture.text(at + 30, high + 27, text, 12, SOFT, "start")
        at += 60 + wide(text, 12)
    return picture.drawn()
