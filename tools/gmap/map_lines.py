"""The lines of a map's picture: a line for each link between two darts, and for a link that has none an end with a bar, a number or a cross."""
import itertools

from gmap.faces import beyond, leads
from gmap.layout import joined
from gmap.plane import minus, plus, unit
from gmap.polygon import DISC
from gmap.room import Box, Room
from gmap.svg import point, polyline, wide

STUB = 9.0  # length of a line that ends in a bar or a number
CROSS = 4.0  # half of a cross, across and down
LETTERS = 9  # size of the numbers at ends
BESIDE = (6, 3, 12, 20)  # ways from an end to a number beside it, the best first


def trimmed(p, q, by=DISC):
    """The way from one dart's edge to the other's."""
    way = unit(minus(q, p))
    return plus(p, way, by), plus(q, way, -by)


def bar(p, way, size=4.5):
    across = (-way[1], way[0])
    return polyline([plus(p, across, size), plus(p, across, -size)])


def stub_way(dart, i):
    """The direction in which a link leaves a dart where no line leads to its other end."""
    if i == 0:
        return dart.along
    if i == 1:
        return unit(plus((-dart.along[0], -dart.along[1]), dart.out, -0.45))
    if i == 2:
        return within(dart) if dart.inner else dart.out
    return within(dart)


def within(dart):
    """Into the face, and away from the corner."""
    return unit(plus(dart.along, dart.out, -1.6))


def number_box(end, way, far, y):
    """Where a number stands that is so far, in this direction, from an end."""
    across = 0.5 * wide(str(y), LETTERS)
    size = across * abs(way[0]) + 0.5 * LETTERS * abs(way[1])
    return Box(plus(end, way, size + far), across, 0.4 * LETTERS)


class Lines:
    """The lines of a panel by dimension: links, their ends, and the numbers beside ends."""

    def __init__(self, panel):
        self.panel = panel
        self.links, self.ends, self.wrong, self.numbers = ({i: [] for i in range(4)} for _ in range(4))
        self.room, self.named = Room(), []  # what is taken; the ends that get a number
        self.take_room()
        for x in sorted(panel.m.live):
            for i in range(panel.m.n + 1):
                self.add(x, i)
        for named in self.named:
            self.number(*named)

    def take_room(self):
        """Darts, and the tags in the middle of faces, have their places before numbers do."""
        for dart in self.panel.darts.values():
            self.room.take(Box(self.panel.at(dart.at), DISC, DISC))
        for polygon in self.panel.layout.polygons:
            if polygon.face.inner is None:
                tag = self.panel.m.live[polygon.face.outer.darts[0]][1]
                self.room.take(Box(self.panel.at(polygon.centre), 0.5 * wide(str(tag), 12), 6.0))

    def add(self, x, i):
        how, y = leads(self.panel.m, x, i)
        if how == "to" and self.joined(x, y, i):
            if x < y:
                self.line(x, y, i)
            return
        dart = self.panel.darts[x]
        way = stub_way(dart, i)
        start = plus(self.panel.at(dart.at), way, DISC)
        end = plus(start, way, STUB)
        (self.links if how == "to" else self.ends)[i].append(polyline([start, end]))
        if how == "loop":
            self.ends[i].append(bar(end, way))
            self.panel.used.add(("free", i))
            return
        if how == "broken":
            self.cross(i, end)
        else:
            self.panel.used.add(("far", i))
        self.named.append((i, end, way, CROSS if how == "broken" else 0, y))

    def cross(self, i, p):
        self.panel.used.add(("broken", i))
        a, b, c, d = (plus(p, corner, CROSS) for corner in ((-1, -1), (1, 1), (-1, 1), (1, -1)))
        self.wrong[i].append(polyline([a, b]) + polyline([c, d]))
        self.room.take(Box(p, CROSS, CROSS))

    def number(self, i, end, way, far, y):
        """Puts the number of the dart that a link leads to at its end: beyond it, or beside it where there is no room."""
        across = (-way[1], way[0])
        beside = itertools.product(BESIDE, (across, minus((0, 0), across)))
        places = [number_box(end, to, far + gap, y) for gap, to in ((2, way), *beside)]
        box = next(filter(self.room.free, places), places[0])
        self.room.take(box)
        self.numbers[i].append((plus(box.middle, (0, 3.2)), y))

    def joined(self, x, y, i):
        """Whether a line is drawn between two darts: within a face, and across a gap where nothing lies between."""
        here, there = self.panel.darts[x], self.panel.darts[y]
        if i < 2:
            return True
        if i == 2:
            return joined(self.panel.layout, x, y)
        return self.panel.layout.of[x] is self.panel.layout.of[y] and here.inner != there.inner

    def line(self, x, y, i):
        p, q = (self.panel.at(self.panel.darts[z].at) for z in (x, y))
        self.panel.used.add(("link", i))
        if i == 1 and beyond(self.panel.m, x, 0) == y:  # an edge whose ends meet: around through the face
            out = self.panel.darts[x].out
            a, b = plus(p, out, -DISC), plus(q, out, -DISC)
            deep = [plus(c, out, -46.0) for c in (a, b)]
            self.links[i].append(f"M{point(a)}C{point(deep[0])} {point(deep[1])} {point(b)}")
            return
        self.links[i].append(polyline(trimmed(p, q)))
