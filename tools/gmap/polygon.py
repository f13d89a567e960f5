"""A face of a map as a polygon, with its darts at its sides. Sizes are in the units of the picture."""
import math

from gmap.faces import beyond, sides_of
from gmap.plane import dot, minus, outward, plus, turned, unit

DISC = 10.0  # radius of a dart
INSET = 12.0  # of the darts from their edge
DEEP = 42.0  # of the darts of an inner round
STRAIGHT = 17.0  # of a dart from a corner that lies in a line, along the edge
APART = 42.0  # of the two darts of an edge, at least
SLIM, TWO = 84.0, 156.0  # height of a face with fewer than three sides, and of one that has an inner round too


def corners_of(count, length, slim):
    """The corners of a polygon around (0, 0), the first side below, from left to right. For fewer than three sides a box, as high as `slim`."""
    if count < 3:
        w, h = length / 2, slim / 2
        return [(-w, h), (w, h), (w, -h), (-w, -h)]
    radius = length / (2 * math.sin(math.pi / count))
    angles = [math.pi / 2 + math.pi / count - 2 * math.pi * k / count for k in range(count)]
    return [(radius * math.cos(a), radius * math.sin(a)) for a in angles]


def corner_room(count, inset, apart):
    """How far from a corner of a polygon with so many corners, along the edge, its two darts are that far apart."""
    half = math.pi * (1 - 2 / count) / 2
    return (apart / 2 + inset * math.cos(half)) / math.sin(half)


def outer_corner(count):
    """How far from its corner a dart of the outer round is, along the edge."""
    return corner_room(count, INSET, 3.5 * DISC)


def inner_corner(count):
    """The same for the inner round."""
    return corner_room(count, DEEP, 4.2 * DISC if count > 3 else 3.2 * DISC)


class Dart:
    """Where a dart is drawn, the directions out of its polygon and along its edge to the edge's middle, and whether it is at a corner of
    the polygon and of the inner round."""

    def __init__(self, at, out, along, cornered, inner=False):
        self.at, self.out, self.along, self.cornered, self.inner = at, out, along, cornered, inner


class Polygon:
    """A face in place: its corners, the sides between them (None a side that is open, [] one without edges), and its darts."""

    def __init__(self, m, face, length):
        self.m, self.face, self.length, self.whole = m, face, length, length
        self.shape()
        self.place((0.0, 0.0), 0.0)

    def shape(self):
        """The corners around (0, 0), and the sides in their order; a box has sides without edges."""
        outer = self.face.outer
        self.sides = sides_of(self.m, outer)
        count = len(self.sides) + (not outer.closed)
        self.local = corners_of(count, self.length, TWO if self.face.inner else SLIM)
        if not outer.closed:
            self.sides.append(None)
        if count < 3:
            below, above = (self.sides + [[]])[:2]
            self.sides = [below, [], above, []]

    def walked(self, outer):
        """The same face with its outer round walked in this way."""
        self.face.outer = outer
        self.shape()
        self.place(self.centre, self.angle)

    def place(self, centre, angle):
        self.centre, self.angle = centre, angle
        self.corners = [plus(centre, turned(p, angle)) for p in self.local]
        self.radius = max(math.hypot(*p) for p in self.local)
        self.darts, self.middles = {}, {}
        for k, side in enumerate(self.sides):
            if side:
                self.place_side(side, self.corners[k], self.corners[(k + 1) % len(self.corners)])
        if self.face.inner:
            self.place_inner()

    def place_side(self, side, p, q):
        """The darts of a side from corner p to corner q: the outermost at a fixed way from the corners, the others evenly between."""
        out, along = outward(p, q), unit(minus(q, p))
        whole = math.hypot(*minus(q, p))
        corner = outer_corner(len(self.corners))
        apart = (whole - 2 * corner - 2 * STRAIGHT * (len(side) - 1)) / len(side)
        for k, edge in enumerate(side):
            start = corner + k * (apart + 2 * STRAIGHT)
            ends = [start, start + apart]
            self.middles[frozenset(edge)] = (plus(p, along, start + apart / 2), out)
            if len(edge) == 1:  # its end is the corner that leads on
                first = self.face.outer.edges[0] is edge and len(self.face.outer.edges) > 1
                ends = ends[1:] if first else ends[:1]
            for x, way in zip(edge, ends):
                at = plus(plus(p, along, way), out, -INSET)
                towards = along if way == start else (-along[0], -along[1])
                cornered = edge is side[0] if way == start else edge is side[-1]
                self.darts[x] = Dart(at, out, towards, cornered)

    def place_inner(self):
        """The darts at the back of the face, each behind its own, further in."""
        count = len(self.corners)
        shift = inner_corner(count) - outer_corner(count)
        for x, dart in list(self.darts.items()):
            at = plus(plus(dart.at, dart.out, INSET - DEEP), dart.along, shift if dart.cornered else 0.0)
            self.darts[beyond(self.m, x, 3)] = Dart(at, dart.out, dart.along, dart.cornered, True)

    def apothem(self):
        """How far the nearest side is from the centre."""
        return min(dot(minus(p, self.centre), outward(p, self.corners[(k + 1) % len(self.corners)])) for k, p in enumerate(self.corners))

    def shrunk(self, inset):
        """The corners of the polygon that lies so far within this one."""
        return [plus(self.centre, minus(p, self.centre), 1 - inset / self.apothem()) for p in self.corners]

    def sized(self, length):
        """Gives the sides another length."""
        self.length = length
        self.shape()
        self.place(self.centre, self.angle)

    def least(self):
        """The least length of a side in which its darts have room; a face with an inner round is not made smaller."""
        if self.face.inner:
            return self.whole
        corner = outer_corner(len(self.corners))
        return max(2 * corner + (0.75 * APART + 2 * STRAIGHT) * len(side) - 2 * STRAIGHT for side in self.sides if side)

    def lies_on(self, other, gap):
        """Whether two polygons are nearer than a gap: no side of either has the other wholly beyond it."""
        if math.hypot(*minus(self.centre, other.centre)) >= self.radius + other.radius + gap:
            return False
        for one, two in ((self, other), (other, self)):
            for k, p in enumerate(one.corners):
                out = outward(p, one.corners[(k + 1) % len(one.corners)])
                if min(dot(minus(q, p), out) for q in two.corners) >= gap - 1e-3:
                    return False
        return True

    def holds(self, p):
        """Whether a point lies in the polygon, and not just at its edge."""
        return all(dot(minus(p, c), outward(c, self.corners[(k + 1) % len(self.corners)])) < -0.5 for k, c in enumerate(self.corners))


def needed(m, face):
    """The length that the sides of a face need for their edges. One round is given as much as a triangle needs, so that sides are alike."""
    sides = sides_of(m, face.outer)
    count = len(sides) + (not face.outer.closed)
    least = [2 * outer_corner(3) + APART * len(side) + 2 * STRAIGHT * (len(side) - 1) for side in sides]
    if face.inner:
        least.append(2 * inner_corner(count if count >= 3 else 4) + 2 * APART)
    return max(least)


def bounds(polygons):
    """Left, top, right and bottom of polygons."""
    xs = [x for polygon in polygons for x, _ in polygon.corners]
    ys = [y for polygon in polygons for _, y in polygon.corners]
    return min(xs), min(ys), max(xs), max(ys)
