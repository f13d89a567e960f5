"""Where the faces of a map are drawn. A map has no geometry: each face becomes a regular polygon, and faces are unfolded around the
first one, edge to sewn edge, as a sheet laid flat; a face that would lie on another begins a place of its own."""
import math

from gmap.faces import beyond, faces
from gmap.plane import dot, minus, plus, turned, unit
from gmap.polygon import Polygon, bounds, needed

GAP = 36.0  # of two polygons
FAR = 220.0  # a line from face to face is at most so long
WIDTH = 1100.0  # of a row of pieces, at least


def side_length(maps):
    """One length for every side of these maps, so that sewn sides fit each other."""
    return max([needed(m, face) for m in maps for face in faces(m)], default=0)


class Layout:
    """The polygons of a map in place."""

    def __init__(self, m, length, like=None, kept=frozenset()):
        """With `like`, the layout of the map before or after an edit that keeps the darts `kept`, faces that stay are drawn where they are there."""
        self.m, self.kept = m, kept
        self.polygons = [Polygon(m, face, length) for face in faces(m)]
        self.of = {x: polygon for polygon in self.polygons for x in polygon.face.darts}
        self.placed = []
        if like:
            self.follow(like)
        self.rows = Rows(self.placed, 1.3 * math.sqrt(sum((2 * polygon.radius + GAP) ** 2 for polygon in self.polygons)))
        for polygon in self.polygons:
            if polygon not in self.placed:
                self.new_piece(polygon)
        self.darts = {x: dart for polygon in self.polygons for x, dart in polygon.darts.items()}

    def free(self, polygon, others):
        return not any(polygon.lies_on(other, 0.9 * GAP) for other in others)

    def follow(self, like):
        """Places each face where the face is that shares most of the darts that are kept with it, if no other has taken that place."""
        taken = set()
        shared = []
        for k, polygon in enumerate(self.polygons):
            counts = {}
            for x in self.kept.intersection(polygon.face.darts):
                counts[like.of[x]] = counts.get(like.of[x], 0) + 1
            shared += [(-count, k, like.polygons.index(there)) for there, count in counts.items()]
        for _, k, j in sorted(shared):
            polygon, there = self.polygons[k], like.polygons[j]
            if polygon in self.placed or there in taken:
                continue
            if self.fits(polygon, there):
                taken.add(there)
                self.placed.append(polygon)
        piece = list(self.placed)
        self.unfold(piece)
        self.placed = piece

    def fits(self, polygon, there):
        """Puts a polygon where another is, no larger than that where its darts have room; whether it lies on none that is in place."""
        polygon.sized(min(polygon.whole, max(polygon.least(), polygon.whole * there.radius / polygon.radius)))
        self.turn_like(polygon, there)
        if self.free(polygon, self.placed):
            return True
        polygon.sized(polygon.whole)
        return False

    def turn_like(self, polygon, there):
        """Puts a polygon where another is, turned so that the first outer dart of both that is kept looks the same way."""
        both = [x for x in sorted(polygon.darts) if x in self.kept and x in there.darts and not polygon.darts[x].inner]
        polygon.place(there.centre, there.angle)
        if not both:
            return
        x = next((x for x in both if not there.darts[x].inner), both[0])
        for outer in (polygon.face.outer, polygon.face.outer.turned()):
            polygon.walked(outer)
            polygon.place(there.centre, 0.0)
            here, want = polygon.darts[x], there.darts[x]
            angle = math.atan2(want.out[1], want.out[0]) - math.atan2(here.out[1], here.out[0])
            polygon.place(there.centre, angle)
            if dot(polygon.darts[x].along, want.along) > 0:
                return

    def unfold(self, piece):
        """Lays faces next to those of a piece, edge to sewn edge, as long as they lie on none of it."""
        ready = list(piece)
        while ready:
            polygon = ready.pop(0)
            for edge in polygon.face.outer.edges:
                across = self.across(edge)
                if across and across[0] not in self.placed and across[0] not in piece and self.lay(polygon, edge, *across, piece):
                    piece.append(across[0])
                    ready.append(across[0])

    def across(self, edge):
        """The face that is sewn to an edge by its outer round, and the edge's darts there; else None."""
        there = tuple(beyond(self.m, x, 2) for x in edge)
        if None in there or there[0] not in self.of:
            return None
        polygon = self.of[there[0]]
        return (polygon, there) if frozenset(there) in polygon.middles else None

    def lay(self, polygon, edge, other, there, piece):
        """Lays a face across an edge; whether it lies on no other."""
        outer = other.face.outer.begun(there[0])
        at = next(e for e in outer.edges if there[0] in e)
        if at == there and len(there) == 2:
            outer = outer.turned().begun(there[0])
        other.walked(outer)
        other.place((0.0, 0.0), 0.0)
        middle, out = polygon.middles[frozenset(edge)]
        own, own_out = other.middles[frozenset(there)]
        angle = math.atan2(-out[1], -out[0]) - math.atan2(own_out[1], own_out[0])
        other.place(minus(plus(middle, out, GAP), turned(own, angle)), angle)
        return self.free(other, piece)

    def new_piece(self, polygon):
        """Unfolds what hangs on a face, and puts it beside what is in place, else below."""
        polygon.place((0.0, 0.0), 0.0)
        piece = [polygon]
        self.unfold(piece)
        left, top, right, below = bounds(piece)
        to = self.rows.room(right - left, below - top)
        for one in piece:
            one.place(plus(one.centre, minus(to, (left, top))), one.angle)
        self.placed += piece


class Rows:
    """Pieces in rows, below each other; what is in place at first is the first row."""

    def __init__(self, polygons, width):
        self.left, self.top, right, self.below = bounds(polygons) if polygons else (0.0, 0.0, 0.0, 0.0)
        self.end, self.most = right if polygons else None, max(WIDTH, width, right)

    def room(self, width, height):
        """Where a piece of this size goes: the end of the row, or a new row."""
        x = self.left if self.end is None else self.end + 2 * GAP
        if self.end is not None and x + width > self.most:
            x, self.top = self.left, self.below + 2 * GAP
        self.end, self.below = x + width, max(self.below, self.top + height)
        return x, self.top


def joined(layout, x, y):
    """Whether a line is drawn for a link 2 between two darts: across a gap between two faces where nothing else lies."""
    darts, of = layout.darts, layout.of
    here, there, way = darts[x], darts[y], minus(darts[y].at, darts[x].at)
    if of[x] is of[y] or here.inner or there.inner or math.hypot(*way) > FAR:
        return False
    towards = unit(way)
    if dot(towards, here.out) < 0.6 or dot(towards, there.out) > -0.6:
        return False
    middle, reach = plus(here.at, way, 0.5), math.hypot(*way) / 2
    others = [polygon for polygon in layout.polygons
              if polygon not in (of[x], of[y]) and math.hypot(*minus(polygon.centre, middle)) < polygon.radius + reach]
    return not any(polygon.holds(plus(here.at, way, k / 12)) for k in range(1, 12) for polygon in others)


def cost(layouts, kept):
    """How bad two layouts are beside each other: links without a line, then how far the darts move that are kept."""
    far = sum(not joined(layout, x, y) for layout in layouts for x in layout.m.live for y in [beyond(layout.m, x, 2)] if y is not None)
    moved = sum(math.hypot(*minus(dart.at, layouts[1].darts[x].at)) for x, dart in layouts[0].darts.items() if x in kept)
    return far, round(moved)


def laid_out(maps, kept):
    """A layout for each map of a list of one or of two, which are before and after an edit that keeps the darts `kept`: one of them follows the
    other."""
    length = side_length(maps)
    if len(maps) == 1:
        return [Layout(maps[0], length)]
    pairs = []
    for lead in (0, 1):
        first = Layout(maps[lead], length)
        second = Layout(maps[1 - lead], length, first, kept)
        pairs.append([first, second] if lead == 0 else [second, first])
    return min(pairs, key=lambda pair: cost(pair, kept))
