"""The faces of a map, for drawing: rounds of darts along edges and corners. A map need not be well-formed for it.

A round is an orbit of the links 0 and 1, walked once: a whole face where n = 2, one side of a face where n = 3."""


def leads(m, x, i):
    """Where a link leads: ('loop', x), ('to', y), or ('broken', y) where y is no live dart or does not lead back."""
    y = m.live[x][0][i]
    if y == x:
        return "loop", x
    return ("to" if y in m.live and m.live[y][0][i] == x else "broken"), y


def beyond(m, x, i):
    """The other dart that a sound link leads to, else None."""
    how, y = leads(m, x, i)
    return y if how == "to" else None


class Round:
    """A round: its edges in order, each of one dart or of two, and whether it closes."""

    def __init__(self, edges, closed):
        self.edges, self.closed = edges, closed
        self.darts = [x for edge in edges for x in edge]

    def turned(self):
        """The same round walked the other way."""
        return Round([edge[::-1] for edge in self.edges[::-1]], self.closed)

    def begun(self, x):
        """The same round; a closed one begins with the edge of dart x."""
        at = next(k for k, edge in enumerate(self.edges) if x in edge)
        return Round(self.edges[at:] + self.edges[:at], True) if self.closed else self


def walk(m, start):
    """The darts from `start` on, over link 0 first; and whether the way comes back to it."""
    way, i = [start], 0
    while True:
        y = beyond(m, way[-1], i)
        i = 1 - i
        if y is None:
            return way, False
        if y == start:
            return way, True
        way.append(y)


def round_of(m, x):
    """The round of a dart. It begins with that dart where it closes, else at the end that has the lower slot."""
    way, closed = walk(m, x)
    if closed:
        return Round([tuple(way[k:k + 2]) for k in range(0, len(way), 2)], True)
    darts, at = list(way), x
    i = 1
    while (at := beyond(m, at, i)) is not None:
        darts.insert(0, at)
        i = 1 - i
    if darts[-1] < darts[0]:
        darts.reverse()
    edges, rest = [], darts
    while rest:
        both = len(rest) > 1 and beyond(m, rest[0], 0) == rest[1]
        edges.append(tuple(rest[:1 + both]))
        rest = rest[1 + both:]
    return Round(edges, False)


def rounds(m):
    """All rounds, by their lowest slots."""
    found, seen = [], set()
    for x in sorted(m.live):
        if x not in seen:
            found.append(round_of(m, x))
            seen.update(found[-1].darts)
    return found


def corner_is_straight(m, x, y):
    """Whether two darts of a corner are at a point where two faces meet along one line: four darts, no free edge."""
    a, b = beyond(m, x, 2), beyond(m, y, 2)
    return a is not None and b is not None and len({x, y, a, b}) == 4 and beyond(m, a, 1) == b


def sides_of(m, r):
    """The edges of a round by the sides of its polygon: edges in one line are one side, unless fewer than three sides were left."""
    sides = [[r.edges[0]]]
    for before, edge in zip(r.edges, r.edges[1:]):
        if corner_is_straight(m, before[-1], edge[0]):
            sides[-1].append(edge)
        else:
            sides.append([edge])
    if r.closed and len(sides) > 1 and corner_is_straight(m, r.edges[-1][-1], r.edges[0][0]):
        sides[0] = sides.pop() + sides[0]
    return sides if len(sides) >= 3 else [[edge] for edge in r.edges]


class Face:
    """A face: its outer round, and where n = 3 the round at its back, or None."""

    def __init__(self, outer, inner):
        self.outer, self.inner = outer, inner
        self.darts = outer.darts + (inner.darts if inner else [])


def backed(m, r, other):
    """Whether each dart of a round leads by link 3 to a dart of the other."""
    there = set(other.darts)
    return len(r.darts) == len(other.darts) and all(beyond(m, x, 3) in there for x in r.darts)


def faces(m):
    """All faces, by their lowest slots. Of two rounds back to back the one with more sewn edges is the outer."""
    all_rounds, done, found = rounds(m), set(), []
    of = {x: k for k, r in enumerate(all_rounds) for x in r.darts}
    for k, r in enumerate(all_rounds):
        if k in done:
            continue
        done.add(k)
        other = of.get(beyond(m, r.darts[0], 3)) if m.n == 3 else None
        if other is None or other in done or not backed(m, r, all_rounds[other]):
            found.append(Face(r, None))
            continue
        done.add(other)
        pair = [r, all_rounds[other]]
        sewn = [sum(beyond(m, x, 2) is not None for x in one.darts) for one in pair]
        found.append(Face(*(pair if sewn[0] >= sewn[1] else pair[::-1])))
    return found
