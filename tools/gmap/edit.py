"""Where the darts of an edit stand: which ones it deletes, and which slots hold a new dart afterwards. The maps before and after do not
say it, as a new dart may take the slot of one that the same edit deletes.

The kernel alone edits. What stands here is told of an edit whose scheme fits; tests/tools/explained.py holds it to the kernel."""
from gmap.scheme import KINDS


def copies(m, s, darts):
    """The copies of a scheme that fits at these darts of a well-formed map: for each dart of the orbit, ascending, the dart of each left
    node. The darts of the hooks go along the orbit side by side."""
    hooked, ways = {darts[0]: list(darts)}, [list(darts)]
    while ways:
        here = ways.pop()
        for i in s.orbit:
            there = [m.live[x][0][i] for x in here]
            if there[0] not in hooked:
                hooked[there[0]] = there
                ways.append(there)
    return {u: copy_of(m, s, hooked[u]) for u in sorted(hooked)}


def copy_of(m, s, hooked):
    """The dart of each left node in the copy in which the hooks have these darts: it follows from theirs over left arcs."""
    copy, ways = dict(zip(s.hooks(), hooked)), s.hooks()
    while ways:
        v = ways.pop()
        for i, a, b in s.arcs["left"]:
            to = b if v == a else a
            if v in (a, b) and to not in copy:
                copy[to] = m.live[copy[v]][0][i]
                ways.append(to)
    return copy


class Edit:
    """An edit at these darts of a well-formed map, where the scheme fits: its copies, the slots unused before it, the darts that it deletes,
    the pairs of an orbit dart and an added node, and by slot those that have a new dart: the k-th pair takes the k-th lowest slot of those
    that were unused and those that are deleted."""

    def __init__(self, m, s, darts):
        self.copies = copies(m, s, darts)
        self.unused = set(range(m.slots)) - set(m.live)
        self.deleted = {x for copy in self.copies.values() for v, x in copy.items() if s.nodes[v][0] == KINDS["deleted"]}
        self.pairs = [(u, v) for u in self.copies for v in s.added()]
        self.new = dict(zip(sorted(self.unused | self.deleted), self.pairs))
