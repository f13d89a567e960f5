"""Why the kernel refuses a scheme or a map, in words and at the place in the file.

The kernel alone judges. What stands here looks for the reason of a refusal that the kernel gave, and says so where it finds none;
tests/tools/explained.py holds both to each other."""
from gmap.edit import Edit
from gmap.files import Fault
from gmap.map import file_in, head, map_in
from gmap.scheme import KINDS, NAMES, REMOVES, bytes_in, scheme_in

ADDED, DELETED, PRESERVED = KINDS["added"], KINDS["deleted"], KINDS["preserved"]
NO_REASON = "this tool finds no reason for it"


def listed(things):
    """'0, 1 and 2'."""
    words = [str(thing) for thing in things]
    return " and ".join([", ".join(words[:-1]), words[-1]] if len(words) > 1 else words) or "nothing"


# ---- schemes

def placed(place):
    """A place in a scheme's file in words: 'line 5' or 'byte 7'."""
    return place if place.startswith("byte") else f"line {place}"


class Refusal:
    """A refusal of a scheme at a node: its number, the pair of dimensions of a 5, a headline, and what more is known."""

    def __init__(self, number, node, headline, more=(), pair=(0, 0)):
        self.number, self.node, self.pair, self.headline, self.more = number, node, pair, headline, list(more)

    def key(self):
        return self.number, self.node, *self.pair


class Arc:
    """An arc of a node on a side: explicit to a node, or implicit at a position of the orbit type."""

    def __init__(self, to=None, position=None, place=None):
        self.to, self.position, self.place = to, position, place

    def same(self, other):
        return (self.to, self.position) == (other.to, other.position)


class Side:
    """The arcs of one side: arcs[v][i] lists the arcs of dimension i at node v."""

    def __init__(self, s, name):
        self.s, self.name = s, name
        self.arcs = [{} for _ in s.nodes]
        for arc in sorted(s.arcs[name]):
            dimension, a, b = arc
            for v, to in {(a, b), (b, a)}:
                self.arcs[v].setdefault(dimension, []).append(Arc(to=to, place=s.arc_places[name].get(arc)))
        for v, node in enumerate(s.nodes):
            for position, dimension in enumerate(node[1 if name == "left" else 2]):
                if dimension != REMOVES:
                    self.arcs[v].setdefault(dimension, []).append(Arc(position=position))

    def only(self, v, i):
        """The arc of a dimension at a node, once incidence is known to hold."""
        return self.arcs[v].get(i, [None])[0]

    def said(self, v, i, arc):
        if arc.position is not None:
            return f"{i} in its word under orbit {self.s.orbit[arc.position]}"
        line = "" if arc.place is None else f" ({placed(arc.place)})"
        return f"{i} to {'itself' if arc.to == v else f'node {arc.to}'}{line}"

    def has(self, v, dimensions=None):
        """What a node has on this side."""
        arcs = [self.said(v, i, arc) for i in sorted(self.arcs[v]) if dimensions is None or i in dimensions for arc in self.arcs[v][i]]
        return f"on the {self.name} node {v} has {listed(arcs)}"

    def open_cycle(self, v, i, j):
        """None where the node is on an ij-cycle of this side, else what keeps it from one."""
        for d in (i, j):
            if self.only(v, d) is None:
                return f"it lacks an arc of dimension {d}"
        first, second = self.only(v, i), self.only(v, j)
        if first.to is not None and second.to is not None:
            return self.open_walk(v, i, j)
        if first.to is None and second.to is None:
            here, there = self.s.orbit[first.position], self.s.orbit[second.position]
            return None if abs(here - there) >= 2 else f"{i} and {j} stand in its word under orbit {here} and {there}, which are not two apart"
        straight, turned, d = (first, second, j) if first.to is not None else (second, first, i)
        far = self.only(straight.to, d)
        if far is not None and far.position == turned.position:
            return None
        found = "lacks it" if far is None else "has " + self.said(straight.to, d, far)
        return f"{d} must stand under orbit {self.s.orbit[turned.position]} at node {straight.to} too, which {found}"

    def open_walk(self, v, i, j):
        at, way = v, str(v)
        for d in (i, j, i, j):
            arc = self.only(at, d)
            if arc is None or arc.to is None:
                return f"the walk {way} ends at node {at}, which lacks an arc of dimension {d} to a node"
            at = arc.to
            way += f" -{d}- {at}"
        return None if at == v else f"the walk {way} does not lead back"


def word_text(word):
    return "'" + " ".join("_" if d == REMOVES else str(d) for d in word) + "'"


def hook_refusals(s, left):
    for v, name in zip(s.hooks(), ("the hook", "the second hook")):
        kind, word, _ = s.nodes[v]
        if kind == ADDED:
            yield Refusal(3, v, f"{name} is added, and must be preserved or deleted")
        elif word != s.orbit:
            named = [f"node {v} is named as the second hook at {placed(s.second_place)}"] if v and s.second_place else []
            yield Refusal(3, v, f"the left word of {name} is {word_text(word)}, and must be the orbit type, {word_text(s.orbit)}", named)
    reached, ways = set(s.hooks()), s.hooks()
    while ways:
        arcs = left.arcs[ways.pop()]
        more = {arc.to for these in arcs.values() for arc in these if arc.to is not None} - reached
        reached |= more
        ways += more
    from_, reach = ("node 0", "node 0 reaches") if s.second is None else ("a hook", f"nodes 0 and {s.second}, the hooks, reach")
    for v, node in enumerate(s.nodes):
        if node[0] != ADDED and v not in reached:
            yield Refusal(3, v, f"no left arcs lead to it from {from_}", [f"{reach} {listed(sorted(reached))}; {left.has(v)}"])


def incidence_refusals(s, left, right):
    every = set(range(s.n + 1))
    for v, (kind, _, _) in enumerate(s.nodes):
        reasons = []
        for side in (left, right):
            for i, arcs in sorted(side.arcs[v].items()):
                if len(arcs) > 1:
                    reasons.append(f"it has {len(arcs)} arcs of dimension {i} on the {side.name} side, and may have one")
        here, there = set(left.arcs[v]), set(right.arcs[v])
        if kind == PRESERVED:
            for have, other, a, b in ((here, there, "left", "right"), (there, here, "right", "left")):
                if have - other:
                    them = "it" if len(have - other) == 1 else "them"
                    reasons.append(f"it is preserved, has {listed(sorted(have - other))} on the {a} side and lacks {them} on the {b}")
        else:
            lacking = every - (here if kind == DELETED else there)
            if lacking:
                where = "left" if kind == DELETED else "right"
                reasons.append(f"it is {NAMES[kind]}, must have each dimension on the {where} side and lacks {listed(sorted(lacking))}")
        if reasons:
            sides = {PRESERVED: (left, right), DELETED: (left,), ADDED: (right,)}[kind]
            yield Refusal(4, v, reasons[0], reasons[1:] + [side.has(v) for side in sides])


def cycle_refusals(s, left, right):
    for v, (kind, _, _) in enumerate(s.nodes):
        if kind == DELETED:
            continue
        for i, j in ((i, j) for i in range(s.n + 1) for j in range(i + 2, s.n + 1)):
            pair, why = f"dimensions {i} and {j}", right.open_cycle(v, i, j)
            if kind == ADDED or left.open_cycle(v, i, j) is None:
                if why is not None:
                    headline = f"{pair} close no cycle on the right side" + (", as they do on the left" if kind == PRESERVED else "")
                    more = [f"{why}; {right.has(v, (i, j))}"] + ([left.has(v, (i, j))] if kind == PRESERVED else [])
                    yield Refusal(5, v, headline, more, (i, j))
                continue
            arcs = [(left.only(v, d), right.only(v, d)) for d in (i, j)]
            if any(a is not b and (a is None or b is None or not a.same(b)) for a, b in arcs):
                headline = f"{pair} close no cycle on the left side, so their arcs must be the same on both sides"
                yield Refusal(5, v, headline, [f"{left.open_cycle(v, i, j)}; {left.has(v, (i, j))}", right.has(v, (i, j))], (i, j))


def scheme_refusals(s):
    """The refusals that a scheme in the form gives reason for; the kernel answers with the first. Those of a number end the search, as
    the next condition speaks of schemes that meet the ones before."""
    left, right = Side(s, "left"), Side(s, "right")
    for refusals in (hook_refusals(s, left), incidence_refusals(s, left, right), cycle_refusals(s, left, right)):
        found = list(refusals)
        if found:
            return found
    return []


def scheme_refusal(kernel, path, data):
    """Nothing where the kernel accepts the scheme in the file, else lines that say why not. A text that is no scheme's is a fault."""
    answer = kernel.check_scheme(bytes_in(data))
    if answer.number == 0:
        return []
    try:
        s = scheme_in(data)
    except Fault as fault:
        if answer.number == 2:
            return [f"{path}:{fault.place}: refused 2: {fault}"]
        return [f"{path}: refused {answer.number}: {answer.words}; {NO_REASON}"]
    key = (answer.number, answer.node, answer.i, answer.j)
    found = next((r for r in scheme_refusals(s) if r.key() == key), None)
    if found:
        return [f"{path}:{s.node_places[found.node]}: node {found.node}: refused {found.number}: {found.headline}", *("    " + line for line in found.more)]
    at = f"node {answer.node}: " if answer.number in (3, 4, 5) else ""
    pair = f" (dimensions {answer.i} and {answer.j})" if answer.number == 5 else ""
    return [f"{path}: {at}refused {answer.number}: {answer.words}{pair}; {NO_REASON}"]


# ---- edits

def darts_named(darts):
    """'dart 2', or 'darts 2 and 15'."""
    return f"dart{'s' if len(darts) > 1 else ''} {listed(darts)}"


def orbits_reason(m, dimensions, dart, other):
    """Why no scheme of this orbit type fits at two darts, where their orbits say it, else nothing."""
    if dart == other:
        return f"dart {dart} was given for both hooks, and each node has a dart of its own"
    orbits = [m.orbit(x, dimensions) for x in (dart, other)]
    if other in orbits[0]:
        return f"both darts are of one orbit, {listed(sorted(orbits[0]))}, and each node has darts of its own"
    if len(orbits[0]) != len(orbits[1]):
        return f"the orbit of dart {dart} has {len(orbits[0])} darts, that of dart {other} has {len(orbits[1])}, and they must be of one shape"
    return ""


def counted(count, thing):
    """'no unused slot', '1 unused slot' or '8 unused slots'."""
    return f"{count or 'no'} {thing}{'s' if count > 1 else ''}"


def room_reason(edit):
    """What an edit has too little room for, and what room it has, where that is so, else nothing."""
    orbit, new, unused, freed = len(edit.copies), len(edit.pairs), len(edit.unused), len(edit.deleted)
    if new <= unused + freed:
        return ""
    each = f", {new // orbit} for each of the orbit's {orbit}" if orbit > 1 else " for the orbit's one dart"
    room = counted(unused, "unused slot")
    if freed:
        room = f"room for {unused + freed}: {room} and the {freed} that the edit frees"
    return f"{counted(new, 'new dart')}{each}, and {room}"


def edit_reason(number, m, s, darts):
    """What the refusal of an edit at these darts of a well-formed map comes from, where map, scheme and darts say it, else nothing.
    The scheme is in the form."""
    if number == 2 and len(s.hooks()) != len(darts):
        hooks = "one hook, node 0" if s.second is None else f"two hooks, nodes 0 and {s.second}"
        return f"it has {hooks}, and {'one dart was' if len(darts) == 1 else 'two darts were'} given"
    if number == 6 and s.n != m.n:
        return f"the scheme is for n = {s.n}, the map has n = {m.n}"
    if number == 8:
        lacking = [f"slot {dart} is unused" if dart < m.slots else f"there are {m.slots} slots" for dart in darts if dart not in m.live]
        return "; ".join(dict.fromkeys(lacking))
    if number == 9 and len(darts) == 2:
        return orbits_reason(m, s.orbit, *darts)
    if number == 10 and not untried(m, s, darts):
        return room_reason(Edit(m, s, darts))
    return ""


def untried(m, s, darts):
    """Why a scheme cannot be tried at these darts of a well-formed map, where it cannot, else nothing."""
    return next(filter(None, (edit_reason(number, m, s, darts) for number in (2, 6, 8))), "")


def edit_refusal(kernel, path, name, stored, m, darts, answer):
    """Lines that say why the kernel refused an edit. `stored` is the scheme's path and data, `name` what it was called; what is wrong with
    the scheme itself stands at its place in its file, and the rest at the map's path."""
    if answer.number in (2, 3, 4, 5) and kernel.check_scheme(bytes_in(stored[1])).number == answer.number:
        return scheme_refusal(kernel, *stored)
    reason = edit_reason(answer.number, m, scheme_in(stored[1]), darts)
    words = "the scheme is for another number of darts" if answer.number == 2 and reason else answer.words
    why = f": {reason}" if reason else "" if answer.number == 9 else f"; {NO_REASON}"
    return [f"{path}: {name} at {darts_named(darts)}: refused {answer.number}: {words}{why}"]


# ---- maps

def map_faults(m):
    """What keeps a map in the form from being well-formed, as (slot, words)."""
    for x, (links, _) in sorted(m.live.items()):
        for i, y in enumerate(links):
            if y >= m.slots:
                yield x, f"α{i} leads to {y}, and there are {m.slots} slots"
            elif y not in m.live:
                yield x, f"α{i} leads to {y}, which is unused"
            elif m.live[y][0][i] != x:
                yield x, f"α{i} leads to {y}, whose α{i} leads to {m.live[y][0][i]} and not back"
        for i in range(m.n + 1):
            for j in range(i + 2, m.n + 1):
                at, way = x, []
                for d in (i, j, i, j):
                    at = m.live[at][0][d]
                    way.append(at)
                    if at not in m.live:
                        break
                if at in m.live and at != x:
                    yield x, f"α{i}, α{j}, α{i}, α{j} lead to {', '.join(map(str, way))} and not back"


def faults_at(m):
    """The faults of a map by slot: for each slot that has some, their words."""
    found = {}
    for x, words in map_faults(m):
        found.setdefault(x, []).append(words)
    return found


def map_refusal(kernel, path, data):
    """Nothing where the kernel loads the map in the file and finds it well-formed, else lines that say why not. A text that is no map's
    is a fault."""
    file = file_in(data)
    n, slots = head(file) or (2, 1)  # a file too short to say has no form for any table
    answer, table = kernel.load(n, slots, file)
    if answer.number == 0:
        answer = kernel.check_table(n, slots, table)
    if answer.number == 0:
        return []
    refused = f"refused {answer.number}: "
    try:
        m = map_in(data)
    except Fault as fault:
        if answer.number in (1, 11):
            return [f"{path}:{fault.place}: {refused}{fault}"]
        return [f"{path}: {refused}{answer.words}; {NO_REASON}"]
    faults = list(map_faults(m)) if answer.number == 7 else []
    if not faults:
        return [f"{path}: {refused}{answer.words}; {NO_REASON}"]
    return [f"{path}: {refused}{answer.words}", *(f"{path}:{m.places[x]}: slot {x}: {words}" for x, words in faults)]
