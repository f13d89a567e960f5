"""Rule schemes: their form as text and as the bytes that the kernel reads. Whether a scheme is accepted, the kernel decides."""
import re

from gmap.files import Fault, is_text, lines_of, text_in

KINDS = {"deleted": 1, "preserved": 2, "added": 3}
NAMES = {number: name for name, number in KINDS.items()}
REMOVES = 255
NODES, ARCS = 16, 64
UNMARKED = 2 + 4 + 1 + NODES * (1 + 2 * 4) + 2 * (1 + 3 * ARCS)  # bytes at most of a scheme with neither donors nor a second hook
DONATED = NODES - 6  # nodes that can be added beside as many left arcs as there may be, which need six left nodes
LONGEST = UNMARKED + DONATED + 1  # with donors and a second hook
DONORS, TWO_HOOKS = 16, 32  # what the first byte is greater by where added nodes have donors, and where there is a second hook
ORDER = ["n", "orbit", "node", "donors", "hook", "left", "right", "bytes"]


class Scheme:
    """A scheme in the form: the words and arcs as docs/RULES.md lists them."""

    def __init__(self):
        self.n = None
        self.orbit = None
        self.nodes = []  # (kind, left word, right word)
        self.donors = None  # for each added node the left node whose tag its darts take; None where the scheme names none: node 0 for all
        self.second = None  # the second hook, a node, where there is one
        self.arcs = {"left": [], "right": []}  # (dimension, smaller node, other node)
        self.node_places = []  # where each node stands in its file, as a fault names it
        self.second_place = None  # where the second hook is named
        self.arc_places = {"left": {}, "right": {}}  # where each arc stands

    def hooks(self):
        """The nodes that are given a dart to begin with, in the order of the darts."""
        return [0] if self.second is None else [0, self.second]

    def there(self, side):
        """The nodes that are there on a side."""
        return [v for v, node in enumerate(self.nodes) if node[0] in allowed(side)]

    def added(self):
        return [v for v, node in enumerate(self.nodes) if node[0] == KINDS["added"]]

    def sections(self):
        """The bytes, one list for each line that `show` gives them."""
        marks = (0 if self.donors is None else DONORS) + (0 if self.second is None else TWO_HOOKS)
        donors = {} if self.donors is None else {v: [self.donors[v]] for v in self.added()}
        nodes = [len(self.nodes)]
        for v, (kind, left, right) in enumerate(self.nodes):
            nodes += [kind, *left, *right, *donors.get(v, [])]
        second = [] if self.second is None else [[self.second]]
        sides = [[len(arcs), *(byte for arc in sorted(arcs) for byte in arc)] for arcs in self.arcs.values()]
        return [[self.n + marks, len(self.orbit), *self.orbit], nodes, *second, *sides]

    def bytes(self):
        return [byte for section in self.sections() for byte in section]


def plain(dimensions):
    """Dimensions in words: '0, 1 or 2'."""
    words = [str(d) for d in dimensions]
    return words[0] if len(words) == 1 else ", ".join(words[:-1]) + " or " + words[-1]


def allowed(side):
    return {KINDS["preserved"], KINDS["deleted" if side == "left" else "added"]}


# ---- text to scheme

class Line:
    """The tokens of one line, taken from the left."""

    def __init__(self, number, text):
        self.number = number
        text = text.split("#", 1)[0]
        self.tokens = [(m.start() + 1, m.group()) for m in re.finditer(r"->|[A-Za-z]+|[0-9]+|\S", text)]
        self.end = len(text.rstrip()) + 1

    def place(self):
        return (self.number, self.tokens[0][0] if self.tokens else self.end)

    def peek(self):
        return self.tokens[0][1] if self.tokens else None

    def wrong(self, expected):
        found = f"'{self.peek()}'" if self.tokens else "the end of the line"
        return Fault(self.place(), f"found {found}, expected {expected}")

    def take(self, token, expected=None):
        if self.peek() != token:
            raise self.wrong(expected or f"'{token}'")
        self.tokens.pop(0)

    def at_number(self):
        return re.fullmatch("[0-9]{1,9}", self.peek() or "") is not None

    def number_in(self, numbers, expected):
        if not self.at_number() or int(self.peek()) not in numbers:
            raise self.wrong(expected)
        return int(self.tokens.pop(0)[1])

    def finish(self):
        if self.tokens:
            raise self.wrong("the end of the line")


class Reader:
    """Reads a text; what it has read is its scheme, and the numbers of its bytes lines with their places."""

    def __init__(self, text):
        self.scheme = Scheme()
        self.listed = []
        self.at = 0  # index in ORDER of the last line's word
        self.lines = lines_of(text)
        for number, line in enumerate(self.lines, 1):
            line = Line(number, line)
            if line.tokens:
                self.line(line)
        self.need(ORDER.index("left"), (len(self.lines) + 1, 1), "the text ends here")
        self.bytes_agree()

    def need(self, upto, place, found):
        """Each line that is due before the word at `upto` must have been there."""
        done = {"n": self.scheme.n is not None, "orbit": self.scheme.orbit is not None, "node": bool(self.scheme.nodes)}
        for word in ORDER[:min(upto, 3)]:
            if not done[word]:
                raise Fault(place, f"{found}, expected a line '{word} ..' first")

    def line(self, line):
        place, word = line.place(), line.peek()
        if word not in ORDER:
            raise line.wrong("a line that starts with " + ", ".join(ORDER[:-1]) + " or " + ORDER[-1])
        where = ORDER.index(word)
        self.need(where, place, f"found '{word}'")
        if where < self.at:
            raise Fault(place, f"found '{word}' after '{ORDER[self.at]}', expected the order {', '.join(ORDER)}")
        if {"n": self.scheme.n, "orbit": self.scheme.orbit, "donors": self.scheme.donors, "hook": self.scheme.second}.get(word) is not None:
            raise Fault(place, f"found a second '{word}' line, expected one")
        self.at = where
        line.take(word)
        if word in ("left", "right"):
            self.side(line, word)
        else:
            getattr(self, word)(line)
        line.finish()

    def dimension(self, line, also=""):
        return line.number_in(range(self.scheme.n + 1), "a dimension " + plain(range(self.scheme.n + 1)) + also)

    def n(self, line):
        self.scheme.n = line.number_in((2, 3), "the dimension of the map, 2 or 3")

    def orbit(self, line):
        orbit = []
        while line.tokens:
            place = line.place()
            orbit.append(self.dimension(line))
            if len(orbit) > 1 and orbit[-1] <= orbit[-2]:
                raise Fault(place, f"found {orbit[-1]} after {orbit[-2]}, expected the orbit type's dimensions ascending")
        self.scheme.orbit = orbit

    def word(self, line, node, side):
        """The word of a node on a side, a letter for each position of the orbit type."""
        k = len(self.scheme.orbit)
        word = []
        for _ in range(k):
            place = line.place()
            if line.peek() == "_":
                line.take("_")
                word.append(REMOVES)
                continue
            if not line.at_number():
                raise line.wrong(f"{k} entries in the {side} word of node {node}, as many as the orbit type has")
            letter = self.dimension(line, " or _")
            if letter in word:
                raise Fault(place, f"found {letter} twice in a word, expected each dimension at most once")
            word.append(letter)
        return word

    def node(self, line):
        number = len(self.scheme.nodes)
        if number == NODES:
            raise Fault(line.place(), f"found a node more, expected at most {NODES} nodes")
        line.number_in((number,), f"node number {number}, as nodes are numbered in order from 0")
        kind = line.peek()
        if kind not in KINDS:
            raise line.wrong("the node's kind: preserved, added or deleted")
        line.take(kind)
        nothing = [REMOVES] * len(self.scheme.orbit)
        left = nothing if kind == "added" else self.word(line, number, "left")
        line.take("->", "'->', as an added node has no left word" if kind == "added" else "'->' and the right word")
        right = nothing if kind == "deleted" else self.word(line, number, "right")
        if line.tokens and kind == "deleted":
            raise line.wrong("the end of the line, as a deleted node has no right word")
        self.scheme.nodes.append((KINDS[kind], left, right))
        self.scheme.node_places.append(str(line.number))

    def node_on(self, line, side, least=0):
        """A node that is there on a side, and its place."""
        place, last = line.place(), len(self.scheme.nodes) - 1
        node = line.number_in(range(least, last + 1), "a node number" + (f" from {least} to {last}" if last > least else f" {least}"))
        kind = self.scheme.nodes[node][0]
        if kind not in allowed(side):
            raise Fault(place, f"found node {node}, which is {NAMES[kind]}, expected a node that is there on the {side}")
        return place, node

    def donors(self, line):
        due, self.scheme.donors = self.scheme.added(), {}
        while line.tokens or due:
            expected = f"node {due[0]} and its donor, as each added node has one, ascending" if due else "the end of the line, as no other node is added"
            place, v = line.place(), line.number_in(range(len(self.scheme.nodes)), expected)
            if v not in due[:1]:
                kind = NAMES[self.scheme.nodes[v][0]]
                raise Fault(place, f"found node {v}{'' if kind == 'added' else f', which is {kind}'}, expected {expected}")
            line.take(":", f"':' and the donor of node {v}")
            _, self.scheme.donors[due.pop(0)] = self.node_on(line, "left")

    def hook(self, line):
        if line.peek() == "0" or len(self.scheme.nodes) == 1:
            raise line.wrong("the second hook: another node than 0, which is the first")
        _, self.scheme.second = self.node_on(line, "left", 1)
        self.scheme.second_place = str(line.number)

    def side(self, line, side):
        arcs = self.scheme.arcs[side]
        dimension = self.dimension(line)
        line.take(":", "':' and the arcs of this dimension")
        if not line.tokens:
            raise line.wrong("an arc, for example 0-1")
        while line.tokens:
            start, a = self.node_on(line, side)
            line.take("-", "'-' and the node at the arc's other end")
            _, b = self.node_on(line, side)
            if b < a:
                raise Fault(start, f"found {a}-{b}, expected the smaller node first: {b}-{a}")
            if (dimension, a, b) in arcs:
                raise Fault(start, f"found the {side} arc {dimension}: {a}-{b} twice, expected it once")
            if len(arcs) == ARCS:
                raise Fault(start, f"found an arc more, expected at most {ARCS} {side} arcs")
            arcs.append((dimension, a, b))
            self.scheme.arc_places[side][dimension, a, b] = str(line.number)

    def bytes(self, line):
        if not line.tokens:
            raise line.wrong("a byte, 0 to 255")
        while line.tokens:
            place = line.place()
            self.listed.append((place, line.number_in(range(256), "a byte, 0 to 255")))

    def bytes_agree(self):
        if not self.listed:
            return
        ours = self.scheme.bytes()
        for count, ((place, byte), want) in enumerate(zip(self.listed, ours), 1):
            if byte != want:
                raise Fault(place, f"found {byte} as byte {count} of the scheme, expected {want}")
        if len(self.listed) > len(ours):
            raise Fault(self.listed[len(ours)][0], f"found a byte more, expected {len(ours)} bytes")
        if len(self.listed) < len(ours):
            line, column = self.listed[-1][0]
            raise Fault((line, column), f"found {len(self.listed)} bytes up to here, expected {len(ours)}; the next is {ours[len(self.listed)]}")


# ---- bytes to scheme

class Bytes:
    """A place in the bytes; a fault names the byte, counted from 1."""

    def __init__(self, data):
        self.data, self.at = data, 0

    def place(self):
        return f"byte {self.at + 1}"

    def take(self, numbers, expected):
        found = str(self.data[self.at]) if self.at < len(self.data) else "the end"
        if self.at >= len(self.data) or self.data[self.at] not in numbers:
            raise Fault(self.place(), f"found {found}, expected {expected}")
        self.at += 1
        return self.data[self.at - 1]

    def scheme(self):
        s = Scheme()
        marks = (0, DONORS, TWO_HOOKS, DONORS + TWO_HOOKS)
        first = self.take([n + mark for mark in marks for n in (2, 3)], "the dimension of the map, 2 or 3, "
                          f"{DONORS} more where added nodes have donors, and {TWO_HOOKS} more where there is a second hook")
        s.n = first % DONORS
        k = self.take(range(s.n + 2), f"the number of dimensions in the orbit type, 0 to {s.n + 1}")
        s.orbit = []
        for _ in range(k):
            least = s.orbit[-1] + 1 if s.orbit else 0
            s.orbit.append(self.take(range(least, s.n + 1), f"a dimension of the orbit type, ascending, at most {s.n}"))
        s.donors, donor_places = {} if first & DONORS else None, {}
        count = self.take(range(1, NODES + 1), f"the number of nodes, 1 to {NODES}")
        for number in range(count):
            s.node_places.append(self.place())
            kind = self.take(NAMES, f"the kind of node {number}: 1 deleted, 2 preserved, 3 added")
            s.nodes.append((kind, *(self.word(s, k, number, kind, side) for side in ("left", "right"))))
            if s.donors is not None and kind == KINDS["added"]:
                donor_places[number] = self.place()
                s.donors[number] = self.take(range(count), f"the donor of node {number}: a node that is there on the left, below {count}")
        self.donors_there(s, donor_places)
        if first & TWO_HOOKS:
            s.second_place = self.place()
            free = [v for v in s.there("left") if v != 0]
            s.second = self.take(free, "the second hook: a node other than 0 that is there on the left, " + (plain(free) if free else "and there is none"))
        for side, arcs in s.arcs.items():
            for _ in range(self.take(range(ARCS + 1), f"the number of {side} arcs, 0 to {ARCS}")):
                arcs.append(self.arc(s, side, arcs))
        if self.at < len(self.data):
            raise Fault(self.place(), f"found {self.data[self.at]}, expected the end")
        return s

    def word(self, s, k, number, kind, side):
        word = []
        for _ in range(k):
            if kind not in allowed(side):
                free, expected = {REMOVES}, f"255, as node {number} is {NAMES[kind]} and has no {side} word"
            else:
                free = {REMOVES, *range(s.n + 1)} - {d for d in word if d != REMOVES}
                expected = f"in the {side} word of node {number} a dimension not yet in it, at most {s.n}, or 255"
            word.append(self.take(free, expected))
        return word

    def donors_there(self, s, places):
        """A donor may be a later node, so what kind it is of is known once all nodes are."""
        free = s.there("left")
        for v, donor in (s.donors or {}).items():
            if donor not in free:
                which = plain(free) if free else "and there is none"
                raise Fault(places[v], f"found {donor}, expected the donor of node {v}: a node that is there on the left, {which}")

    def arc(self, s, side, arcs):
        ends, start = s.there(side), self.place()
        dimension = self.take(range(s.n + 1), f"the dimension of a {side} arc, " + plain(range(s.n + 1)))
        a = self.take(ends, f"a node that is there on the {side}")
        b = self.take([v for v in ends if v >= a], f"a node that is there on the {side}, {a} or more")
        if arcs and (dimension, a, b) <= arcs[-1]:
            raise Fault(start, f"found the {side} arc {dimension} {a} {b} after {' '.join(map(str, arcs[-1]))}, expected ascending arcs")
        s.arc_places[side][dimension, a, b] = start
        return dimension, a, b


def shown(s):
    """The text of a scheme, with its bytes."""
    def letters(word):
        return " ".join("_" if d == REMOVES else str(d) for d in word)

    lines = [f"n {s.n}", " ".join(["orbit", *map(str, s.orbit)])]
    named = max(len(NAMES[node[0]]) for node in s.nodes)
    wide = len(str(len(s.nodes) - 1))
    for v, (kind, left, right) in enumerate(s.nodes):
        left = "" if NAMES[kind] == "added" else letters(left)
        right = "" if NAMES[kind] == "deleted" else letters(right)
        room = max(2 * len(s.orbit) - 1, 0)
        words = f"{left:{room}} -> {right}" if room else "->"
        lines.append(f"node {v:<{wide}} {NAMES[kind]:{named}} {words}".rstrip())
    if s.donors is not None:
        lines.append(" ".join(["donors", *(f"{v}:{donor}" for v, donor in sorted(s.donors.items()))]))
    if s.second is not None:
        lines.append(f"hook {s.second}")
    for side, arcs in s.arcs.items():
        for dimension in range(s.n + 1):
            these = [f"{a}-{b}" for d, a, b in sorted(arcs) if d == dimension]
            if these:
                lines.append(f"{side} {dimension}: {' '.join(these)}")
    lines += ["bytes " + " ".join(map(str, section)) for section in s.sections()]
    return "\n".join(lines) + "\n"


def scheme_text(data):
    """The reader of a text that has read it."""
    return Reader(text_in(data, "a scheme's text"))


def bytes_in(data):
    """The bytes of a scheme in a file, be it text or bytes; a text that is not in the form is a fault."""
    return bytes(scheme_text(data).scheme.bytes()) if is_text(data) else data


def scheme_in(data):
    """The scheme in a file, be it text or bytes."""
    return scheme_text(data).scheme if is_text(data) else Bytes(data).scheme()
