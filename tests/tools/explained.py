#!/usr/bin/env python3
"""Why the kernel refuses: the words of tools/scheme explain and tools/map check at their places, and, over thousands of schemes, maps
and edits, that the reasons they look for are the kernel's: each refusal has its reason, and nothing that is accepted has one; and that
the darts of an edit stand where the tools say."""
import collections
import copy
import glob
import random
import re
import sys
import unittest

from common import Case, run, wrong_kernel

from gmap import explain, map as maps, scheme as schemes
from gmap.edit import Edit
from gmap.files import Fault, data_of
from gmap.kernel import Kernel

# (what is wrong, the text, what is said of it: the first line, and a part of the rest)
SCHEMES = [
    ("an added hook", "n 2\norbit 0\nnode 0 added -> 0\n", "3: node 0: refused 3: the hook is added, and must be preserved or deleted", ""),
    ("another left word", "n 2\norbit 0 2\n# here\nnode 0 preserved 0 _ -> 0 _\n",
     "4: node 0: refused 3: the left word of the hook is '0 _', and must be the orbit type, '0 2'", ""),
    ("a node not reached", "n 2\norbit\nnode 0 preserved ->\nnode 1 preserved ->\nleft 1: 1-1\n",
     "4: node 1: refused 3: no left arcs lead to it from node 0", "node 0 reaches 0; on the left node 1 has 1 to itself (line 5)"),
    ("another left word of the second hook", "n 2\norbit 0\nnode 0 preserved 0 -> 0\nnode 1 preserved _ -> _\nhook 1\nleft 2: 0-1\nright 2: 0-1\n",
     "4: node 1: refused 3: the left word of the second hook is '_', and must be the orbit type, '0'", "    node 1 is named as the second hook at line 5\n"),
    ("both hooks have another left word", "n 2\norbit 0\nnode 0 preserved _ -> _\nnode 1 preserved _ -> _\nhook 1\n",
     "3: node 0: refused 3: the left word of the hook is '_', and must be the orbit type, '0'", ""),
    ("the second hook before a node not reached", "n 2\norbit 0\nnode 0 preserved 0 -> 0\nnode 1 preserved 0 -> 0\nnode 2 preserved _ -> _\nhook 2\n",
     "5: node 2: refused 3: the left word of the second hook is '_', and must be the orbit type, '0'", "hook at line 6"),
    ("a node reached from neither hook",
     "n 2\norbit\nnode 0 preserved ->\nnode 1 preserved ->\nnode 2 preserved ->\nnode 3 preserved ->\nhook 2\nleft 1: 0-3\n",
     "4: node 1: refused 3: no left arcs lead to it from a hook", "nodes 0 and 2, the hooks, reach 0, 2 and 3; on the left node 1 has nothing"),
    ("P5", "n 2\norbit 0 2\nnode 0 preserved 0 2 -> _ 2\nnode 1 added -> 1 2\n",
     "3: node 0: refused 4: it is preserved, has 0 on the left side and lacks it on the right",
     "on the left node 0 has 0 in its word under orbit 0 and 2 in its word under orbit 2\n    on the right node 0 has 2 in its word under orbit 2\n"),
    ("a dimension on the right alone", "n 2\norbit\nnode 0 preserved ->\nright 1: 0-0\n",
     "3: node 0: refused 4: it is preserved, has 1 on the right side and lacks it on the left", "on the left node 0 has nothing\n"),
    ("two arcs of a dimension", "n 2\norbit 0\nnode 0 preserved 0 -> 0\nleft 0: 0-0\n",
     "3: node 0: refused 4: it has 2 arcs of dimension 0 on the left side, and may have one", "0 to itself (line 4) and 0 in its word under orbit 0"),
    ("a deleted node lacks", "n 2\norbit 0\nnode 0 deleted 0 ->\nleft 2: 0-0\n",
     "3: node 0: refused 4: it is deleted, must have each dimension on the left side and lacks 1",
     "on the left node 0 has 0 in its word under orbit 0 and 2 to itself (line 4)"),
    ("an added node lacks", "n 3\norbit 0\nnode 0 preserved 0 -> 0\nnode 1 added -> 0\n",
     "4: node 1: refused 4: it is added, must have each dimension on the right side and lacks 1, 2 and 3", ""),
    ("P6", "n 2\norbit 0 2\nnode 0 preserved 0 2 -> _ 2\nnode 1 added -> 1 _\nright 0: 0-1\nright 2: 1-1\n",
     "3: node 0: refused 5: dimensions 0 and 2 close no cycle on the right side, as they do on the left",
     "2 must stand under orbit 2 at node 1 too, which has 2 to itself (line 6)"),
    ("P7", "n 2\norbit 0 1\nnode 0 preserved 0 1 -> 0 1\nnode 1 added -> 0 2\nright 1: 1-1\n",
     "4: node 1: refused 5: dimensions 0 and 2 close no cycle on the right side", "0 and 2 stand in its word under orbit 0 and 1, which are not two apart"),
    ("a walk that does not lead back", "n 2\norbit\nnode 0 preserved ->\nnode 1 added ->\nnode 2 added ->\nnode 3 added ->\n"
     "right 0: 1-2 3-3\nright 1: 1-1 2-2 3-3\nright 2: 1-1 2-3\n",
     "4: node 1: refused 5: dimensions 0 and 2 close no cycle on the right side", "the walk 1 -0- 2 -2- 3 -0- 3 -2- 2 does not lead back"),
    ("other arcs on the right", "n 2\norbit\nnode 0 preserved ->\nnode 1 preserved ->\nleft 0: 0-1\nright 0: 0-0 1-1\n",
     "3: node 0: refused 5: dimensions 0 and 2 close no cycle on the left side, so their arcs must be the same on both sides",
     "it lacks an arc of dimension 2; on the left node 0 has 0 to node 1 (line 5)\n    on the right node 0 has 0 to itself (line 6)\n"),
]

# (what is wrong, the records of a map of n 2 and 8 slots, what is said of them)
MAPS = [
    ("a link to no slot", "0 9 0 0 7\n", ["3: slot 0: α0 leads to 9, and there are 8 slots"]),
    ("a link to the first slot that is not there", "0 8 0 0 7\n", ["3: slot 0: α0 leads to 8, and there are 8 slots"]),
    ("a link to an unused slot", "0 0 3 0 7\n", ["3: slot 0: α1 leads to 3, which is unused"]),
    ("a link that does not lead back", "0 1 0 0 7\n1 1 1 1 9\n", [
        "3: slot 0: α0 leads to 1, whose α0 leads to 1 and not back", "3: slot 0: α0, α2, α0, α2 lead to 1, 1, 1, 1 and not back"]),
    ("P3", "0 1 0 2 0\n1 0 1 1 0\n2 3 2 0 0\n3 2 3 3 0\n", [
        "3: slot 0: α0, α2, α0, α2 lead to 1, 1, 0, 2 and not back", "4: slot 1: α0, α2, α0, α2 lead to 0, 2, 3, 3 and not back",
        "5: slot 2: α0, α2, α0, α2 lead to 3, 3, 2, 0 and not back", "6: slot 3: α0, α2, α0, α2 lead to 2, 0, 1, 1 and not back"]),
    ("several", "0 0 9 0 7\n1 1 1 4 9\n", ["3: slot 0: α1 leads to 9, and there are 8 slots", "4: slot 1: α2 leads to 4, which is unused"]),
]


# Every way in which a scheme is refused with 3, 4 or 5.
REASONS = [
    "the hook is added", "the left word of the hook is", "the left word of the second hook is", "no left arcs lead to it from node 0\n",
    "no left arcs lead to it from a hook\n", "it has [23] arcs of dimension", "on the left side and lacks",
    "on the right side and lacks", "it is deleted, must have", "it is added, must have", "close no cycle on the right side\n", "as they do on the left",
    "close no cycle on the left side", "it lacks an arc of dimension", "does not lead back", "must stand under orbit", "which are not two apart",
    "which lacks an arc of dimension [0-3] to a node",
]


def catalogue():
    found = [schemes.scheme_in(data_of(path)) for path in sorted(glob.glob("schemes/*.scheme"))]
    assert len(found) >= 12
    return found


def donors_of(source, s):
    """For each added node a donor: at times any node, or one that there is not, and else one that is there on the left."""
    left = [v for v, node in enumerate(s.nodes) if node[0] != explain.ADDED]
    donors = {}
    for v in s.added():
        donors[v] = source.choice(left) if left and source.random() < 0.97 else source.choice((source.randrange(len(s.nodes)), len(s.nodes), schemes.REMOVES))
    return donors


def mutated(source, s):
    """A scheme near an accepted one: a few small changes of words, arcs, kinds, donors and the second hook."""
    s = copy.deepcopy(s)
    s.nodes = [(kind, list(left), list(right)) for kind, left, right in s.nodes]
    for _ in range(source.choice((1, 1, 1, 2, 3))):
        v, side = source.randrange(len(s.nodes)), source.choice(("left", "right", "right"))
        kind, left, right = s.nodes[v]
        word, arcs, change = left if side == "left" else right, s.arcs[side], source.randrange(11)
        ends = [u for u, node in enumerate(s.nodes) if node[0] in schemes.allowed(side)]
        if change == 0 and word and kind in schemes.allowed(side):
            word[source.randrange(len(word))] = source.choice([*range(s.n + 1), schemes.REMOVES])
        elif change == 1 and word:
            source.shuffle(word)
        elif change == 2 and arcs:
            arcs.pop(source.randrange(len(arcs)))
        elif change == 3 and ends:
            arcs.append((source.randint(0, s.n), *sorted(source.choices(ends, k=2))))
        elif change == 4 and arcs and ends:
            at = source.randrange(len(arcs))
            arcs[at] = (arcs[at][0], *sorted((arcs[at][1], source.choice(ends))))
        elif change == 5:  # two dimensions exchanged on one side of the whole scheme
            a, b = source.sample(range(s.n + 1), 2)
            other = {a: b, b: a}
            arcs[:] = [(other.get(d, d), x, y) for d, x, y in arcs]
            for node in s.nodes:
                of = node[1 if side == "left" else 2]
                of[:] = [other.get(d, d) for d in of]
        elif change == 6:
            s.orbit = sorted(source.sample(range(s.n + 1), len(s.orbit)))
        elif change == 7 and word and kind in schemes.allowed(side):  # an implicit arc becomes a loop
            at = source.randrange(len(word))
            if word[at] != schemes.REMOVES:
                arcs.append((word[at], v, v))
                word[at] = schemes.REMOVES
        elif change == 8:  # another kind, with nothing left on a side where it is not
            kind, nothing = source.choice(list(schemes.NAMES)), [schemes.REMOVES] * len(s.orbit)
            s.nodes[v] = (kind, left if kind in schemes.allowed("left") else nothing, right if kind in schemes.allowed("right") else nothing)
            for of in s.arcs:
                if kind not in schemes.allowed(of):
                    s.arcs[of] = [arc for arc in s.arcs[of] if v not in arc[1:]]
        elif change == 9:  # another second hook, which may be none, or no node that can be one
            s.second = source.choice((None, 0, v, v, len(s.nodes)))
        elif change == 10:  # other donors, or none
            s.donors = source.choice((None, donors_of(source, s), donors_of(source, s)))
        if s.donors is not None:  # nodes that were added just now have donors too
            s.donors = {**donors_of(source, s), **{v: donor for v, donor in s.donors.items() if s.nodes[v][0] == explain.ADDED}}
    for side in s.arcs:
        s.arcs[side] = sorted(set(s.arcs[side]))[:schemes.ARCS]
    return bytes(s.bytes())


def hooked(source):
    """Left nodes of which some hang on one hook, some on the other, and some on none, with words that may be the orbit type."""
    s, count = schemes.Scheme(), source.randint(2, 6)
    s.n = source.choice((2, 3))
    s.orbit = [d for d in range(s.n + 1) if source.random() < 0.4]
    s.second = source.randrange(1, count)
    for v in range(count):
        word = s.orbit if v in s.hooks() and source.random() < 0.9 else [schemes.REMOVES] * len(s.orbit)
        s.nodes.append((2, word, word))
    for v in range(count):
        if source.random() < 0.7:
            arc = (source.randint(0, s.n), *sorted((v, source.randrange(count))))
            s.arcs["left"].append(arc)
            s.arcs["right"].append(arc)
    for side in s.arcs:
        s.arcs[side] = sorted(set(s.arcs[side]))
    return bytes(s.bytes())


def loops(source):
    """Added nodes beside a hook, with arcs between them that are pairings: incidence holds, and cycles may not."""
    n, count = source.choice((2, 3)), source.randint(1, 6)
    s = schemes.Scheme()
    s.n, s.orbit = n, [d for d in range(n + 1) if source.random() < 0.4]
    s.nodes = [(2, s.orbit, s.orbit)] + [(3, [schemes.REMOVES] * len(s.orbit), [schemes.REMOVES] * len(s.orbit)) for _ in range(count)]
    for d in range(n + 1):
        free = list(range(1, count + 1))
        source.shuffle(free)
        while free:
            a = free.pop()
            word, p = s.nodes[a][2], source.randrange(len(s.orbit)) if s.orbit else None
            if p is not None and word[p] == schemes.REMOVES and source.random() < 0.5:
                word[p] = d
                continue
            s.arcs["right"].append((d, *sorted((a, free.pop() if free and source.random() < 0.6 else a))))
    s.donors = source.choice((None, donors_of(source, s)))
    return bytes(s.bytes())


def damaged(source, data):
    """Bytes with one of them changed, lost or doubled."""
    at, change = source.randrange(len(data)), source.randrange(4)
    if change == 0:
        return data[:at] + data[at + 1:]
    if change == 1:
        return data[:at] + data[at:at + 1] + data[at:]
    return data[:at] + bytes([source.choice((0, 1, 2, 3, 4, 255, source.randrange(256)))]) + data[at + 1:]


def reasons_of_scheme(data):
    """What the tools find: (number, node, i, j) of the first refusal that has a reason."""
    try:
        found = explain.scheme_refusals(schemes.Bytes(data).scheme())
    except Fault:
        return 2, 0, 0, 0
    return found[0].key() if found else (0, 0, 0, 0)


class Schemes(Case):
    def test_words(self):
        for what, text, first, more in SCHEMES:
            with self.subTest(what):
                path = self.file("a.scheme", text)
                done = run("tools/scheme", "explain", path)
                self.assertEqual((done.returncode, done.stdout), (1, ""), done.stderr)
                self.assertEqual(done.stderr.split("\n", 1)[0], f"{path}:{first}")
                self.assertIn(more, done.stderr)

    def test_words_of_bytes(self):
        path = self.file("a.bytes", bytes([2, 2, 0, 2, 2, 2, 0, 2, 255, 2, 3, 255, 255, 1, 2, 0, 0]))
        done = run("tools/scheme", "explain", path)
        self.assertEqual(done.stderr.split("\n")[0], f"{path}:byte 6: node 0: refused 4: it is preserved, has 0 on the left side and lacks it on the right")
        path = self.file("a.bytes", bytes([2, 4]))
        done = run("tools/scheme", "explain", path)
        self.assertEqual((done.returncode, done.stderr),
                         (1, f"{path}:byte 2: refused 2: found 4, expected the number of dimensions in the orbit type, 0 to 3\n"))
        for second, said in ((0, "found 0"), (3, "found 3"), (2, "found 2")):  # the first hook, no node, an added one
            path = self.file("a.bytes", bytes([34, 0, 3, 2, 2, 3, second, 0, 0]))
            done = run("tools/scheme", "explain", path)
            self.assertEqual((done.returncode, done.stderr), (
                1, f"{path}:byte 7: refused 2: {said}, expected the second hook: a node other than 0 that is there on the left, 1\n"))
        for data, place, said in (  # an added donor, the node itself, a later one that is added, no node
                ([18, 0, 3, 2, 3, 0, 3, 1, 0, 0], 8, "found 1, expected the donor of node 2: a node that is there on the left, 0"),
                ([18, 0, 3, 2, 3, 0, 3, 2, 0, 0], 8, "found 2, expected the donor of node 2: a node that is there on the left, 0"),
                ([19, 0, 4, 2, 3, 3, 1, 3, 0, 0, 0], 6, "found 3, expected the donor of node 1: a node that is there on the left, 0 or 2"),
                ([50, 0, 3, 2, 2, 3, 3, 1, 0, 0], 7, "found 3, expected the donor of node 2: a node that is there on the left, below 3"),
                ([18, 0, 1, 3, 0, 0, 0], 5, "found 0, expected the donor of node 0: a node that is there on the left, and there is none"),
                ([18, 0, 2, 2, 3], 6, "found the end, expected the donor of node 1: a node that is there on the left, below 2"),
                ([2, 0, 2, 2, 3, 0, 0, 0], 8, "found 0, expected the end")):
            path = self.file("a.bytes", bytes(data))
            done = run("tools/scheme", "explain", path)
            self.assertEqual((done.returncode, done.stderr), (1, f"{path}:byte {place}: refused 2: {said}\n"))
        path = self.file("a.bytes", bytes([35, 1, 0, 2, 2, 0, 0, 2, 255, 255, 1, 0, 0]))
        done = run("tools/scheme", "explain", path)
        self.assertEqual((done.returncode, done.stderr), (
            1, f"{path}:byte 8: node 1: refused 3: the left word of the second hook is '_', and must be the orbit type, '0'\n"
            "    node 1 is named as the second hook at byte 11\n"))

    def test_accepted(self):
        with open("schemes/split-edge.scheme") as file:
            without = self.file("a.scheme", "".join(line for line in file if not line.startswith("bytes")))
        bytes_ = self.path("a.bytes")
        run("tools/scheme", "assemble", without, "-o", bytes_)
        done = run("tools/scheme", "explain", "schemes/split-edge.scheme", without, bytes_)
        self.assertEqual((done.returncode, done.stdout, done.stderr),
                         (0, f"schemes/split-edge.scheme: accepted\n{without}: accepted\n{bytes_}: accepted\n", ""))
        alone = self.file("b.scheme", "n 2\norbit\nnode 0 preserved ->\ndonors\n")  # the mark, and no node that has a donor
        later = self.file("c.scheme", "n 2\norbit 0\nnode 0 preserved 0 -> 0\nnode 1 added -> 0\nnode 2 deleted 0 ->\ndonors 1:2\n"
                          "left 1: 2-2\nleft 2: 0-2\nright 1: 1-1\nright 2: 0-1\n")  # a later node, which goes
        done = run("tools/scheme", "explain", alone, later)
        self.assertEqual((done.returncode, done.stdout, done.stderr), (0, f"{alone}: accepted\n{later}: accepted\n", ""))

    def test_a_text_that_is_no_scheme(self):
        path = self.file("a.scheme", "n 2\norbit\nnode 0 preserved ->\nbytes 2 0 1 2 0 1\n")
        done = run("tools/scheme", "explain", path)
        self.assertEqual((done.returncode, done.stderr), (1, f"{path}:4:17: found 1 as byte 6 of the scheme, expected 0\n"))
        path = self.file("a.scheme", "n 2\norbit 0 3\n")
        done = run("tools/scheme", "explain", path, "no/such/file")
        self.assertEqual((done.returncode, done.stderr),
                         (1, f"{path}:2:9: found '3', expected a dimension 0, 1 or 2\nno/such/file: No such file or directory\n"))

    def test_no_reason_is_said(self):
        """A kernel that refuses everything with 5, node 1, (0, 2): the tool says that it finds no reason, and does not make one up."""
        archive = wrong_kernel(self.folder, 1 << 63 | 5 | 1 << 8 | 0 << 16 | 2 << 24)
        done = run("env", f"GMAP_ARCHIVE={archive}", "tools/scheme", "explain", "schemes/split-edge.scheme")
        self.assertEqual((done.returncode, done.stderr), (
            1,
            "schemes/split-edge.scheme: node 1: refused 5: the scheme would tear the map at a node (dimensions 0 and 2); this tool finds no reason for it\n"))

    def test_reasons_are_the_kernels(self):
        kernel, source, said = Kernel.loaded(), random.Random(4711), ""
        seen, two, donated = collections.Counter(), collections.Counter(), collections.Counter()
        stored = catalogue()
        for case in range(8000):
            data = loops(source) if case % 4 == 3 else hooked(source) if case % 8 == 6 else mutated(source, source.choice(stored))
            if case % 9 == 8:
                data = damaged(source, data)
            answer = kernel.check_scheme(data)
            self.assertEqual(reasons_of_scheme(data), (answer.number, answer.node, answer.i, answer.j), list(data))
            seen[answer.number] += 1
            two[answer.number] += data[:1] in (b"\42", b"\43", b"\62", b"\63")
            donated[answer.number] += data[:1] in (b"\22", b"\23", b"\62", b"\63")
            if answer.number in (3, 4, 5):
                said += "\n".join(explain.scheme_refusal(kernel, "f", data)) + "\n"
        self.assertNotIn(explain.NO_REASON, said)
        for number in (0, 2, 3, 4, 5):
            self.assertGreater(seen[number], 200, seen)
            self.assertGreater(two[number], 20, two)
            self.assertGreater(donated[number], 100, donated)
        for words in REASONS:
            self.assertGreater(len(re.findall(words, said)), 10, words)
        print(f"schemes by answer: {dict(sorted(seen.items()))}, with two hooks: {dict(sorted(two.items()))}, "
              f"with donors: {dict(sorted(donated.items()))}", file=sys.stderr)

    def test_each_donor_is_the_kernels(self):
        """Every byte as the donor of every added node, beside nodes of every kind: the kernel and the tools take just those that name a node that
        is there on the left, an earlier one or a later one, and refuse all others with 2."""
        kernel, taken = Kernel.loaded(), 0
        for kinds in ((2, 3, 1, 3), (2, 3, 3), (2, 3, 2), (1, 3), (3, 2), (3,)):
            left = [v for v, kind in enumerate(kinds) if kind != 3]
            for v in set(range(len(kinds))) - set(left):
                for donor in range(256):
                    donors = {u: [donor if u == v else left[0]] for u, kind in enumerate(kinds) if kind == 3 and (left or u == v)}
                    data = bytes([18, 0, len(kinds), *(byte for u, kind in enumerate(kinds) for byte in [kind, *donors.get(u, [])]), 0, 0])
                    self.assertEqual((kernel.check_scheme(data).number != 2, reasons_of_scheme(data)[0] != 2), (donor in left, donor in left), list(data))
                    taken += donor in left
        self.assertEqual(taken, 10)

    def test_limits(self):
        kernel = Kernel.loaded()
        self.assertEqual((schemes.LONGEST, maps.LONGEST), (kernel.max_scheme, kernel.max_file))

    def test_longest(self):
        """A scheme with all that a scheme can have is in the form, without marks and with each, and has the greatest length: six nodes have room
        for the left arcs, so the other ten can be added, and have donors."""
        s, most = schemes.Scheme(), schemes.NODES - schemes.DONATED
        s.n, s.orbit = 3, [0, 1, 2, 3]
        s.nodes = [(2, s.orbit, s.orbit)] * most + [(3, [schemes.REMOVES] * 4, s.orbit)] * schemes.DONATED
        arcs = [(d, a, b) for d in range(4) for a in range(most) for b in range(a, most)]
        self.assertGreater(schemes.ARCS, len([arc for arc in arcs if arc[2] < most - 1]))  # one node less has no room for them
        s.arcs = {"left": arcs[:schemes.ARCS], "right": arcs[:schemes.ARCS]}
        named = dict.fromkeys(range(most, schemes.NODES), most - 1)
        for s.donors, s.second, length in ((None, None, 537), (None, 5, 538), (named, None, 547), (named, 5, 548)):
            data = bytes(s.bytes())
            read = schemes.Bytes(data).scheme()
            self.assertEqual((len(data), read.donors, read.second), (length, s.donors, s.second))
            self.assertEqual(Kernel.loaded().check_scheme(data).number, 4)
            self.assertEqual(Kernel.loaded().check_scheme(data + b"\0").number, 2)
            self.assertEqual(Kernel.loaded().check_scheme(data[:-1]).number, 2)
        self.assertEqual((schemes.UNMARKED, schemes.LONGEST), (537, 548))
        self.assertLess(schemes.LONGEST, maps.BENCH_SCHEME)


def changed(source, m):
    """A map near a well-formed one: up to two changes of links and darts."""
    m = copy.deepcopy(m)
    for _ in range(source.choice((0, 1, 1, 2))):
        x, change = source.choice(sorted(m.live)), source.randrange(5)
        links, i = m.live[x][0], source.randint(0, m.n)
        if change == 0:
            links[i] = source.choice((source.randrange(m.slots + 2), source.randrange(65536)))
        elif change == 1:  # a pair of links is cut: it may break a square alone
            y, links[i] = links[i], x
            if y in m.live:
                m.live[y][0][i] = y
        elif change == 2 and len(m.live) > 1:
            del m.live[x]
        elif change == 3:  # two darts that were loops at i are joined: likewise
            free = [y for y in m.live if m.live[y][0][i] == y]
            if len(free) > 1:
                x, y = source.sample(free, 2)
                m.live[x][0][i], m.live[y][0][i] = y, x
    return m


def sample_maps():
    found = [maps.map_in(data_of(path)) for path in sorted(glob.glob("schemes/maps/*.map"))]
    assert len(found) >= 5
    return found


def crowded(source, m):
    """The same map with its darts anywhere in a table that has few slots more, each with a tag of its own."""
    found = maps.Map(m.n, len(m.live) + source.choice((0, 0, 1, 2, 4, 8)))
    to = dict(zip(sorted(m.live), source.sample(range(found.slots), len(m.live))))
    found.live = {to[x]: ([to[y] for y in links], 4711 + to[x]) for x, (links, _) in m.live.items()}
    return found


def grown(source, s):
    """The same scheme with some added nodes more, each a dart by itself, and with donors or without: it is accepted, and fits where it did."""
    s = copy.deepcopy(s)
    for v in range(len(s.nodes), source.randint(len(s.nodes), min(len(s.nodes) + 5, schemes.NODES))):
        s.nodes.append((explain.ADDED, [schemes.REMOVES] * len(s.orbit), [schemes.REMOVES] * len(s.orbit)))
        s.arcs["right"] += [(d, v, v) for d in range(s.n + 1)]
    s.donors = {v: source.choice(s.there("left")) for v in s.added()} if source.random() < 0.7 else None
    return s


# A scheme for two pieces of one shape, of which the second goes.
EXCHANGE = "n 2\norbit 0 1 2\nnode 0 preserved 0 1 2 -> 0 1 2\nnode 1 deleted 0 1 2 ->\nhook 1\n"


def room_kinds(edit, room, darts):
    """The kinds of edits that a test of room must have met, each with whether this one is of it; `room` is what is left, or lacks."""
    unused, freed, taken = edit.unused, edit.deleted, set(edit.new)
    return [("refused, though slots come free", room < 0 and freed), ("one slot too few, though some come free", room == -1 and freed),
            ("just enough with those that come free", room == 0 and freed and taken), ("too few without them", room >= 0 and len(taken) > len(unused)),
            ("a slot that comes free is taken", room >= 0 and freed & taken), ("likewise at two darts", room >= 0 and freed & taken and len(darts) == 2),
            ("it is taken, and an unused one is left", room >= 0 and freed & taken and unused - taken),
            ("it is left, and an unused one is taken", room >= 0 and freed - taken and unused & taken)]


class Edits(Case):
    def first_reason(self, m, data, darts):
        """The number of the first refusal that the tools find a reason for before the match, or 0."""
        found = reasons_of_scheme(data)[0]
        if found == 2:
            return 2
        s = schemes.Bytes(data).scheme()
        for number in (2, 3, 4, 5, 6, 8):
            if number == found or (number not in (3, 4, 5) and explain.edit_reason(number, m, s, darts)):
                return number
        return 0

    def test_reasons_are_the_kernels(self):
        """Stored operations, some of them changed, at one dart and at two, some of them not live: each refusal but a 9 has its reason, and
        what is done has none."""
        kernel, source, seen, two = Kernel.loaded(), random.Random(4715), collections.Counter(), collections.Counter()
        stored, on = catalogue(), sample_maps()
        for case in range(4000):
            s = source.choice(stored)
            m = source.choice([m for m in on if m.n == s.n] if source.random() < 0.9 else on)
            data = mutated(source, s) if case % 5 == 4 else bytes(s.bytes())
            darts = [source.choice(sorted(m.live)) if source.random() < 0.9 else source.randrange(m.slots + 2)
                     for _ in range(len(s.hooks()) if source.random() < 0.9 else source.choice((1, 2)))]
            if source.random() < 0.1:
                darts = darts[:1] * len(darts)
            _, table = kernel.load(m.n, m.slots, m.file())
            answer = kernel.edit(m.n, m.slots, table, data, *darts)
            first = self.first_reason(m, data, darts)
            self.assertEqual(answer.number if answer.number < 9 else 0, first, (list(data), darts))
            seen[answer.number] += 1
            two[answer.number] += len(darts) == 2
            if answer.number != 0:
                said = explain.edit_refusal(kernel, "m", "s", ("f", data), m, darts, answer)
                self.assertNotIn(explain.NO_REASON, "\n".join(said))
                self.assertIn(f"refused {answer.number}: ", said[0])
            elif first == 0:
                s = schemes.Bytes(data).scheme()
                self.assertEqual([explain.edit_reason(number, m, s, darts) for number in (9, 10)], ["", ""])
        for number in (0, 2, 3, 4, 5, 6, 8, 9, 10):
            self.assertGreater(seen[number], 20, seen)
            self.assertGreater(two[number], 2, two)
        print(f"edits by answer: {dict(sorted(seen.items()))}, at two darts: {dict(sorted(two.items()))}", file=sys.stderr)

    def stands(self, m, s, edit, answer, after):
        """The darts of an edit that is done stand where the tools say: what is deleted is gone, but for new darts in its slots; a new dart has the
        tag of its donor's dart, every other its own; right arcs lead from dart to dart; and what no copy has is as it was."""
        self.assertEqual((answer.orbit, answer.added, answer.deleted), (len(edit.copies), len(edit.new), len(edit.deleted)))
        kept = set(m.live) - edit.deleted
        self.assertEqual(set(after.live), kept | set(edit.new))
        self.assertEqual({x: after.live[x][1] for x in kept}, {x: m.live[x][1] for x in kept})
        donors = s.donors or dict.fromkeys(s.added(), 0)
        self.assertEqual({x: after.live[x][1] for x in edit.new}, {x: m.live[edit.copies[u][donors[v]]][1] for x, (u, v) in edit.new.items()})
        slots = {pair: x for x, pair in edit.new.items()}
        for u, copy_of_u in edit.copies.items():
            of = {**copy_of_u, **{v: slots[u, v] for v in s.added()}}
            for i, a, b in s.arcs["right"]:
                self.assertEqual((after.live[of[a]][0][i], after.live[of[b]][0][i]), (of[b], of[a]))
        for x in kept.difference(*(copy_of_u.values() for copy_of_u in edit.copies.values())):
            self.assertEqual(after.live[x], m.live[x])

    def test_slots_are_the_kernels(self):
        """Stored operations that add some darts more, in tables with little room: an edit that fits is refused with 10 just where the tools find
        too little room, also where it frees some, and one that is done leaves its darts where the tools say."""
        kernel, source, seen = Kernel.loaded(), random.Random(4716), collections.Counter()
        stored, on = catalogue(), sample_maps()
        deleting = [s for s in stored if explain.DELETED in [node[0] for node in s.nodes]] + [schemes.scheme_in(EXCHANGE.encode())] * 3  # it fits seldom
        for _ in range(12000):
            s = grown(source, source.choice(deleting if source.random() < 0.8 else stored))
            m = crowded(source, source.choice([m for m in on if m.n == s.n]))
            darts = [source.choice(sorted(m.live)) for _ in s.hooks()]
            _, table = kernel.load(m.n, m.slots, m.file())
            answer = kernel.edit(m.n, m.slots, table, bytes(s.bytes()), *darts)
            if answer.number == 9:
                continue
            edit = Edit(m, s, darts)
            room, reason = len(edit.unused) + len(edit.deleted) - len(edit.pairs), explain.edit_reason(10, m, s, darts)
            self.assertEqual((answer.number, bool(reason)), (10, True) if room < 0 else (0, False), (s.bytes(), darts, m.text()))
            self.assertEqual("that the edit frees" in reason, room < 0 and bool(edit.deleted))
            if answer.number == 0:
                self.stands(m, s, edit, answer, maps.map_of_file(kernel.write(m.n, m.slots, table)))
            for what, so in room_kinds(edit, room, darts):
                seen[what] += bool(so)
        for what, count in seen.items():
            self.assertGreater(count, 20, what)
        print(f"edits by room: {dict(seen)}", file=sys.stderr)

    def test_no_reason_is_said(self):
        """An edit that is refused with what is not so: the tools say that they find no reason, and make none up."""
        m, kernel = maps.map_in(data_of("schemes/maps/pan.map")), Kernel.loaded()
        for number in (2, 3, 6, 7, 8, 10):
            answer = kernel.answer(1 << 63 | number)
            lines = explain.edit_refusal(kernel, "m", "sew-edges", ("f", data_of("schemes/sew-edges.scheme")), m, [11, 16], answer)
            self.assertEqual(lines, [f"m: sew-edges at darts 11 and 16: refused {number}: {kernel.words(number)}; {explain.NO_REASON}"])
        for darts in ([11], [63, 16], [11, 64]):  # a 10 where the scheme cannot even be tried
            lines = explain.edit_refusal(kernel, "m", "sew-edges", ("f", data_of("schemes/sew-edges.scheme")), m, darts, kernel.answer(1 << 63 | 10))
            self.assertIn(f"refused 10: {kernel.words(10)}; {explain.NO_REASON}", lines[0])


class Maps(Case):
    def test_words(self):
        for what, records, said in MAPS:
            with self.subTest(what):
                path = self.file("a.map", "n 2\nslots 8\n" + records)
                done = run("tools/map", "check", path)
                self.assertEqual((done.returncode, done.stdout), (1, ""))
                self.assertEqual(done.stderr.splitlines(), [f"{path}: refused 7: the map is not well-formed", *(f"{path}:{line}" for line in said)])

    def test_words_of_files(self):
        text = self.file("a.map", "n 2\nslots 8\n0 1 0 0 7\n1 0 1 3 9\n")
        path = self.path("a.gmap")
        run("tools/map", "assemble", text, "-o", path)
        done = run("tools/map", "check", path)
        self.assertEqual(done.stderr, f"{path}: refused 7: the map is not well-formed\n{path}:byte 28: slot 1: α2 leads to 3, which is unused\n")
        whole = data_of(path)
        for what, data, said in (("cut", whole[:-1], "byte 33: refused 11: found the end, expected a link"),
                                 ("n", b"\5" + whole[1:], "byte 1: refused 1: found n = 5 and 8 slots, expected n 2 or 3 and 1 to 1024 slots"),
                                 ("two bytes", whole[:2], "byte 3: refused 11: found the end, expected the number of slots")):
            with self.subTest(what):
                done = run("tools/map", "check", self.file("a.gmap", data))
                self.assertEqual((done.returncode, done.stderr), (1, f"{path}:{said}\n"))

    def test_well_formed(self):
        done = run("tools/map", "check", "schemes/maps/bend.map")
        self.assertEqual((done.returncode, done.stdout, done.stderr), (0, "schemes/maps/bend.map: well-formed: n 2, 24 slots, 16 live\n", ""))

    def test_a_text_that_is_no_map(self):
        path = self.file("a.map", "n 2\nslots 0\n")
        done = run("tools/map", "check", path, "no/such/file")
        self.assertEqual((done.returncode, done.stderr), (
            1, f"{path}:2: found 'slots 0', expected 'slots' and a number from 1 to 1024\nno/such/file: No such file or directory\n"))

    def test_no_reason_is_said(self):
        archive = wrong_kernel(self.folder, 1 << 63 | 7)
        done = run("env", f"GMAP_ARCHIVE={archive}", "tools/map", "check", "schemes/maps/bend.map")
        self.assertEqual((done.returncode, done.stderr), (
            1, "schemes/maps/bend.map: refused 7: the map is not well-formed; this tool finds no reason for it\n"))

    def test_bytes_are_not_printed(self):
        for data in (b"\2\10\0\0\0\0\0\0\0", b"n 2\nslots 8 \xff\n", b"n 2\n\x1b[31m\n"):
            path, out = self.file("a.map", data), self.path("out")
            done = run("tools/map", "assemble", path, "-o", out)
            self.assertEqual(done.returncode, 1)
            self.assertRegex(done.stderr, r"^[^\n]*:\d+:\d+: found bytes that are no text, expected a map's text in UTF-8\n$")
            self.assertRegex(done.stderr, r"^[\x20-\x7e]*\n$")
            self.assertRaises(FileNotFoundError, data_of, out)

    def test_bench_names_what_does_not_fit(self):
        small, large, out = self.file("small", b"\2"), self.file("large", b"\2" * 14346), self.path("out")
        more = self.file("more", b"\2" * 553)
        for words, said in (((small, small, "1", "70000"), "the darts: found dart 70000, expected at most 65535, as a dart has two bytes"),
                            ((large, small), f"{large}: found 14346 bytes, expected at most 14345"),
                            (("schemes/maps/bend.map", small),
                             "schemes/maps/bend.map: found a text, expected a map file, which tools/map assemble makes of it"),
                            ((small, "schemes/split-edge.scheme"),
                             "schemes/split-edge.scheme: found a text, expected a scheme's bytes, which tools/scheme assemble makes of it"),
                            ((small, large), f"{large}: found 14346 bytes, expected at most 552"),
                            ((small, more), f"{more}: found 553 bytes, expected at most 552"),
                            ((small, small, *["0"] * 1025), "the darts: found 1025 darts, expected at most 1024")):
            done = run("tools/map", "bench", *words, "-o", out)
            self.assertEqual((done.returncode, done.stderr), (1, said + "\n"))
            self.assertRaises(FileNotFoundError, data_of, out)
        longest = self.file("longest", b"\2" * 552)
        self.assertEqual(run("tools/map", "bench", small, longest, "0", "-o", out).returncode, 0)
        self.assertEqual(len(data_of(out)), 2 + 1 + 2 + 552 + 2 + 2)

    def test_reasons_are_the_kernels(self):
        """The kernel loads just the files that are in the form here, and of the maps in them finds those broken that have a fault here."""
        kernel, source, seen = Kernel.loaded(), random.Random(4712), collections.Counter()
        stored = sample_maps()
        for case in range(3000):
            data = changed(source, source.choice(stored)).file()
            if case % 7 == 6:
                data = damaged(source, data)
            n, slots = maps.head(data)
            answer, table = kernel.load(n, slots, data)
            try:
                m = maps.map_of_file(data)
            except Fault:
                self.assertEqual(answer.number, 1 if n not in (2, 3) or not 1 <= slots <= maps.SLOTS else 11, data)
                seen[answer.number] += 1
                continue
            self.assertEqual(answer.number, 0, data)
            number = kernel.check_table(n, slots, table).number
            self.assertEqual(7 if list(explain.map_faults(m)) else 0, number, data)
            seen[number] += 1
        for number in (0, 7, 11):
            self.assertGreater(seen[number], 100, seen)
        print(f"maps by answer: {dict(sorted(seen.items()))}", file=sys.stderr)

    def shown(self, path):
        """What `show` prints on both ways, without a kernel; the text assembles to the map's file."""
        done = run("env", "GMAP_ARCHIVE=no/such.a", "tools/map", "show", path)
        self.assertEqual(done.returncode, 0)
        text, file = self.file("shown.map", done.stdout), self.path("shown.gmap")
        self.assertEqual(run("tools/map", "assemble", text, "-o", file).returncode, 0)
        self.assertEqual(data_of(file), maps.file_in(data_of(path)))
        return done.stdout, done.stderr

    def test_broken_is_shown(self):
        """Each kind of fault is said at the line of its dart, and at no other."""
        for what, records, said in MAPS:
            with self.subTest(what):
                wanted = {}
                for words in said:
                    line, _, fault = words.split(": ", 2)
                    wanted.setdefault(int(line) + 1, []).append(fault)  # `show` has a line of heads before the records
                path = self.file("a.map", "n 2\nslots 8\n" + records)
                file = self.file("a.gmap", maps.file_in(data_of(path)))
                for broken in (path, file):
                    text, summary = self.shown(broken)
                    marks = {number: line.split(" # ")[1] for number, line in enumerate(text.splitlines(), 1) if " # " in line}
                    self.assertEqual(marks, {line: "; ".join(faults) for line, faults in wanted.items()})
                    self.assertEqual([line.split(" # ")[0] for line in text.splitlines()[3:]], records.splitlines())
                    self.assertEqual(summary, f"{broken}: broken at {len(wanted)} of {len(records.splitlines())} darts; the comments at their lines say how\n")

    def test_well_formed_is_shown(self):
        for path in sorted(glob.glob("schemes/maps/*.map")):
            with self.subTest(path):
                text, summary = self.shown(path)
                self.assertEqual((text.count("#"), summary), (1, ""))

    def test_text_of_any_map(self):
        """With marks or without, the text of a map is the text of its file, and the marked darts are those with a fault."""
        source, stored = random.Random(4714), sample_maps()
        for _ in range(500):
            m = changed(source, source.choice(stored))
            faults = explain.faults_at(m)
            text = m.text({x: "; ".join(words) for x, words in faults.items()})
            self.assertEqual(maps.map_of_text(text).file(), m.file())
            self.assertEqual([int(line.split()[0]) for line in text.splitlines()[3:] if "#" in line], sorted(faults))


if __name__ == "__main__":
    sys.exit(unittest.main())
