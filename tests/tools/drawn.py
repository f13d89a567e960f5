#!/usr/bin/env python3
"""Pictures: those of the catalogue are what is drawn now, and a check that something was changed says so; what a map's picture shows
is held to the map's records, and what is marked in it to the map's faults and to the darts that an edit deletes and adds; any map and any
scheme in the form is drawn; the same input gives the same bytes."""
import contextlib
import copy
import glob
import io
import math
import os
import random
import re
import shutil
import sys
import unittest
import unittest.mock
import xml.etree.ElementTree as ElementTree
from importlib.machinery import SourceFileLoader
from importlib.util import module_from_spec, spec_from_loader

from common import ROOT, Case, run

from gmap import draw_map, draw_scheme, explain, graphviz, look, map as maps
from gmap.edit import Edit
from gmap.files import Trouble, data_of
from gmap.layout import cost, laid_out
from gmap.map_lines import LETTERS, STUB
from gmap.polygon import DISC
from gmap.scheme import scheme_in
from gmap.svg import wide

SVG = "{http://www.w3.org/2000/svg}"
PLACES = {"x", "y", "cx", "cy", "d", "width", "height", "viewBox"}
NUMBER = r"-?[0-9.]+"


def names():
    return sorted(os.path.basename(path)[:-len(".scheme")] for path in glob.glob("schemes/*.scheme"))


def map_at(path):
    return maps.map_in(data_of(path))


def sample(name):
    """The maps before and after in the stored outcome of an operation, the darts, and the edit."""
    lines = data_of(f"schemes/{name}.outcome").decode().split("\n")
    on, darts = (next(line.split()[1:] for line in lines if line.startswith(word)) for word in ("map ", "dart "))
    before, darts = map_at(f"schemes/maps/{on[0]}.map"), [int(dart) for dart in darts]
    first = next(k for k, line in enumerate(lines) if line.startswith("slot ")) + 1
    after = maps.map_of_text("\n".join([f"n {before.n}", f"slots {before.slots}", *lines[first:]]))
    return [before, after], darts, Edit(before, scheme_in(data_of(f"schemes/{name}.scheme")), darts)


def torus(width, height):
    """A map without a free edge: squares in a grid, the last joined to the first."""
    m = maps.Map(2, 1024)

    def dart(x, y, k):
        return ((y % height) * width + x % width) * 8 + k
    over = [(0, -1, 5), (0, -1, 4), (1, 0, 7), (1, 0, 6), (0, 1, 1), (0, 1, 0), (-1, 0, 3), (-1, 0, 2)]
    for y in range(height):
        for x in range(width):
            for k, (dx, dy, other) in enumerate(over):
                links = [dart(x, y, k ^ 1), dart(x, y, (k + (1 if k % 2 else -1)) % 8), dart(x + dx, y + dy, other)]
                m.live[dart(x, y, k)] = (links, 4711 + (x + y) % 14)
    return m


def some_map(source):
    """Some map in the form: broken at random, or of sound links that may break the rule for two dimensions."""
    n, slots = source.choice((2, 3)), source.choice((1, 2, 4, 8, 16))
    m = maps.Map(n, slots)
    live = [slot for slot in range(slots) if source.random() < 0.8]
    links = {slot: [slot] * (n + 1) for slot in live}
    if source.random() < 0.4:
        links = {slot: [source.choice((slot, source.randrange(slots), source.randrange(65536))) for _ in range(n + 1)] for slot in live}
    else:
        for i in range(n + 1):
            free = source.sample(live, len(live))
            while len(free) > 1:
                a, b = free.pop(), free.pop()
                if source.random() < 0.8:
                    links[a][i], links[b][i] = b, a
    m.live = {slot: (links[slot], source.choice((0, 7, 0xFFFFFFFF))) for slot in live}
    return m


def broken(source, m):
    """A copy of a map with some of its links changed, or all of them, at times to no slot or to one that is unused."""
    m = copy.deepcopy(m)
    links = [(x, i) for x in sorted(m.live) for i in range(m.n + 1)]
    for x, i in source.sample(links, min(source.choice((1, 1, 2, 3, 6, len(links))), len(links))):
        m.live[x][0][i] = source.choice((x, source.choice(sorted(m.live)), source.randrange(m.slots), m.slots + source.randrange(3), 65535))
    return m


def small(records):
    return maps.map_of_text("n 2\nslots 8\n" + records)


def nowhere(path):
    """A map in which every link leads to no slot."""
    m = map_at(path)
    m.live = {x: ([65535] * len(links), tag) for x, (links, tag) in m.live.items()}
    return m


# (what is broken, the map, the darts with a ring, the number of crosses at each dart that has some)
BROKEN = [
    ("a link to no slot", small("0 9 0 0 7\n"), {0}, {0: 1}),
    ("the first slot that is not there", small("0 0 8 0 7\n"), {0}, {0: 1}),
    ("a link to an unused slot", small("0 1 0 0 7\n1 0 1 5 9\n"), {1}, {1: 1}),
    ("a link that does not lead back", small("0 1 0 0 7\n1 0 1 1 9\n2 2 1 2 9\n"), {2}, {2: 1}),
    ("a square that does not close", small("0 1 0 2 0\n1 0 1 1 0\n2 3 2 0 0\n3 2 3 3 0\n"), {0, 1, 2, 3}, {}),
    ("many faults", small("0 8 9 7 0\n1 0 2 900 0\n2 2 2 2 0\n"), {0, 1}, {0: 3, 1: 3}),
    ("every link, n = 2", nowhere("schemes/maps/bend.map"), set(range(16)), {x: 3 for x in range(16)}),
    ("every link, n = 3", nowhere("schemes/maps/plate.map"), set(range(8)), {x: 4 for x in range(8)}),
    ("nothing", map_at("schemes/maps/stack.map"), set(), {}),
]


def points_of(path):
    """The points of a path."""
    found = [float(x) for x in re.findall(NUMBER, path)]
    return list(zip(found[::2], found[1::2]))


class Seen:
    """What stands in the picture of one map: the discs of darts by slot, with rings around them, the lines and the numbers at ends by
    dimension, the middles of crosses, and the words of faults."""

    def __init__(self, svg):
        self.root = ElementTree.fromstring(svg)
        self.discs, self.said, self.marks, self.rings = {}, {}, {}, set()
        for group in self.root.iter(SVG + "g"):
            slot = int(group.find(SVG + "text").text)
            disc = group.findall(SVG + "circle")[-1]
            self.discs.setdefault(slot, []).append((float(disc.get("cx")), float(disc.get("cy"))))
            self.said.setdefault(slot, []).append(group.find(SVG + "title").text)
            self.marks.setdefault(slot, []).append(disc.get("class").split()[0])
            around = [circle for circle in group.findall(SVG + "circle") if circle.get("class") == "wrong"]
            if [(circle.get("cx"), circle.get("cy")) for circle in around] == [(disc.get("cx"), disc.get("cy"))]:
                self.rings.add(slot)
        self.lines = {i: self.lines_of(i) for i in range(4)}
        self.texts = [(text.get("class"), (float(text.get("x")), float(text.get("y"))), text.text) for text in self.root.iter(SVG + "text")]
        self.numbers = {i: [text for kind, _, text in self.texts if kind == f"n{i}"] for i in range(4)}
        self.faults = [text for kind, _, text in self.texts if kind == "fault"]
        paths = [path.get("d") for path in self.root.iter(SVG + "path") if path.get("class") == "wrong"]
        middles = [tuple(sum(part) / 2 for part in zip(*points_of(stroke))) for path in paths for stroke in re.findall("M[^M]*", path)]
        self.crosses = [one for one, other in zip(middles[::2], middles[1::2]) if math.dist(one, other) < 0.3]

    def lines_of(self, i):
        """The two ends of each line of a class."""
        found = []
        for path in self.root.iter(SVG + "path"):
            if path.get("class") == f"a{i}":
                for part in re.findall("M[^M]*", path.get("d")):
                    points = points_of(part)
                    found.append((points[0], points[-1]))
        return found

    def joins(self, i, x, y):
        """Whether a line of dimension i leads from the disc of x to that of y."""
        def at(p, slot):
            return abs(math.dist(p, self.discs[slot][0]) - DISC) < 0.3
        return any((at(p, x) and at(q, y)) or (at(p, y) and at(q, x)) for p, q in self.lines[i])

    def crosses_at(self, x):
        """The crosses at the end of a link of dart x."""
        return [p for p in self.crosses if abs(math.dist(p, self.discs[x][0]) - DISC - STUB) < 0.3]

    def numbered(self, x, i, y):
        """Whether the number y of dimension i stands at a cross of dart x."""
        near = wide(str(y), LETTERS) + 28
        return any(kind == f"n{i}" and text == str(y) and math.dist(at, p) < near for kind, at, text in self.texts for p in self.crosses_at(x))

    def covered(self):
        """The numbers at ends that lie on a dart."""
        numbers = [(x, y - 3.2, text) for kind, (x, y), text in self.texts if re.fullmatch("n[0-3]", kind)]  # y is their foot's
        return [text for x, y, text in numbers for discs in self.discs.values() for cx, cy in discs
                if math.hypot(max(abs(x - cx) - wide(text, LETTERS) / 2, 0), max(abs(y - cy) - 3.5, 0)) < DISC]


class Maps(Case):
    def apart(self, seen):
        """Discs lie on the paper and on no other."""
        width, height = float(seen.root.get("width")), float(seen.root.get("height"))
        places = sorted((*place, slot) for slot, found in seen.discs.items() for place in found)
        for k, (x, y, slot) in enumerate(places):
            self.assertTrue(DISC < x < width - DISC and DISC < y < height - DISC, slot)
            for a, b, other in places[k + 1:]:
                if a > x + 2 * DISC:
                    break
                self.assertGreater(math.hypot(x - a, y - b), 2 * DISC, (slot, other))

    def held(self, m):
        """The picture of a map has each dart once, apart from the others, and each link as a line or by its number; what is broken in the
        map is marked at its darts."""
        seen = Seen(draw_map.drawn([m]))
        self.assertEqual(sorted(seen.discs), sorted(m.live))
        self.apart(seen)
        sampled = False
        for i in range(m.n + 1):
            pairs = [(x, record[0][i]) for x, record in m.live.items() if record[0][i] != x]
            far = [(x, y) for x, y in pairs if not (y in m.live and seen.joins(i, x, y))]
            sound = [(x, y) for x, y in far if y in m.live and m.live[y][0][i] == x]
            shown = sorted(seen.numbers[i])
            if sound and not sampled:
                sampled = True
                shown.remove("12")  # the legend's sample
            self.assertEqual(sorted(str(y) for _, y in far), shown, f"dimension {i}")
            if i < 2:
                self.assertEqual(sound, [])
        self.marked(m, seen)

    def marked(self, m, seen):
        """A ring is around each dart that has a fault, a cross with a number at each link that is broken, and their words at the dart and
        below; nothing else is marked."""
        faults = explain.faults_at(m)
        self.assertEqual(seen.rings, set(faults))
        for x, (links, tag) in m.live.items():
            first = f"dart {x}: " + ", ".join(f"α{i} {y}" for i, y in enumerate(links)) + f", tag {tag}"
            self.assertEqual(seen.said[x], ["\n".join([first, *(f"broken: {words}" for words in faults.get(x, ()))])])
        ends = [(x, i, y) for x, (links, _) in m.live.items() for i, y in enumerate(links) if y not in m.live or m.live[y][0][i] != x]
        self.assertEqual(len(seen.crosses), len(ends))
        for x, i, y in ends:
            self.assertGreaterEqual(len(seen.crosses_at(x)), sum(x == other for other, _, _ in ends))
            self.assertTrue(seen.numbered(x, i, y), (x, i, y))
        self.assertEqual(seen.covered(), [])
        words = [f"slot {x}: {line}" for x in sorted(faults) for line in faults[x]]
        self.assertEqual(seen.faults[:draw_map.LISTED], words[:draw_map.LISTED])
        self.assertEqual([line.split(":")[0] for line in seen.faults[draw_map.LISTED:]],
                         [f"and {len(words) - draw_map.LISTED} more"] if len(words) > draw_map.LISTED else [])

    def test_samples(self):
        paths = sorted(glob.glob("schemes/maps/*.map"))
        self.assertGreaterEqual(len(paths), 8)
        for path in paths:
            with self.subTest(path):
                self.held(map_at(path))

    def test_outcomes(self):
        for name in names():
            with self.subTest(name):
                (before, after), _, edit = sample(name)
                self.held(after)
                seen = Seen(data_of(f"schemes/pictures/{name}-sample.svg"))
                self.assertEqual({slot: len(found) for slot, found in seen.discs.items()},
                                 {slot: (slot in before.live) + (slot in after.live) for slot in {*before.live, *after.live}})
                self.assertEqual(seen.marks, {slot: ["gone" if slot in edit.deleted else "dart"] * (slot in before.live)
                                              + ["new" if slot in edit.new else "dart"] * (slot in after.live) for slot in seen.marks})
                self.apart(seen)

    def test_large(self):
        for width, height in ((5, 3), (16, 8)):
            m = torus(width, height)
            self.held(m)
        self.assertEqual(len(m.live), 1024)

    def test_any_map_is_drawn(self):
        source = random.Random(4711)
        for _ in range(60):
            m, other = some_map(source), some_map(source)
            seen = Seen(draw_map.drawn([m]))
            self.assertEqual(sorted(seen.discs), sorted(m.live))
            other = other if other.n == m.n else m
            for new in ((), source.sample(sorted(other.live), len(other.live) // 2)):
                seen = Seen(draw_map.drawn([m, other], new=new))
                self.assertEqual(sorted(seen.discs), sorted({*m.live, *other.live}))

    def test_broken(self):
        path, out = self.file("a.map", "n 2\nslots 8\n0 1 0 0 7\n1 0 5 900 7\n"), self.path("a.svg")
        self.assertEqual(run("tools/map", "draw", path, "-o", out).returncode, 0)
        texts = [text.text for text in ElementTree.fromstring(data_of(out)).iter(SVG + "text")]
        for said in ("slot 1: α1 leads to 5, which is unused", "slot 1: α2 leads to 900, and there are 8 slots", "900", "5"):
            self.assertIn(said, texts)
        self.assertTrue(any(text.startswith("broken: ") for text in texts))

    def test_each_fault_is_marked(self):
        for what, m, rings, crosses in BROKEN:
            with self.subTest(what):
                self.held(m)
                seen = Seen(draw_map.drawn([m]))
                self.assertEqual((seen.rings, {x: len(seen.crosses_at(x)) for x in m.live if seen.crosses_at(x)}), (rings, crosses))

    def test_broken_maps(self):
        """Sample maps with links changed at random: what is broken is marked, and each kind of fault is among them."""
        source, said = random.Random(4713), ""
        stored = [map_at(path) for path in sorted(glob.glob("schemes/maps/*.map"))]
        for _ in range(300):
            m = broken(source, source.choice(stored))
            self.held(m)
            said += "\n".join(words for _, words in explain.map_faults(m)) + "\n"
        for words in ("and there are [0-9]+ slots", "which is unused", "whose α[0-3] leads to [0-9]+ and not back", "α0, α2, α0, α2 lead",
                      "α0, α3, α0, α3 lead", "α1, α3, α1, α3 lead"):
            self.assertGreater(len(re.findall(words, said)), 20, words)

    def test_broken_before_and_after(self):
        """Each of two maps has its own marks, and the words say which map they are of."""
        bend = map_at("schemes/maps/bend.map")
        for k, when in enumerate(("before", "after")):
            pair = [bend, bend]
            pair[k] = map_at("docs/pictures/broken.map")
            seen = Seen(draw_map.drawn(pair))
            self.assertEqual((seen.rings, len(seen.crosses)), ({2, 15}, 2))
            self.assertEqual([words.split(":")[:2] for words in seen.faults], [[when, " slot 2"], [when, " slot 15"]])

    def test_free_and_pointed(self):
        svg = draw_map.drawn([map_at("schemes/maps/lone.map")], [0])
        self.assertIn("free: the link leads to its own dart", svg)
        self.assertIn(">the dart pointed at<", svg)
        self.assertEqual(svg.count('class="pointed"'), 2)  # the dart and the legend

    def test_two_are_pointed_at(self):
        """Both darts have the ring, before the edit alone, and the legend says which is the first."""
        pair = [map_at("schemes/maps/two-pieces.map"), map_at("schemes/maps/bend.map")]
        for darts in ([2, 15], [15, 2]):
            root = ElementTree.fromstring(draw_map.drawn(pair, darts))
            rings = [int(group.find(SVG + "text").text) for group in root.iter(SVG + "g")
                     for circle in group.findall(SVG + "circle") if circle.get("class") == "pointed"]
            self.assertEqual(rings, [2, 15])
            self.assertEqual(sum(circle.get("class") == "pointed" for circle in root.iter(SVG + "circle")), 3)  # and the legend
            self.assertIn(f"the darts pointed at: {darts[0]}, then {darts[1]}", [text.text for text in root.iter(SVG + "text")])

    def test_before_and_after(self):
        """Deleted and new darts are marked, and the darts of a face that keeps its form stay at their places."""
        bend, split = map_at("schemes/maps/bend.map"), map_at("schemes/maps/bend-split.map")
        for pair, once, mark in (((bend, split), {16, 17, 18, 19}, "new"), ((split, bend), {16, 17, 18, 19}, "gone")):
            seen = Seen(draw_map.drawn(list(pair)))
            self.assertEqual({slot for slot, marks in seen.marks.items() if marks == [mark]}, once)
            self.assertEqual({slot for slot, marks in seen.marks.items() if marks == ["dart", "dart"]}, set(range(16)))
            ways = [(after[0] - before[0], after[1] - before[1]) for before, after in (seen.discs[x] for x in range(16))]
            self.assertLess(max(math.dist(way, ways[0]) for way in ways), 0.3)

    def test_a_slot_that_is_taken_again(self):
        """A new dart in the slot of a deleted one: with the edit the old one is marked as deleted and the new one as new; without it they are taken
        for one dart."""
        stored, by_slots = Seen(data_of("schemes/pictures/trim-flange-sample.svg")), Seen(draw_map.drawn(sample("trim-flange")[0]))
        stays, taken, free = range(8), range(8, 14), range(14, 16)
        for seen, marks in ((stored, ["gone", "new"]), (by_slots, ["dart", "dart"])):
            self.assertEqual(seen.marks, {**{x: ["dart", "dart"] for x in stays}, **{x: marks for x in taken}, **{x: ["gone"] for x in free}})
        self.assertEqual([sum(text == words for _, _, text in stored.texts) for words in ("deleted", "new")], [1, 1])
        self.assertEqual([sum(text == words for _, _, text in by_slots.texts) for words in ("deleted", "new")], [1, 0])

    def test_new_faces_have_places_of_their_own(self):
        """A piece goes and darts alone come: in its slots they are drawn at the same places as in slots that were unused."""
        before, after, beyond = (map_at("schemes/maps/two-pieces.map") for _ in range(3))
        stays, taken = range(8), range(8, 16)
        after.live.update({x: ([x] * 3, 4712) for x in taken})
        beyond.live = {x + 8 if x in taken else x: ([x + 8] * 3, tag) if x in taken else (links, tag) for x, (links, tag) in after.live.items()}
        seen, there, by_slots = (Seen(draw_map.drawn([before, m], new=new)) for m, new in ((after, taken), (beyond, ()), (after, ())))
        self.assertEqual({x: seen.discs[x] for x in stays}, {x: there.discs[x] for x in stays})
        self.assertEqual({x: seen.discs[x] for x in taken}, {x: there.discs[x] + there.discs[x + 8] for x in taken})
        self.assertNotEqual(by_slots.discs, seen.discs)
        kept = set(stays)
        layouts = laid_out([before, after], kept)
        self.assertEqual(cost(layouts, kept)[1], 0)
        self.assertGreater(cost(layouts, kept | set(taken))[1], 0)

    def test_a_face_is_turned_by_what_stays(self):
        """Two edges of a face change places, one of them by new darts in its old slots: the other is drawn where it was."""
        before, after = map_at("schemes/maps/square.map"), map_at("schemes/maps/square.map")
        to = {0: 2, 1: 3, 2: 0, 3: 1}
        after.live = {to.get(x, x): ([to.get(y, y) for y in links], tag) for x, (links, tag) in before.live.items()}
        pitch = draw_map.TITLE + 2 * draw_map.MARGIN
        for new, still in (((0, 1), {2, 3}), ((), {0, 1})):
            seen = Seen(draw_map.drawn([before, after], new=new))
            self.assertEqual({x for x, (here, there) in seen.discs.items() if math.dist((here[0] + pitch, here[1]), there) < 0.3}, still)

    def test_tags(self):
        m = torus(5, 3)
        svg = draw_map.drawn([m])
        for k, tag in enumerate(sorted({record[1] for record in m.live.values()})):
            count = sum(record[1] == tag for record in m.live.values())
            self.assertIn(f">tag {tag}: {count} darts<", svg)
            self.assertEqual(len(re.findall(f'<circle class="dart t{k}"', svg)), count)
        fills = re.findall(r"\.t[0-9]+\{fill:(#[0-9a-f]+)\}", draw_map.drawn([torus(14, 1)]))
        self.assertEqual(len(set(fills)), 14)


class Schemes(Case):
    def without_places(self, svg):
        """The elements of a picture in order, with all but their places."""
        return [(element.tag, "" if element.tag == SVG + "metadata" else element.text,
                 sorted((key, value) for key, value in element.attrib.items() if key not in PLACES))
                for element in ElementTree.fromstring(svg).iter()]

    def test_graphviz_lays_out_the_catalogue(self):
        """With the places that the Graphviz of this machine gives, a picture is the stored one but for places."""
        for name in names():
            with self.subTest(name):
                out = self.path("a.svg")
                done = run("tools/scheme", "draw", f"schemes/{name}.scheme", "-o", out)
                self.assertEqual((done.returncode, done.stderr), (0, ""))
                self.assertEqual(self.without_places(data_of(out)), self.without_places(data_of(f"schemes/pictures/{name}.svg")))

    def test_texts_and_classes(self):
        """Each node stands on its sides with its word and kind, each arc with its colour."""
        for name in names():
            with self.subTest(name):
                s = scheme_in(data_of(f"schemes/{name}.scheme"))
                root = ElementTree.fromstring(data_of(f"schemes/pictures/{name}.svg"))
                texts = [(text.get("class"), text.text) for text in root.iter(SVG + "text")]
                sides = [[(v, node) for v, node in enumerate(s.nodes) if node[0] != absent] for absent in (3, 1)]
                self.assertEqual([text for kind, text in texts if kind == "node"], [str(v) for side in sides for v, _ in side])
                if s.orbit:
                    words = ["⟨" + ",".join("_" if d == 255 else str(d) for d in node[1 + k]) + "⟩" for k, side in enumerate(sides) for _, node in side]
                    self.assertEqual([text for kind, text in texts if kind == "word"], [*words, "⟨..⟩"])
                lots = [f"lot of {s.donors[v]}" for v, node in enumerate(s.nodes) if node[0] == 3] + ["lot of v"] if s.donors else []
                self.assertEqual([text for kind, text in texts if kind == "lot"], lots)
                self.assertEqual(sum(text == "takes the lot that the dart of node v had" for _, text in texts), bool(lots))
                rings = [element for element in root.iter() if element.get("class") == "ring"]
                self.assertEqual(len(rings), 2 * len(s.hooks()))  # on the left and in the legend
                two = ["hook 0: the first dart pointed at", f"hook {s.second}: the second dart pointed at"]
                hooks = ["hook: the dart pointed at"] if s.second is None else two
                self.assertEqual([text for _, text in texts if text.startswith("hook")], hooks)
                for i in range(4):
                    arcs = sum(arc[0] == i for side in s.arcs.values() for arc in side)
                    lines = sum(path.get("class") == f"a{i}" for path in root.iter(SVG + "path"))
                    self.assertEqual(lines, arcs + (arcs > 0), f"dimension {i}")  # and one in the legend

    def test_rings(self):
        """The ring of a hook is around its node on the left and has its kind's shape; no other node has one."""
        for second, kind in ((1, "ellipse"), (2, "rect")):
            nodes = "node 0 preserved 0 -> 0\nnode 1 preserved 0 -> 0\nnode 2 deleted 0 ->\nnode 3 added -> 0\n"
            path, out = self.file("a.scheme", f"n 2\norbit 0\n{nodes}hook {second}\n"), self.path("a.svg")
            self.assertEqual(run("tools/scheme", "draw", path, "-o", out).returncode, 0)
            root = ElementTree.fromstring(data_of(out))
            drawn = list(root.iter())
            rings = [(k, element) for k, element in enumerate(drawn) if element.get("class") == "ring"]
            self.assertEqual([element.tag for _, element in rings], [SVG + shape for shape in ("ellipse", kind) * 2])
            numbers = [next(element.text for element in drawn[k:] if element.get("class") == "node") for k, _ in rings[:2]]
            self.assertEqual(numbers, ["0", str(second)])

    def picture_of(self, text):
        """The picture of a scheme's text."""
        path, out = self.file("a.scheme", text), self.path("a.svg")
        self.assertEqual(run("tools/scheme", "draw", path, "-o", out).returncode, 0)
        return data_of(out).decode()

    def lots_of(self, svg):
        """For each line of a lot in the shape of a node: the node's number, the line, whether it lies in the shape, below the number and below the
        word, and the half of the picture."""
        root = ElementTree.fromstring(svg)
        drawn, found, number, shape, last = list(root.iter()), [], None, None, None
        for element in drawn:
            if element.get("class") in ("preserved", "deleted", "added") and element.get("height") == "46":
                shape = element
            elif element.get("class") == "node":
                number = last = element
            elif element.get("class") == "word" and number is not None:
                last = element
            elif element.get("class") == "lot" and element.text != "lot of v":
                left, top, y = float(shape.get("x")), float(shape.get("y")), float(element.get("y"))
                inside = left + wide(element.text, 10) / 2 < float(element.get("x")) < left + 88 - wide(element.text, 10) / 2 and y < top + 44
                found.append((number.text, element.text, inside and y - float(last.get("y")) >= 10 and float(number.get("y")) > top + 12,
                              float(element.get("x")) > float(root.get("width")) / 2))
        return found

    def test_donors(self):
        """An added node has the number of its donor below its number and its word, in its shape, on the right, and no other node has one; the
        legend says what it is."""
        for orbit, word in ((" 0 2", " 0 2"), ("", "")):
            nodes = f"n 2\norbit{orbit}\nnode 0 preserved{word} ->{word}\nnode 1 added ->{word}\nnode 2 deleted{word} ->\nnode 3 added ->{word}\n"
            svg = self.picture_of(nodes + "donors 1:2 3:0\nright 0: 0-1 1-3\n")
            self.assertEqual(self.lots_of(svg), [("1", "lot of 2", True, True), ("3", "lot of 0", True, True)])
            self.assertEqual(svg.count(">takes the lot that the dart of node v had<"), 1)
            self.assertNotEqual(svg, self.picture_of(nodes + "donors 1:2 3:2\nright 0: 0-1 1-3\n"))
            without = self.picture_of(nodes + "right 0: 0-1 1-3\n")
            self.assertNotIn("lot", without)
        pair = "n 2\norbit 0\nnode 0 preserved 0 -> 0\nnode 1 preserved 0 -> 0\n"
        self.assertEqual(self.picture_of(pair + "donors\n"), self.picture_of(pair))  # no node is added, so none has a donor

    def test_any_scheme_is_drawn(self):
        """Sixteen nodes, every arc, two arcs of a dimension, loops, empty sides, a second hook, donors."""
        nodes = "".join(f"node {v} preserved 0 1 2 3 -> _ _ 2 3\n" for v in range(16))
        arcs = "left 0: 0-0 0-1 0-2 1-1 0-15\nright 1: 0-1 2-9 9-9\nright 2: 0-1\nright 3: 0-1 15-15\n"
        added = "".join(f"node {v} added -> 0 1 2 3\n" for v in range(15)) + "node 15 deleted 0 1 2 3 ->\n"
        donors = "donors " + " ".join(f"{v}:15" for v in range(15)) + "\n"
        for text in ("n 3\norbit 0 1 2 3\n" + nodes + arcs, "n 3\norbit 0 1 2 3\n" + nodes + "hook 15\n" + arcs, "n 2\norbit\nnode 0 added ->\n",
                     "n 3\norbit 0 1 2 3\n" + added + donors + "right 0: 0-0 0-1 0-14\n", "n 2\norbit\nnode 0 preserved ->\ndonors\n",
                     "n 2\norbit\nnode 0 deleted ->\nleft 0: 0-0\nleft 1: 0-0\nleft 2: 0-0\n"):
            path, out = self.file("a.scheme", text), self.path("a.svg")
            done = run("tools/scheme", "draw", path, "-o", out)
            self.assertEqual((done.returncode, done.stderr), (0, ""))
            ElementTree.fromstring(data_of(out))

    def test_bytes_are_drawn(self):
        run("tools/scheme", "assemble", "schemes/add-flange.scheme", "-o", self.path("a.bytes"))
        for source, out in (("schemes/add-flange.scheme", "a.svg"), (self.path("a.bytes"), "b.svg")):
            self.assertEqual(run("tools/scheme", "draw", source, "-o", self.path(out)).returncode, 0)
        self.assertEqual(data_of(self.path("a.svg")), data_of(self.path("b.svg")))

    def test_drawn_from_its_own_layout(self):
        for name in names():
            svg = data_of(f"schemes/pictures/{name}.svg").decode()
            self.assertEqual(draw_scheme.drawn(scheme_in(data_of(f"schemes/{name}.scheme")), graphviz.drawn_before(svg)), svg)


class Catalogue(Case):
    """What `tools/catalogue check` says of a copy, of the introduction and of some operations, their texts without bytes lines, in which
    one thing was changed."""

    KEPT = ("add-flange", "drop-piece", "join-flanges-by-strip", "look-at-edge", "merge-faces", "sew-edges", "split-edge", "trim-flange")
    CHANGES = [
        ("a word", "schemes/split-edge.scheme", "-> 1 2", "-> 2 1", "split-edge.svg: it is not what is drawn now"),
        ("a kind", "schemes/drop-piece.scheme", "deleted 0 1 2 ->", "preserved 0 1 2 -> 0 1 2", "drop-piece.svg: it is not what is drawn now"),
        ("an arc less", "schemes/add-flange.scheme", "2-2 ", "", "add-flange.svg: its arcs are not the scheme's"),
        ("an arc of another dimension", "schemes/merge-faces.scheme", "right 1: 1-3", "right 2: 1-3", "merge-faces.svg: its arcs are not the scheme's"),
        ("a node more", "schemes/split-edge.scheme", "right 0", "node 2 added -> 1 2\nright 0", "split-edge.svg: its nodes are not the scheme's"),
        ("the orbit type", "schemes/look-at-edge.scheme", "n 2\norbit", "n 3\norbit", "look-at-edge.svg: it is not what is drawn now"),
        ("a link of the sample", "schemes/look-at-edge.outcome", "   0  1  7  0 4711", "   0  1  7  1 4711",
         "look-at-edge-sample.svg: it is not what is drawn now"),
        ("a tag of the sample", "schemes/split-edge.outcome", "  16  2 17 19 4711", "  16  2 17 19 4712", "split-edge-sample.svg: it is not what is drawn now"),
        ("the dart", "schemes/split-edge.outcome", "dart 2", "dart 3", "split-edge-sample.svg: it is not what is drawn now"),
        ("the second hook", "schemes/sew-edges.scheme", "hook 1\n", "", "sew-edges.svg: it is not what is drawn now"),
        ("a donor", "schemes/join-flanges-by-strip.scheme", "4:1", "4:0", "join-flanges-by-strip.svg: it is not what is drawn now"),
        ("a donor that goes", "schemes/trim-flange.scheme", "5:1", "5:0", "trim-flange.svg: it is not what is drawn now"),
        ("no donors", "schemes/join-flanges-by-strip.scheme", "donors 2:0 3:0 4:1 5:1\n", "", "join-flanges-by-strip.svg: it is not what is drawn now"),
        ("donors that were not there", "schemes/add-flange.scheme", "left 2", "donors 1:0 2:0 3:0 4:0\nleft 2", "add-flange.svg: it is not what is drawn now"),
        ("a donor's number in a picture", "schemes/pictures/trim-flange.svg", ">lot of 1<", ">lot of 0<", "trim-flange.svg: it is not what is drawn now"),
        ("a lot of the strip", "schemes/join-flanges-by-strip.outcome", "  18 17 19 18 4712", "  18 17 19 18 4711",
         "join-flanges-by-strip-sample.svg: it is not what is drawn now"),
        ("the second dart", "schemes/sew-edges.outcome", "dart 11 16", "dart 11 17", "sew-edges-sample.svg: it is not what is drawn now"),
        ("the order of the darts", "schemes/sew-edges.outcome", "dart 11 16", "dart 16 11", "sew-edges-sample.svg: it is not what is drawn now"),
        ("one dart more", "schemes/sew-edges.outcome", "dart 11 16", "dart 11 16 17", "schemes/sew-edges.outcome:1: expected lines 'map ..' and 'dart ..'"),
        ("the map", "schemes/maps/bend.map", "15 14  8  2  4712", "15 14  8  2  4711", "merge-faces-sample.svg: it is not what is drawn now"),
        ("a text in a picture", "schemes/pictures/split-edge.svg", ">⟨1,2⟩<", ">⟨1,_⟩<", "split-edge.svg: it is not what is drawn now"),
        ("a line in a picture", "schemes/pictures/split-edge-sample.svg", '<path class="a1"', '<path class="a0"',
         "split-edge-sample.svg: it is not what is drawn now"),
        ("nodes on each other", "schemes/pictures/split-edge.svg", None, r"node 1 \S+ \S+|node 1 50 40", "split-edge.svg: nodes 0 and 1 lie on each other"),
        ("an arc that ends elsewhere", "schemes/pictures/split-edge.svg", None, r"(arc 0 0 1 .*) \S+ \S+\n|\1 300 300\n",
         "split-edge.svg: arc 0: 0-1 does not end at its nodes"),
        ("no layout", "schemes/pictures/split-edge.svg", "<metadata>", "<desc>", "split-edge.svg: found no layout in the picture"),
        ("no numbers", "schemes/pictures/split-edge.svg", "node 1 ", "node one ", "split-edge.svg: found 'node one"),
        ("no picture", "schemes/pictures/drop-piece.svg", None, None, "drop-piece.svg: there is no picture"),
        ("no sample", "schemes/pictures/drop-piece-sample.svg", None, None, "drop-piece-sample.svg: it is not what is drawn now"),
        ("an operation without pictures", "schemes/pictures/fold-edge.svg", "", "x", "fold-edge.svg: there is no operation of this name"),
        ("the page", "schemes/README.md", "](pictures/drop-piece.svg)", "](pictures/split-edge.svg)",
         "schemes/README.md: it lacks these lines:\n### drop-piece\n"),
        ("words of the page", "schemes/README.md", "at dart 2: The bend line", "at dart 3: The bend line",
         "schemes/README.md: it lacks these lines:\nOn [bend](maps/bend.map) at dart 2"),
        ("darts of the page", "schemes/README.md", "at darts 11 and 16: ", "at dart 11: ",
         "schemes/README.md: it lacks these lines:\nOn [pan](maps/pan.map) at darts 11 and 16"),
        ("what the sample deletes", "schemes/trim-flange.scheme", "node 4 deleted   0 ->", "node 4 preserved 0 -> 0",
         "trim-flange-sample.svg: it is not what is drawn now"),
        ("a scheme out of its form", "schemes/drop-piece.scheme", "deleted 0 1 2", "deleted 0 1",
         "schemes/drop-piece.outcome:1: its scheme is not in the form"),
        ("one dart less", "schemes/sew-edges.outcome", "dart 11 16", "dart 11",
         "schemes/sew-edges.outcome:1: it has two hooks, nodes 0 and 1, and one dart was given"),
        ("a dart that is not there", "schemes/split-edge.outcome", "dart 2", "dart 23", "schemes/split-edge.outcome:1: slot 23 is unused"),
        ("a scheme for other maps", "schemes/look-at-edge.scheme", "n 2\norbit", "n 3\norbit",
         "schemes/look-at-edge.outcome:1: the scheme is for n = 3, the map has n = 2"),
        ("a sample map that is broken", "schemes/maps/two-pieces.map", "2   3  1  2", "2   3  1 16",
         "schemes/drop-piece.outcome:1: the map is not well-formed"),
        ("an outcome", "schemes/drop-piece.outcome", "\nslot ", "\nslots ", "schemes/drop-piece.outcome:1: expected a line 'slot ..'"),
        ("a record", "schemes/drop-piece.outcome", "   8  9", "   x  9", "schemes/drop-piece.outcome:8: found 'x 9 15 8 4712', expected 5 numbers"),
        ("a link of a map", "docs/pictures/broken.map", "2   3  1 99", "2   3  1 15", "docs/pictures/broken.svg: it is not what is drawn now"),
        ("a record of a map", "docs/pictures/broken.map", "2   3  1 99", "2   x  1 99",
         "docs/pictures/broken.map:13: found '2 x 1 99 4711', expected 5 numbers"),
        ("a mark in a map's picture", "docs/pictures/broken.svg", '<circle class="wrong"', '<circle class="dart"',
         "docs/pictures/broken.svg: it is not what is drawn now"),
        ("no picture of a map", "docs/pictures/broken.svg", None, None, "docs/pictures/broken.svg: it is not what is drawn now"),
        ("the introduction", "docs/INTRODUCTION.md", "](pictures/broken.svg)", "](pictures/split.svg)",
         "docs/INTRODUCTION.md: it lacks these lines:\n](pictures/broken.svg)"),
    ]

    def setUp(self):
        super().setUp()
        for folder in ("schemes", "docs"):
            shutil.copytree(os.path.join(ROOT, folder), self.path(folder))
        for name in set(names()) - set(self.KEPT):
            for end in (f"{name}.scheme", f"{name}.outcome", f"pictures/{name}.svg", f"pictures/{name}-sample.svg"):
                os.remove(self.path("schemes/" + end))
        for name in self.KEPT:
            text = data_of(self.path(f"schemes/{name}.scheme")).decode()
            self.file(f"schemes/{name}.scheme", re.sub("^bytes.*\n", "", text, flags=re.M))
        loader = SourceFileLoader("catalogue", "tools/catalogue")
        self.tool = module_from_spec(spec_from_loader("catalogue", loader))
        loader.exec_module(self.tool)
        for name, path in (("SCHEMES", "schemes"), ("PICTURES", "schemes/pictures"), ("PAGE", "schemes/README.md"), ("DOCS", "docs")):
            setattr(self.tool, name, self.path(path))

    def check(self, word="check"):
        """The tool's exit status and what it says."""
        with contextlib.redirect_stderr(io.StringIO()) as said:
            return self.tool.main([word]), said.getvalue()

    def change(self, path, old, new):
        """Replaces a text, or by 'pattern|text' where old is None; without both removes the file."""
        path = self.path(path)
        if old is None and new is None:
            os.remove(path)
            return
        text = data_of(path).decode() if os.path.exists(path) else ""
        changed = re.sub(*new.split("|"), text, count=1) if old is None else text.replace(old, new, 1)
        self.assertNotEqual(changed, text)
        with open(path, "w", encoding="utf-8") as file:
            file.write(changed)

    def test_stored(self):
        done = run("tools/catalogue", "check")
        self.assertEqual((done.returncode, done.stdout, done.stderr), (0, "", ""))
        self.assertGreaterEqual(len(names()), 12)
        self.assertEqual(self.tool.map_names(), ["broken"])
        for path in glob.glob("schemes/pictures/*"):
            self.assertLess(os.path.getsize(path), 40000, path)

    def test_changes_are_seen(self):
        for what, path, old, new, said in self.CHANGES:
            with self.subTest(what):
                there = os.path.exists(self.path(path))
                before = data_of(self.path(path)) if there else None
                self.change(path, old, new)
                status, complaint = self.check()
                self.assertEqual(status, 1)
                self.assertIn(said, complaint)
                if there:
                    self.file(path, before)
                else:
                    os.remove(self.path(path))
                self.assertEqual(self.check(), (0, ""))

    def test_colours_are_seen(self):
        for part, key, picture in ((look.LINK, 0, "split-edge.svg"), (look.LINK, 2, "split-edge-sample.svg"), (look.DASHES, 1, "merge-faces.svg"),
                                   (look.KIND, "added", "add-flange.svg"), (look.KIND, "deleted", "drop-piece.svg")):
            with self.subTest(picture), unittest.mock.patch.dict(part, {key: "#123456"}):
                self.assertIn(f"{picture}: it is not what is drawn now", self.check()[1])
        with unittest.mock.patch.object(look, "TAGS", look.TAGS[::-1]):
            self.assertIn("split-edge-sample.svg: it is not what is drawn now", self.check()[1])
        self.assertEqual(self.check(), (0, ""))

    def test_without_graphviz(self):
        """Neither a check nor drawing what has its layout asks Graphviz; what has none says what is lacking."""
        with unittest.mock.patch.dict(os.environ, PATH=self.folder):
            for word in ("check", "draw", "check"):
                self.assertEqual(self.check(word), (0, ""))
            os.remove(self.path("schemes/pictures/split-edge.svg"))
            with self.assertRaisesRegex(Trouble, "a scheme is laid out by Graphviz, and its command dot does not start: No such file or directory"):
                self.check("draw")
        self.assertFalse(os.path.exists(self.path("schemes/pictures/split-edge.svg")))

    def test_drawn_anew(self):
        shutil.rmtree(self.path("schemes/pictures"))
        os.remove(self.path("docs/pictures/broken.svg"))
        self.assertEqual(self.check("draw"), (0, ""))
        self.assertEqual(self.check(), (0, ""))


class Use(Case):
    def test_same_bytes(self):
        """Neither the order of sets, nor the form of the input, nor where it lies, is in a picture."""
        run("tools/map", "assemble", "schemes/maps/pan.map", "-o", self.path("b.gmap"))
        drawn = set()
        for k, path in enumerate(("schemes/maps/pan.map", self.path("b.gmap"), os.path.abspath("schemes/maps/pan.map"))):
            out = self.path("a.svg")
            self.assertEqual(run("tools/map", "draw", path, "-o", out, env=dict(os.environ, PYTHONHASHSEED=str(k), LC_ALL="C")).returncode, 0)
            drawn.add(data_of(out))
        self.assertEqual(len(drawn), 1)

    def test_last_bits(self):
        """Libraries that differ in the last bits of a sine, a cosine, an angle or a length give the same bytes."""
        for k in (-1, 1):
            with contextlib.ExitStack() as stack:
                for name, exact in (("sin", math.sin), ("cos", math.cos), ("atan2", math.atan2), ("hypot", math.hypot)):
                    stack.enter_context(unittest.mock.patch.object(math, name, lambda *x, exact=exact: exact(*x) * (1 + k * 4e-16)))
                for operation in names():
                    both, darts, edit = sample(operation)
                    self.assertEqual(draw_map.drawn(both, darts, edit.new).encode(), data_of(f"schemes/pictures/{operation}-sample.svg"), operation)
                self.assertEqual(draw_map.drawn([map_at("docs/pictures/broken.map")]).encode(), data_of("docs/pictures/broken.svg"))

    def test_apply_draws(self):
        done = run("tools/apply", "schemes/maps/bend.map", "split-edge", "2", "--draw", self.path("a.svg"))
        self.assertEqual((done.returncode, done.stderr), (0, ""))
        self.assertEqual(data_of(self.path("a.svg")), data_of("schemes/pictures/split-edge-sample.svg"))
        done = run("tools/apply", "schemes/maps/pan.map", "sew-edges", "11", "16", "--draw", self.path("a.svg"))
        self.assertEqual((done.returncode, done.stderr), (0, ""))
        self.assertEqual(data_of(self.path("a.svg")), data_of("schemes/pictures/sew-edges-sample.svg"))
        done = run("tools/apply", "schemes/maps/bend-full.map", "trim-flange", "2", "-o", self.path("a.map"), "--draw", self.path("a.svg"))
        self.assertEqual((done.returncode, done.stderr), (0, ""))
        self.assertEqual(data_of(self.path("a.svg")), data_of("schemes/pictures/trim-flange-sample.svg"))
        run("tools/map", "draw", "schemes/maps/bend-full.map", self.path("a.map"), "-o", self.path("a.svg"))
        self.assertEqual(data_of(self.path("a.svg")).decode(), draw_map.drawn(sample("trim-flange")[0]))
        done = run("tools/apply", "schemes/maps/bend.map", "split-edge", "23", "--draw", self.path("b.svg"))
        self.assertEqual(done.returncode, 1)
        self.assertFalse(os.path.exists(self.path("b.svg")))

    def test_no_graphviz(self):
        done = run(sys.executable, "tools/scheme", "draw", "schemes/split-edge.scheme", "-o", self.path("a.svg"), env=dict(os.environ, PATH=self.folder))
        self.assertEqual((done.returncode, done.stderr), (
            2, "scheme: a scheme is laid out by Graphviz, and its command dot does not start: No such file or directory\n"))
        self.assertFalse(os.path.exists(self.path("a.svg")))

    def test_faults(self):
        bad, form, bad_scheme = self.file("a.map", "n 2\nslots 8\n0 0\n"), self.file("a.gmap", b"\2\1"), self.file("a.scheme", "n 2\norbit 3\n")
        good = "schemes/maps/bend.map"
        for words, said in ((("tools/map", "draw", bad), f"{bad}:3: found '0 0', expected 5 numbers: slot, 3 links, tag\n"),
                            (("tools/map", "draw", good, bad), f"{bad}:3: found '0 0', expected 5 numbers: slot, 3 links, tag\n"),
                            (("tools/map", "draw", form), f"{form}:byte 3: found the end, expected the number of slots\n"),
                            (("tools/map", "draw", good, "schemes/maps/plate.map"), f"schemes/maps/plate.map: found n = 3, expected n = 2 as in {good}\n"),
                            (("tools/map", "draw", "no/such"), "no/such: No such file or directory\n"),
                            (("tools/map", "draw", good, "no/such"), "no/such: No such file or directory\n"),
                            (("tools/scheme", "draw", bad_scheme), f"{bad_scheme}:2:7: found '3', expected a dimension 0, 1 or 2\n"),
                            (("tools/scheme", "draw", "no/such"), "no/such: No such file or directory\n")):
            done = run(*words, "-o", self.path("out.svg"))
            self.assertEqual((done.returncode, done.stdout, done.stderr), (1, "", said), words)
        done = run("tools/map", "draw", good, "-o", "no/such/a.svg")
        self.assertEqual(done.returncode, 1)
        self.assertEqual(sorted(os.listdir(self.folder)), ["a.gmap", "a.map", "a.scheme"])

    def test_use(self):
        bend = "schemes/maps/bend.map"
        for words in (("tools/map", "draw", bend), ("tools/map", "draw", "-o", "a"), ("tools/map", "draw", bend, bend, bend, "-o", "a"),
                      ("tools/scheme", "draw", "schemes/split-edge.scheme"), ("tools/scheme", "draw", "schemes/split-edge.scheme", "-x", "a"),
                      ("tools/apply", bend, "split-edge", "2", "--draw"), ("tools/apply", bend, "split-edge", "2", "-o", "a.map", "--draw", "a.map"),
                      ("tools/catalogue",), ("tools/catalogue", "paint"), ("tools/catalogue", "draw", "x")):
            self.assertEqual(run(*words).returncode, 2, words)
        self.assertFalse(os.path.exists("a"))
        for tool in ("map", "scheme", "apply", "catalogue"):
            self.assertIn("draw", run(f"tools/{tool}", "--help").stdout)


if __name__ == "__main__":
    sys.exit(unittest.main())
