"""Where the nodes and arcs of a scheme are drawn, by Graphviz. Both sides have one layout, so that a node that stays is at one place.

Releases of Graphviz place things differently. A picture therefore holds its own layout in its metadata, and can be drawn anew from that."""
import json
import math
import re
import subprocess

from gmap.files import Fault, Trouble
from gmap.scheme import KINDS
from gmap.svg import number

WIDE, HIGH = 88.0, 46.0  # a node
SHAPE = {KINDS["preserved"]: "ellipse", KINDS["deleted"]: "box", KINDS["added"]: "box"}
NEAR = 14.0  # an arc ends at most so far from its nodes
GRAPH = 'nodesep=0.55; ranksep=0.42; splines=true; node [fixedsize=true width={:.3f} height={:.3f} label=""]; edge [fontsize=11 label="0"];'


def arcs_of(s):
    """The arcs of both sides, each once."""
    return sorted({*s.arcs["left"], *s.arcs["right"]})


class Layout:
    """Places of nodes, and for each arc its curve as points of Bézier parts and the place of its label; y runs downwards."""

    def __init__(self, nodes, arcs):
        self.nodes, self.arcs = nodes, arcs

    def text(self):
        """One line for each node and arc."""
        def numbers(points):
            return " ".join(number(x) for p in points for x in p)
        lines = [f"node {v} {numbers([p])}" for v, p in sorted(self.nodes.items())]
        lines += [f"arc {' '.join(map(str, arc))} {numbers([label, *curve])}" for arc, (label, curve) in sorted(self.arcs.items())]
        return "\n".join(lines) + "\n"

    def bounds(self):
        points = [(x + dx, y + dy) for x, y in self.nodes.values() for dx in (-WIDE / 2, WIDE / 2) for dy in (-HIGH / 2, HIGH / 2)]
        points += [p for label, curve in self.arcs.values() for p in [label, *curve]]
        xs, ys = zip(*points)
        return min(xs), min(ys), max(xs), max(ys)


def layout_of_text(text):
    layout = Layout({}, {})
    for count, line in enumerate(text.strip().split("\n"), 1):
        words = line.split()
        try:
            if words[0] == "node" and len(words) == 4:
                layout.nodes[int(words[1])] = (float(words[2]), float(words[3]))
                continue
            if words[0] == "arc" and len(words) >= 14 and len(words) % 2 == 0:
                points = [(float(x), float(y)) for x, y in zip(words[4::2], words[5::2])]
                if len(points) % 3 == 2:
                    layout.arcs[tuple(map(int, words[1:4]))] = (points[0], points[1:])
                    continue
        except (IndexError, ValueError):
            pass
        raise Fault(1, f"found '{line}' as line {count} of its layout, expected 'node' or 'arc' and numbers")
    return layout


def drawn_before(svg):
    """The layout that a picture was drawn from."""
    found = re.search(r"<metadata>(.*?)</metadata>", svg, re.S)
    if not found:
        raise Fault(1, "found no layout in the picture, expected one in its metadata")
    return layout_of_text(found.group(1))


def from_node(p, node):
    """How far a point is from the outline of a node, taken as a box."""
    x, y = abs(p[0] - node[0]) - WIDE / 2, abs(p[1] - node[1]) - HIGH / 2
    return math.hypot(max(x, 0), max(y, 0)) if x > 0 or y > 0 else -max(x, y)


def misfit(s, layout):
    """Why a layout is none of this scheme, or None: it has the same nodes and arcs, nodes are apart, arcs end at their nodes."""
    if sorted(layout.nodes) != list(range(len(s.nodes))):
        return "its nodes are not the scheme's"
    if sorted(layout.arcs) != arcs_of(s):
        return "its arcs are not the scheme's"
    for v, (x, y) in layout.nodes.items():
        for w, (a, b) in layout.nodes.items():
            if v < w and abs(x - a) < WIDE + 8 and abs(y - b) < HIGH + 8:
                return f"nodes {v} and {w} lie on each other"
    for (d, a, b), (_, curve) in layout.arcs.items():
        if max(from_node(curve[0], layout.nodes[a]), from_node(curve[-1], layout.nodes[b])) > NEAR:
            return f"arc {d}: {a}-{b} does not end at its nodes"
    return None


def source(s):
    """The graph for Graphviz."""
    lines = ["graph {", GRAPH.format(WIDE / 72, HIGH / 72), *(f"{v} [shape={SHAPE[node[0]]}];" for v, node in enumerate(s.nodes))]
    lines += [f'{a} -- {b} [comment="{d}"];' for d, a, b in arcs_of(s)]
    return "\n".join([*lines, "}", ""])


def points(text):
    return [tuple(float(x) for x in pair.split(",")) for pair in text.split()]


def laid_out(s):
    """The layout that Graphviz gives a scheme."""
    try:
        done = subprocess.run(["dot", "-Tjson0"], input=source(s), stdout=subprocess.PIPE, stderr=subprocess.PIPE, text=True)
    except OSError as error:
        raise Trouble(f"a scheme is laid out by Graphviz, and its command dot does not start: {error.strerror}") from None
    if done.returncode != 0:
        raise Trouble(f"a scheme is laid out by Graphviz, and its command dot fails: {done.stderr.strip()}")
    graph = json.loads(done.stdout)
    top = float(graph["bb"].split(",")[3])

    def flipped(ps):
        return [(round(x, 1), round(top - y, 1)) for x, y in ps]
    names = {thing["_gvid"]: int(thing["name"]) for thing in graph["objects"]}
    nodes = {names[thing["_gvid"]]: flipped(points(thing["pos"]))[0] for thing in graph["objects"]}
    arcs = {}
    for edge in graph.get("edges", []):
        arc = (int(edge["comment"]), names[edge["tail"]], names[edge["head"]])
        arcs[arc] = (flipped(points(edge["lp"]))[0], flipped(points(edge["pos"])))
    layout = Layout(nodes, arcs)
    why = misfit(s, layout)
    if why:
        raise Trouble(f"Graphviz gave no layout of this scheme: {why}")
    return layout
