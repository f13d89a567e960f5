"""The picture of a scheme: its left and its right side beside each other, as Jerboa draws rules."""
from gmap import graphviz, look
from gmap.graphviz import HIGH, WIDE
from gmap.legend import draw_legend
from gmap.scheme import KINDS, NAMES, REMOVES, allowed
from gmap.svg import Picture, point, polyline, wide

EDGE, HEAD = 26.0, 58.0
TITLE = {"left": "left: what is there", "right": "right: what it becomes"}


def letters(dimensions):
    return "⟨" + ",".join("_" if d == REMOVES else str(d) for d in dimensions) + "⟩"


def word(s, v, side):
    return s.nodes[v][1 if side == "left" else 2]


# ---- nodes and arcs

def outline(picture, class_, kind, p, more=0.0):
    """A node's shape by its kind, larger by `more` on every side."""
    x, y, w, h = p[0], p[1], WIDE + 2 * more, HIGH + 2 * more
    if kind == "preserved":
        picture.put("ellipse", class_=class_, cx=x, cy=y, rx=w / 2, ry=h / 2)
    else:
        picture.put("rect", class_=class_, x=x - w / 2, y=y - h / 2, width=w, height=h, rx=14.0 if kind == "added" else 0.0)


def draw_node(picture, s, v, side, p):
    kind = NAMES[s.nodes[v][0]]
    if v in s.hooks() and side == "left":
        outline(picture, "ring", kind, p, 4.0)
    outline(picture, kind, kind, p)
    donated = s.donors is not None and kind == "added"
    rise = 6 if donated else 0  # room for the line of the lot
    picture.text("node", (p[0], p[1] + (-3 if s.orbit else 5) - rise), v)
    if s.orbit:
        picture.text("word", (p[0], p[1] + 13 - rise), letters(word(s, v, side)))
    if donated:
        picture.text("lot", (p[0], p[1] + 18), f"lot of {s.donors[v]}")


def curve(points):
    return "M" + point(points[0]) + "C" + " ".join(map(point, points[1:]))


def draw_side(picture, s, layout, side, shift):
    def at(p):
        return p[0] + shift[0], p[1] + shift[1]
    arcs = sorted(s.arcs[side])
    for arc in arcs:
        picture.link(arc[0], curve([at(p) for p in layout.arcs[arc][1]]))
    for v, node in enumerate(s.nodes):
        if node[0] in allowed(side):
            draw_node(picture, s, v, side, at(layout.nodes[v]))
    for arc in arcs:
        x, y = at(layout.arcs[arc][0])
        picture.text(f"n{arc[0]} dim", (x + 4, y + 4), arc[0])


# ---- the legend

SAID = {"preserved": "preserved: on both sides", "deleted": "deleted: on the left alone", "added": "added: on the right alone"}


def small(picture, class_, kind, p, more=0.0):
    x, y, w, h = p[0] + 18, p[1], 28.0 + 2 * more, 14.0 + 2 * more
    if kind == "preserved":
        picture.put("ellipse", class_=class_, cx=x, cy=y, rx=w / 2, ry=h / 2)
    else:
        picture.put("rect", class_=class_, x=x - w / 2, y=y - h / 2, width=w, height=h, rx=5.0 if kind == "added" else 0.0)


def legend_rows(s):
    """What is in the picture, as (draw, words)."""
    for v, name in zip(s.hooks(), ("first", "second")):
        kind = NAMES[s.nodes[v][0]]
        words = "hook: the dart pointed at" if s.second is None else f"hook {v}: the {name} dart pointed at"
        yield (lambda picture, p, kind=kind: (small(picture, "ring", kind, p, 3.0), small(picture, kind, kind, p))), words
    for kind in KINDS:
        if any(NAMES[node[0]] == kind for node in s.nodes):
            yield (lambda picture, p, kind=kind: small(picture, kind, kind, p)), SAID[kind]
    if s.donors:
        yield (lambda picture, p: picture.text("lot", (p[0] + 18, p[1] + 4), "lot of v")), "takes the lot that the dart of node v had"
    for i in sorted({arc[0] for arcs in s.arcs.values() for arc in arcs}):
        yield (lambda picture, p, i=i: picture.link(i, polyline([p, (p[0] + 36, p[1])]))), f"arc α{i}"
    if s.orbit:
        yield (lambda picture, p: picture.text("word", (p[0] + 18, p[1] + 4), "⟨..⟩")), f"in place of {letters(s.orbit)}; _ is none"


# ---- the picture

def drawn(s, layout=None):
    """The SVG of a scheme, by this layout or by that of Graphviz."""
    layout = layout or graphviz.laid_out(s)
    left, top, right, below = layout.bounds()
    pitch = max(right - left + 2 * EDGE, *(2 * EDGE + wide(words, 15) for words in TITLE.values()))
    picture = Picture(look.rules() + look.scheme_rules() + (look.donor_rules() if s.donors else []))
    picture.put("metadata", layout.text())
    for k, side in enumerate(TITLE):
        start = k * pitch + (pitch - (right - left)) / 2
        picture.text("head", (k * pitch + EDGE, 24), TITLE[side])
        if any(node[0] in allowed(side) for node in s.nodes):
            draw_side(picture, s, layout, side, (start - left, HEAD - top))
        else:
            picture.text("faint", (k * pitch + EDGE, HEAD + 20), "(nothing)")
    picture.text("", (EDGE, 43), f"n = {s.n}, orbit {letters(s.orbit)}")
    end = HEAD + below - top
    picture.path("frame", polyline([(pitch, 14), (pitch, end + 8)]))
    end, room = draw_legend(picture, list(legend_rows(s)), end + 26, 2 * pitch)
    return picture.svg(max(2 * pitch, room), end + 12)
