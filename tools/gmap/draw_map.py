"""The picture of a map, or of two beside each other: polygons, links, darts, and a legend of what is in it."""
from gmap import explain, look
from gmap.faces import beyond
from gmap.layout import laid_out
from gmap.legend import draw_legend
from gmap.map_lines import Lines, bar
from gmap.plane import minus, plus
from gmap.polygon import DEEP, DISC, INSET, bounds
from gmap.svg import Picture, polyline, wide

MARGIN, HEAD = 44.0, 20.0
TITLE = 270.0  # width of a panel's title
LISTED = 12  # tags and faults that a legend names


class Panel:
    """One map in a picture: its layout, moved, and the darts that are marked."""

    def __init__(self, when, layout, corner, shift):
        """`when` is 'before' or 'after', or None for a map alone."""
        self.when, self.layout, self.m, self.corner, self.shift = when, layout, layout.m, corner, shift
        self.marked, self.mark, self.pointed = set(), None, ()  # darts that only this map has, how they are marked, the darts pointed at
        self.darts = layout.darts
        self.faulty = explain.faults_at(self.m)
        self.used = set()  # what the legend has to explain

    def title(self):
        said = f"n = {self.m.n}, {self.m.slots} slots, {len(self.m.live)} live"
        return f"{self.when}: {said}" if self.when else said

    def at(self, p):
        return plus(p, self.shift)


def draw_faces(picture, panel, fills):
    names = {tag: f"t{k}" for k, tag in enumerate(sorted(fills))}
    for polygon in panel.layout.polygons:
        corners = [panel.at(p) for p in polygon.corners]
        draw_fill(picture, panel, polygon, corners, names, lambda x: x)
        for k, side in enumerate(polygon.sides):
            picture.path("open" if side is None else "edge", polyline([corners[k], corners[(k + 1) % len(corners)]]))
        if polygon.face.inner:
            within = [panel.at(p) for p in polygon.shrunk((INSET + DEEP) / 2)]
            draw_fill(picture, panel, polygon, within, names, lambda x: beyond(panel.m, x, 3))
            picture.path("edge", polyline(within, True))


def draw_fill(picture, panel, polygon, corners, names, dart):
    """Fills a polygon by tags: what is a dart's own reaches from its half of the edge to the middle of the face.
    `dart` gives the dart that is meant for a dart of the outer round."""
    tags = {x: panel.m.live[dart(x)][1] for x in polygon.face.outer.darts}
    picture.path(names[tags[polygon.face.outer.darts[0]]], polyline(corners, True))
    centre = panel.at(polygon.centre)
    if len(set(tags.values())) == 1:
        if polygon.face.inner is None:
            picture.text("mid", plus(centre, (0, 4)), tags[polygon.face.outer.darts[0]])
        return
    for tag, points in runs(polygon, corners, tags):
        picture.path(names[tag], polyline([*points, centre], True))


def runs(polygon, corners, tags):
    """The outline by darts of one tag that follow each other, as [tag, points]. A side without darts is shared by those next to it."""
    parts = []  # [dart or None, from, to]
    for k, side in enumerate(polygon.sides):
        p, q = corners[k], corners[(k + 1) % len(corners)]
        darts = [x for edge in side or [] for x in edge] or [None, None]
        parts += [[x, plus(p, minus(q, p), j / len(darts)), plus(p, minus(q, p), (j + 1) / len(darts))] for j, x in enumerate(darts)]
    share_out(parts)
    found = []
    for x, a, b in parts:
        if not found or found[-1][0] != tags[x]:
            found.append([tags[x], [a]])
        found[-1][1].append(b)
    return found


def share_out(parts):
    """Gives parts without a dart to the darts before and after them, half to each."""
    first = next(k for k, part in enumerate(parts) if part[0] is not None)
    around = parts[first:] + parts[:first] + parts[first:first + 1]
    held = [k for k, part in enumerate(around) if part[0] is not None]
    for a, b in zip(held, held[1:]):
        for k in range(a + 1, b):
            around[k][0] = around[a if 2 * k < a + b else b][0]


def draw_lines(picture, panel):
    lines = Lines(panel)
    for i in range(panel.m.n, -1, -1):
        picture.link(i, "".join(lines.links[i]))
        picture.path(f"end{i}", "".join(lines.ends[i]))
    for i in range(panel.m.n + 1):
        picture.path("wrong", "".join(lines.wrong[i]))
        for at, y in lines.numbers[i]:
            picture.text(f"n{i}", at, y)


def strike(p, radius):
    """Both ends of a stroke through a dart; its number stays clear."""
    near, far = 0.5 * radius + 1, radius + 1
    return "".join(polyline([plus(p, (k * near, -k * near)), plus(p, (k * far, -k * far))]) for k in (1, -1))


def draw_darts(picture, panel, fills):
    names = {tag: f"t{k}" for k, tag in enumerate(sorted(fills))}
    for x in sorted(panel.m.live):
        links, tag = panel.m.live[x]
        (cx, cy), mark = panel.at(panel.darts[x].at), panel.mark if x in panel.marked else "dart"
        picture.open()
        broken = "".join(f"\nbroken: {words}" for words in panel.faulty.get(x, ()))
        picture.put("title", f"dart {x}: " + ", ".join(f"α{i} {y}" for i, y in enumerate(links)) + f", tag {tag}{broken}")
        if x in panel.pointed:
            picture.put("circle", class_="pointed", cx=cx, cy=cy, r=DISC + 3)
        if x in panel.faulty:
            panel.used.add(("broken", None))
            picture.put("circle", class_="wrong", cx=cx, cy=cy, r=DISC + 3)
        picture.put("circle", class_=f"{mark} {names[tag]}", cx=cx, cy=cy, r=DISC)
        if mark == "gone":
            picture.path("strike", strike((cx, cy), DISC))
        digits = len(str(x))
        picture.text("slot" if digits < 3 else f"slot d{digits}", (cx, cy + (3.6 if digits < 3 else 3)), x)
        picture.close()


def draw_panel(picture, panel, fills):
    picture.text("head", plus(panel.corner, (0, -14)), panel.title())
    draw_faces(picture, panel, fills)
    draw_lines(picture, panel)
    draw_darts(picture, panel, fills)
    if not panel.m.live:
        picture.text("faint", plus(panel.corner, (0, 20)), "(no live darts)")


# ---- the legend

SAID = {0: "α0: the two darts of an edge", 1: "α1: a corner", 2: "α2: to the next face", 3: "α3: to the other side of the face"}
MARKS = {"gone": "deleted", "new": "new"}


def ring(class_):
    """A sample of a dart's outline."""
    def sample(picture, p):
        at = plus(p, (18, 0))
        picture.put("circle", class_=class_, cx=at[0], cy=at[1], r=7.0)
        if class_.startswith("gone"):
            picture.path("strike", strike(at, 7))
    return sample


def link_rows(used):
    """The rows for links; `used` has what was drawn of each dimension."""
    for i in sorted({i for _, i in used if i is not None}):
        yield (lambda picture, p, i=i: picture.link(i, polyline([p, plus(p, (36, 0))]))), SAID[i]
    free = [i for what, i in used if what == "free"]
    if free:
        i = 2 if 2 in free else min(free)
        end = (22, 0)
        yield (lambda picture, p: picture.path(f"end{i}", polyline([plus(p, (12, 0)), plus(p, end)]) + bar(plus(p, end), (1, 0)))), (
            "free: the link leads to its own dart")
    far = [i for what, i in used if what == "far"]
    if far:
        def sample(picture, p, i=min(far)):
            picture.link(i, polyline([plus(p, (4, 0)), plus(p, (14, 0))]))
            picture.text(f"n{i}", plus(p, (25, 3.2)), 12)
        yield sample, "leads to the dart with this number"
    if any(what == "broken" for what, _ in used):
        yield ring("wrong"), "broken: see below; × is a link that leads nowhere or not back"


def tag_rows(panels, fills):
    for k, tag in enumerate(sorted(fills)[:LISTED]):
        counts = [sum(record[1] == tag for record in panel.m.live.values()) for panel in panels]
        unit = "dart" if set(counts) == {1} else "darts"
        yield (lambda picture, p, k=k: picture.put("rect", class_=f"t{k} dart", x=p[0], y=p[1] - 7, width=36, height=14)), (
            f"tag {tag}: {' → '.join(map(str, counts))} {unit}")
    if len(fills) > LISTED:
        yield (lambda picture, p: None), f"and {len(fills) - LISTED} tags more"


def legend_rows(panels, fills):
    """What is to be explained, as (draw, words)."""
    yield from link_rows(set().union(*(panel.used for panel in panels)))
    for panel in panels:
        if panel.pointed:
            first, *others = panel.pointed
            yield ring("pointed"), "the dart pointed at" if not others else f"the darts pointed at: {first}, then {', '.join(map(str, others))}"
        if panel.marked:
            yield ring(f"{panel.mark} paper"), MARKS[panel.mark]
    yield from tag_rows(panels, fills)


def draw_faults(picture, panels, top):
    """The faults of broken maps in words; where they end, and how wide they are."""
    lines = [(f"{panel.when}: " if panel.when else "") + f"slot {x}: {words}"
             for panel in panels for x in sorted(panel.faulty) for words in panel.faulty[x]]
    more = f"and {len(lines) - LISTED} more: a dart with a ring says its own when it is pointed at, and tools/map check says them all"
    shown = lines[:LISTED] + ([more] if len(lines) > LISTED else [])
    for k, line in enumerate(shown):
        picture.text("fault", (24, top + 16 * k + 12), line)
    return top + 16.0 * len(shown), max([48 + wide(line, 11) for line in shown], default=0)


# ---- pictures

def panels_of(maps, pointed, new):
    """The panels of one map or of two, side by side; their width and height."""
    kept = set.intersection(*(set(m.live) for m in maps)) - set(new)
    layouts = laid_out(maps, kept)
    polygons = [polygon for layout in layouts for polygon in layout.polygons]
    left, top, right, below = bounds(polygons) if polygons else (0.0, 0.0, 120.0, 40.0)
    pitch = max(right - left, TITLE) + 2 * MARGIN
    panels = []
    for k, (layout, when) in enumerate(zip(layouts, ("before", "after") if len(maps) == 2 else (None,))):
        start = k * pitch + MARGIN
        panels.append(Panel(when, layout, (start, HEAD + 18.0), (start - left, HEAD + MARGIN - top)))
    if len(maps) == 2:
        for panel, mark in zip(panels, ("gone", "new")):
            panel.marked, panel.mark = set(panel.m.live) - kept, mark
    panels[0].pointed = pointed
    return panels, pitch, HEAD + MARGIN + below - top


def drawn(maps, pointed=(), new=()):
    """The SVG of a map, or of a map before and after an edit at the darts `pointed`, of which there are one or two. `new` has the slots of the
    edit's new darts; where it has none, what is live before and after in a slot is taken for one dart."""
    panels, pitch, end = panels_of(maps, pointed, new)
    fills = look.tag_fills(record[1] for m in maps for record in m.live.values())
    picture = Picture(look.rules() + look.map_rules(fills))
    for panel in panels:
        draw_panel(picture, panel, fills)
    if len(panels) == 2:
        picture.path("frame", polyline([(pitch, 16), (pitch, end + 20)]))
    width = pitch * len(panels)
    end, legend = draw_legend(picture, list(legend_rows(panels, fills)), end + MARGIN, width)
    end, faults = draw_faults(picture, panels, end + 6)
    return picture.svg(max(width, legend, faults), end + 14)
