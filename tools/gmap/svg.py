"""Writing SVG: elements in order, and numbers in one form, so that the same picture has the same bytes on every machine."""
from xml.sax.saxutils import escape

from gmap import look


def number(x):
    """One decimal at most. What the last bits of a sine may change is rounded off first."""
    text = f"{round(round(x, 6) + 0.0, 1):.1f}"
    return "0" if text in ("0.0", "-0.0") else text[:-2] if text.endswith(".0") else text


def point(p):
    return f"{number(p[0])} {number(p[1])}"


def polyline(points, closed=False):
    return "M" + "L".join(map(point, points)) + ("Z" if closed else "")


class Picture:
    """Elements, drawn in the order in which they are put in."""

    def __init__(self, rules):
        self.rules, self.elements = rules, []

    def put(self, name, content=None, **attributes):
        """An element; `class_` and `stroke_width` stand for class and stroke-width, content is text."""
        words = [name]
        for key, value in attributes.items():
            value = number(value) if isinstance(value, float) else str(value)
            words.append(f'{key.rstrip("_").replace("_", "-")}="{escape(value, {chr(34): "&quot;"})}"')
        self.elements.append(f"<{' '.join(words)}/>" if content is None else f"<{' '.join(words)}>{escape(str(content))}</{name}>")

    def path(self, class_, d):
        if d:
            self.put("path", class_=class_, d=d)

    def text(self, class_, p, content):
        self.put("text", content, class_=class_, x=float(p[0]), y=float(p[1]))

    def link(self, i, d, **more):
        """Lines of a dimension, double where it is drawn so."""
        if d:
            self.put("path", class_=f"a{i}", **more, d=d)
            if i == look.DOUBLE:
                self.path("core", d)

    def open(self, **attributes):
        self.put("g", **attributes)
        self.elements[-1] = self.elements[-1][:-2] + ">"

    def close(self):
        self.elements.append("</g>")

    def svg(self, width, height):
        w, h = number(float(width)), number(float(height))
        return "\n".join([f'<svg xmlns="http://www.w3.org/2000/svg" width="{w}" height="{h}" viewBox="0 0 {w} {h}">',
                          f"<style>{' '.join(self.rules)}</style>", f'<rect class="paper" width="{w}" height="{h}"/>', *self.elements, "</svg>\n"])


def wide(text, size):
    """About how wide a text is, at most."""
    return 0.57 * size * len(text)
