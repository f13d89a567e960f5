"""What pictures look like: colours and lines of links, fills of tags and kinds of nodes, sizes of letters. No other module names a colour."""
import colorsys

FONT = "DejaVu Sans, Verdana, Arial, sans-serif"
INK, FAINT, PAPER, FAULT, POINTED = "#1a1a1a", "#8a8a8a", "#ffffff", "#d40000", "#ff8c00"

# Links and arcs by dimension; each can be told from the others without its colour.
LINK = {0: "#000000", 1: "#d62728", 2: "#1f5fd0", 3: "#1a8f3c"}
DASHES = {0: None, 1: "5 3", 2: None, 3: "8 3 2 3"}
DOUBLE = 2  # the dimension that is drawn as a double line

KIND = {"deleted": "#f9d3d0", "preserved": PAPER, "added": "#d3efd3"}

# Fills of tags, in the order of the tags; more than these are mixed anew.
TAGS = ["#f7d98b", "#a9d3f0", "#bfe3ac", "#f2b8a8", "#d3c2ea", "#f3c3dc", "#b3e0d8", "#dbcbb0", "#d6e27f", "#c3cbd6"]


def tag_fills(tags):
    """A fill for each tag; the same tags get the same fills."""
    fills = {}
    for k, tag in enumerate(sorted(set(tags))):
        if k < len(TAGS):
            fills[tag] = TAGS[k]
        else:
            red, green, blue = colorsys.hls_to_rgb((k * 0.381966) % 1, 0.80 - 0.06 * (k % 3), 0.55)
            fills[tag] = "#{:02x}{:02x}{:02x}".format(*(int(part * 255) for part in (red, green, blue)))
    return fills


def line_rules():
    """Style rules of the links: class a0 to a3, and core for the white middle of a double line."""
    rules = []
    for i, colour in LINK.items():
        dash = f";stroke-dasharray:{DASHES[i]}" if DASHES[i] else ""
        rules.append(f".a{i}{{stroke:{colour};stroke-width:{4.5 if i == DOUBLE else 1.8};fill:none{dash}}}")
        rules.append(f".end{i}{{stroke:{colour};stroke-width:1.8;fill:none}}")
        rules.append(f".n{i}{{fill:{colour};font-size:9px;text-anchor:middle}}")
    rules.append(f".core{{stroke:{PAPER};stroke-width:1.7;fill:none}}")
    return rules


def rules():
    """Style rules that all pictures share."""
    return [f"text{{font-family:{FONT};fill:{INK};font-size:12px}}", f".paper{{fill:{PAPER}}}", *line_rules(),
            ".head{font-size:15px;font-weight:bold}", ".mid{text-anchor:middle}", f".faint{{fill:{FAINT}}}",
            f".frame{{fill:none;stroke:{FAINT};stroke-width:1}}", f".wrong{{stroke:{FAULT};stroke-width:2.2;fill:none}}",
            f".fault{{fill:{FAULT};font-size:11px}}"]


def map_rules(fills):
    """Style rules of a map: class t0, t1, .. for the tags in their order."""
    tags = [f".t{k}{{fill:{fills[tag]}}}" for k, tag in enumerate(sorted(fills))]
    return [f".edge{{stroke:{FAINT};stroke-width:1;fill:none}}", f".open{{stroke:{FAINT};stroke-width:1;stroke-dasharray:2 4;fill:none}}",
            f".dart{{stroke:{INK};stroke-width:1}}", f".new{{stroke:{INK};stroke-width:3}}",
            f".gone{{stroke:{INK};stroke-width:1.2;stroke-dasharray:3 2}}", f".strike{{stroke:{INK};stroke-width:1.6;fill:none}}",
            f".pointed{{stroke:{POINTED};stroke-width:3;fill:none}}", ".slot{text-anchor:middle;font-size:10px}", ".d3{font-size:8.5px}", ".d4{font-size:7px}",
            *tags]


def scheme_rules():
    return [f".{name}{{fill:{fill};stroke:{INK};stroke-width:1.5}}" for name, fill in KIND.items()] + [
        f".ring{{fill:{PAPER};stroke:{INK};stroke-width:1.5}}", ".deleted{stroke-dasharray:5 3}",
        ".node{font-weight:bold;text-anchor:middle;font-size:13px}",
        ".word{text-anchor:middle;font-size:12px}", ".dim{font-size:11px}"]


def donor_rules():
    """Style rules of a scheme whose added nodes have donors."""
    return [".lot{text-anchor:middle;font-size:10px;font-style:italic}"]
