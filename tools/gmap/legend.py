"""The legend below a picture: samples with words, in as many columns as have room."""
from gmap.svg import wide

ROW, LEFT, SAMPLE, SPACE = 23.0, 26.0, 48.0, 24.0
LEAST = 560.0  # a legend may be so wide, however narrow the picture is


def columns_of(rows, count):
    deep = -(-len(rows) // count)
    return [rows[k:k + deep] for k in range(0, len(rows), deep)]


def width_of(column):
    return SAMPLE + max(wide(words, 12) for _, words in column) + SPACE


def draw_legend(picture, rows, top, width):
    """Draws rows of (draw, words), where `draw` puts a sample, 36 wide, with its middle left end at a place. Gives the end and the width."""
    if not rows:
        return top, 0.0
    columns = next(found for count in range(len(rows), 0, -1) for found in [columns_of(rows, count)]
                   if count == 1 or 2 * LEFT + sum(map(width_of, found)) <= max(width, LEAST))
    x = LEFT
    for column in columns:
        for k, (sample, words) in enumerate(column):
            p = (x, top + ROW * k + ROW / 2)
            sample(picture, p)
            picture.text("", (p[0] + SAMPLE, p[1] + 4), words)
        x += width_of(column)
    return top + ROW * len(columns[0]), x + LEFT
