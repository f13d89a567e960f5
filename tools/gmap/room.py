"""Room in a picture: what is taken, and whether something has room where it would stand."""
import itertools

from gmap.plane import minus

GRID = 64.0  # width of a square in which boxes are looked for


class Box:
    """The room that something takes: its middle, and how far it reaches across and down."""

    def __init__(self, middle, across, down):
        self.middle, self.across, self.down = middle, across, down

    def lies_on(self, other):
        x, y = minus(other.middle, self.middle)
        return abs(x) < self.across + other.across and abs(y) < self.down + other.down

    def squares(self):
        """The squares of a grid that it lies on."""
        ranges = (range(int((p - size) // GRID), int((p + size) // GRID) + 1) for p, size in zip(self.middle, (self.across, self.down)))
        return itertools.product(*ranges)


class Room:
    """The boxes that are taken, by squares of a grid, so that those near a place are found at once."""

    def __init__(self):
        self.boxes = {}

    def take(self, box):
        for square in box.squares():
            self.boxes.setdefault(square, []).append(box)

    def free(self, box):
        return not any(box.lies_on(other) for square in box.squares() for other in self.boxes.get(square, ()))
