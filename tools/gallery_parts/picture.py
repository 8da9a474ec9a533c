"""A patch of a tiling as an SVG picture: copies of one cell, clipped to a rectangle, each class of tiles in its own colour.

The document has one group, `cell`, and a `use` of it for each copy. All numbers are whole. So copies fit together exactly.
"""
import html
from math import ceil, floor

WIDTH, HEIGHT, CELLS = 12000, 9000, 4

# Each colour has its own lightness, so that no two look alike to any eye. `tests/pictures.py` checks it.
LIGHT = ("#f3d9a0", "#3b7ea1", "#88c0b0", "#8c3b52", "#d98a4b", "#27365e")
DARK = ("#d2b676", "#2f6f96", "#6bab9b", "#85324c", "#b96f35", "#2a3560")
LINE, LINE_DARK, MARK = "#1d2026", "#0c0d10", "#27365e"
TURNS = (None, 45, 135, 0, 90)


def look(rank):
    """Returns the colour of the class of tiles of a rank, and the angle of its stripes or None. Ranks 0 and 30 look alike."""
    return rank % len(LIGHT), TURNS[rank // len(LIGHT) % len(TURNS)]


class Patch:
    """A patch of a tiling: a rectangle that holds the cells of a parallelogram of 4 by 4 cells."""

    def __init__(self, tiling, frame):
        self.tiling = tiling
        self.scale, self.middle = self.fit(frame)
        self.sides = [self.rounded(it) for it in frame.sides]
        self.place = frame.place

    def fit(self, frame):
        """Returns the scale, and the place of the middle of the picture: the centre of a tile with the most corners."""
        (a, b), (c, d) = frame.sides
        corners = [(i * a + j * c, i * b + j * d) for i in (0, CELLS) for j in (0, CELLS)]
        wide, high = (max(it) - min(it) for it in zip(*corners))
        most = max(self.tiling.tiles, key=lambda it: len(it.corners))
        return min(WIDTH / wide, HEIGHT / high), frame.place(most.centre())

    def rounded(self, place):
        return round(place[0] * self.scale), round(place[1] * self.scale)

    def at(self, point):
        """Returns where a point of exact coordinates is printed in the cell's group."""
        x, y = self.place(point)
        return self.rounded((x - self.middle[0], y - self.middle[1]))

    def path(self, corners):
        """Returns the path of a polygon: its first corner, and from there each step to the next one."""
        places = [self.at(it) for it in corners]
        steps = " ".join(f"{u - x} {v - y}" for (x, y), (u, v) in zip(places, places[1:]))
        return f"M{places[0][0]} {places[0][1]}l{steps}z".replace(" -", "-")

    def paths(self):
        """Returns a path element for each class of tiles, and one more for its stripes."""
        for rank, kind in enumerate(self.tiling.kinds()):
            colour, turn = look(rank)
            lines = "".join(self.path(it.corners) for it in self.tiling.tiles if it.kind == kind)
            yield f'<path class="c{colour}" fill="{LIGHT[colour]}" d="{lines}"/>'
            if turn is not None:
                yield f'<path fill="url(#s{turn})" d="{lines}"/>'

    def marks(self):
        """Returns a path element that marks each copy of chamber 1 of the symbol."""
        parts = [self.path(it) for tile in self.tiling.tiles for it in tile.marks]
        return f'<path fill="{MARK}" stroke="#fff" stroke-width="{self.stroke() // 2}" d="{"".join(parts)}"/>'

    def copies(self):
        """Returns the offsets of the copies that reach into the picture, whose middle is the origin of the cell's group."""
        places = [self.at(it) for tile in self.tiling.tiles for it in tile.corners]
        (left, right), (top, bottom) = ((min(it), max(it)) for it in zip(*places))
        (a, b), (c, d) = self.sides
        box = [(x, y) for x in (-WIDTH / 2 - right, WIDTH / 2 - left) for y in (-HEIGHT / 2 - bottom, HEIGHT / 2 - top)]
        rows, columns = zip(*(((x * d - y * c) / (a * d - b * c), (y * a - x * b) / (a * d - b * c)) for x, y in box))
        for i in range(floor(min(rows)), ceil(max(rows)) + 1):
            for j in range(floor(min(columns)), ceil(max(columns)) + 1):
                x, y = i * a + j * c, i * b + j * d
                if box[0][0] < x < box[3][0] and box[0][1] < y < box[3][1]:
                    yield x, y

    def stroke(self):
        """Returns the width of lines: a part of the mean length of an edge."""
        (a, b), (c, d) = self.sides
        mean = (abs(a * d - b * c) / len(self.tiling.edges)) ** 0.5
        return max(20, min(60, round(mean / 16)))

    def document(self, name, marked):
        """Returns the SVG document. If `marked` is true, the copies of chamber 1 are marked."""
        colours, turns = (dict.fromkeys(it) for it in zip(*map(look, range(len(self.tiling.kinds())))))
        dark = "".join(f".c{it}{{fill:{DARK[it]}}}" for it in colours)
        stripes = "".join(stripe(it) for it in turns if it is not None)
        cell = "\n".join([*self.paths(), *([self.marks()] if marked else [])])
        uses = "".join(f'<use href="#cell" x="{x}" y="{y}"/>' for x, y in self.copies())
        box, line = f"{-WIDTH // 2} {-HEIGHT // 2} {WIDTH} {HEIGHT}", f'stroke="{LINE}" stroke-width="{self.stroke()}"'
        return (
            f'<svg xmlns="http://www.w3.org/2000/svg" viewBox="{box}">\n'
            f"<title>{html.escape(name)}</title>\n"
            f"<style>@media(prefers-color-scheme:dark){{{dark}#cell{{stroke:{LINE_DARK}}}}}</style>\n"
            f'<defs>{stripes}<g id="cell" {line} stroke-linejoin="round">\n{cell}\n</g></defs>\n'
            f"{uses}\n</svg>\n"
        )


def stripe(turn):
    """Returns a pattern of stripes at an angle."""
    return (
        f'<pattern id="s{turn}" width="120" height="120" patternUnits="userSpaceOnUse" patternTransform="rotate({turn})">'
        '<path d="M0 60h120" stroke="#fff" stroke-width="50"/></pattern>'
    )
