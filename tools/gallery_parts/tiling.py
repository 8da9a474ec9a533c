"""A tiling as the program describes it: its symbol, its torus cover, and the drawing of that cover.

`Symbol.read` reads a line as `dressline lines` writes it. `Tiling` joins three texts of the program: the symbol, its torus
cover (`torus`) and the document of the cover (`draw --cell square`). All coordinates are exact fractions. They count the two
translations that span the cell.
"""
import re
from fractions import Fraction
from math import floor


class Symbol:
    """A Delaney-Dress symbol. Chambers are numbered from 1; item 0 of each list is 0."""

    def __init__(self, images, degrees):
        self.images, self.size = images, len(images[0]) - 1
        self.tiles, self.edges, self.vertices = (self.cells(i, j) for i, j in ((0, 1), (0, 2), (1, 2)))
        tile_degrees, vertex_degrees = degrees
        self.degrees = [(tile_degrees[t], vertex_degrees[v]) for t, v in zip(self.tiles[1:], self.vertices[1:])]
        self.tile_degrees = tile_degrees

    @staticmethod
    def read(line):
        """Returns the symbol of a line `<1.k:n:s0,s1,s2:m01,m12>`."""
        _, size, images, degrees = line.strip().strip("<>").split(":")
        parts = [[int(it) for it in part.split()] for part in f"{images},{degrees}".split(",")]
        return Symbol([involution(int(size), part) for part in parts[:3]], parts[3:])

    def cells(self, i, j):
        """Returns, for each chamber, the number of its cell of the pair i, j. Cells are numbered from 0 by least chamber."""
        found, count = [None] * (self.size + 1), 0
        for start in range(1, self.size + 1):
            if found[start] is None:
                for chamber in self.reached(start, (i, j)):
                    found[chamber] = count
                count += 1
        return found

    def reached(self, start, pair):
        """Returns the chambers that the involutions of a pair reach from a chamber."""
        seen, left = {start}, [start]
        while left:
            chamber = left.pop()
            for i in pair:
                image = self.images[i][chamber]
                if image not in seen:
                    seen.add(image)
                    left.append(image)
        return seen

    def map_to(self, other):
        """Returns, for each chamber, its image under a map of symbols to `other`."""
        maps = (self.map_from(start, other) for start in range(1, other.size + 1))
        return next(it for it in maps if it)

    def map_from(self, start, other):
        """Returns the map of symbols to `other` that sends chamber 1 to `start`, or None if there is none."""
        images, left = [0] * (self.size + 1), [1]
        images[1] = start
        while left:
            chamber = left.pop()
            if self.degrees[chamber - 1] != other.degrees[images[chamber] - 1]:
                return None
            for mine, its in zip(self.images, other.images):
                if not images[mine[chamber]]:
                    images[mine[chamber]] = its[images[chamber]]
                    left.append(mine[chamber])
                elif images[mine[chamber]] != its[images[chamber]]:
                    return None
        return images

    def white(self):
        """Returns one half of the chambers of an oriented symbol: those that an even number of steps reaches from chamber 1."""
        colour, left = {1: True}, [1]
        while left:
            chamber = left.pop()
            for image in (it[chamber] for it in self.images):
                if image not in colour:
                    colour[image] = not colour[chamber]
                    left.append(image)
        return [it for it in range(1, self.size + 1) if colour[it]]


def involution(size, numbers):
    """Returns the involution whose pairs are stored once, each at its smaller chamber."""
    images, left = [0] * (size + 1), iter(numbers)
    for chamber in range(1, size + 1):
        if not images[chamber]:
            images[chamber] = next(left)
            images[images[chamber]] = chamber
    return images


class Tile:
    """A tile of the cell: its class (counted from 0), its corners in turn, and its marks. A mark is a small triangle inside
    a chamber that lies over chamber 1 of the symbol."""

    def __init__(self, kind, corners):
        self.kind, self.corners, self.marks = kind, corners, []

    def centre(self):
        return mean(self.corners)

    def area(self):
        """Returns the signed area, where the cell has area 1 or -1."""
        pairs = zip(self.corners, self.corners[1:] + self.corners[:1])
        return sum(x * v - y * u for (x, y), (u, v) in pairs) / 2


class Tiling:
    """The tiles of one cell, placed as the program places the vertices.

    - points: the vertices of the cell
    - edges: the vector of each edge, from its first vertex to its second
    - tiles: one tile of each class of translations
    """

    def __init__(self, symbol, cover, document):
        self.cover = cover
        self.points = [tuple(map(Fraction, it.split())) for it in re.findall(r'data-at="([^"]*)"', document)]
        self.steps = [(0, 0)] * (cover.size + 1)
        self.edges = self.read_edges(document)
        self.tiles = self.make_tiles(symbol)

    def read_edges(self, document):
        """Returns the vectors of the edges, and stores at each chamber the vector to the other end of its edge.

        A printed number is 1,000 times a coordinate, rounded down. So the shift of an edge, which is whole, is exact.
        """
        cover, vectors = self.cover, []
        printed = re.findall(r'<path d="M(-?\d+) (-?\d+)L(-?\d+) (-?\d+)"/>', document)
        for line, least in zip(printed, first_of_each(cover.edges), strict=True):
            start, end = (self.points[cover.vertices[it]] for it in (least, cover.images[0][least]))
            x, y, u, v = map(int, line)
            if (x, y) != (floor(1000 * start[0]), floor(1000 * start[1])):
                raise ValueError("the drawing is not that of the torus cover")
            shift = ((u - floor(1000 * end[0])) // 1000, (v - floor(1000 * end[1])) // 1000)
            vector = difference(add(end, shift), start)
            for chamber in (least, cover.images[2][least]):
                self.steps[chamber] = vector
                self.steps[cover.images[0][chamber]] = difference((0, 0), vector)
            vectors.append(vector)
        return vectors

    def make_tiles(self, symbol):
        """Returns the tiles, each by a walk round it, all in one sense of rotation."""
        cover, tiles, seen = self.cover, [], set()
        images = cover.map_to(symbol)
        for start in cover.white():
            if cover.tiles[start] not in seen:
                seen.add(cover.tiles[start])
                tiles.append(self.walk(start, images, symbol))
        return tiles

    def walk(self, start, images, symbol):
        """Returns the tile of a chamber. The walk goes from a chamber to its edge's other end and on to the next edge."""
        (s0, s1, _), chamber = self.cover.images, start
        place, corners, marked = self.points[self.cover.vertices[start]], [], []
        while not corners or chamber != start:
            corners.append(place)
            middle = add(place, (self.steps[chamber][0] / 2, self.steps[chamber][1] / 2))
            after = add(place, self.steps[chamber])
            marked += [(middle, place)] * (images[chamber] == 1) + [(middle, after)] * (images[s0[chamber]] == 1)
            place, chamber = after, s1[s0[chamber]]
        if place != corners[0]:
            raise ValueError("a tile does not close")
        tile = Tile(symbol.tiles[images[start]], corners)
        tile.marks = [shrunk([tile.centre(), *ends]) for ends in marked]
        return tile

    def kinds(self):
        """Returns the classes of tiles, those that cover most of the cell first."""
        areas = {}
        for it in self.tiles:
            areas[it.kind] = areas.get(it.kind, 0) + it.area()
        return sorted(areas, key=lambda it: (-abs(areas[it]), it))

    def fallen(self):
        """Returns the number of vertices of the cell that lie where an earlier vertex lies."""
        return len(self.points) - len({(x % 1, y % 1) for x, y in self.points})

    def flat(self):
        """Returns the number of tiles whose area is not positive."""
        sign = 1 if sum(it.area() for it in self.tiles) > 0 else -1
        return sum(it.area() * sign <= 0 for it in self.tiles)


def first_of_each(numbers):
    """Returns the first chamber of each cell."""
    first = {}
    for chamber, number in enumerate(numbers):
        if number is not None:
            first.setdefault(number, chamber)
    return first.values()


def add(p, q):
    return p[0] + q[0], p[1] + q[1]


def difference(p, q):
    return p[0] - q[0], p[1] - q[1]


def mean(points):
    return tuple(sum(it) / len(points) for it in zip(*points))


def shrunk(points):
    """Returns points three fifths as far from their mean."""
    x, y = mean(points)
    return [(x + (u - x) * 3 / 5, y + (v - y) * 3 / 5) for u, v in points]
