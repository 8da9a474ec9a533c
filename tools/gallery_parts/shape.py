"""The shape of a cell in the standard realization of Kotani and Sunada.

The program places each vertex in the mean of its neighbours, in coordinates that count two translations. The shape of the
cell is free. The standard realization takes the Gram form G = (sum of v v^T over the edge vectors v)^-1. In this shape every
symmetry of the net is an isometry. M. Kotani and T. Sunada, Standard realizations of crystal lattices via harmonic maps,
Trans. Amer. Math. Soc. 353 (2001).
"""
from math import atan2, cos, pi, sin, sqrt


def gram(edges):
    """Returns a, b, c of the Gram form [[a, b], [b, c]], up to a common factor, for exact edge vectors."""
    return sum(y * y for _, y in edges), -sum(x * y for x, y in edges), sum(x * x for x, _ in edges)


def product(form, p, q):
    a, b, c = form
    return a * p[0] * q[0] + b * (p[0] * q[1] + p[1] * q[0]) + c * p[1] * q[1]


def reduced(form):
    """Returns the basis that Gauss's reduction finds: the shortest translation, and the shortest that is no multiple of it."""
    short, long = (1, 0), (0, 1)
    while True:
        turns = round(product(form, short, long) / product(form, short, short))
        long = long[0] - turns * short[0], long[1] - turns * short[1]
        if product(form, long, long) >= product(form, short, short):
            return short, long
        short, long = long, (-short[0], -short[1])


class Frame:
    """A linear map from exact coordinates to the plane, which turns the cell upright.

    - basis: the two translations of the reduced basis, in exact coordinates
    - sides: the same two translations in the plane
    """

    def __init__(self, edges):
        self.form = gram(edges)
        self.basis = reduced(self.form)
        short, long = self.basis
        length = sqrt(product(self.form, short, short))
        slope = product(self.form, short, long) / length
        height = sqrt(max(product(self.form, long, long) - slope * slope, 0))
        self.plain = ((length, 0.0), (float(slope), height))
        angle = self.turn()
        self.sides = [(cos(angle) * x - sin(angle) * y, sin(angle) * x + cos(angle) * y) for x, y in self.plain]

    def turn(self):
        """Returns the angle that lays a mirror direction of the lattice level, if it has one.

        - A rhombus is laid on its longer diagonal.
        - The cell of a square or hexagonal lattice is laid on its side.
        - In other cells the shortest translation is upright.
        """
        short, long = self.basis
        squared, other, mixed = (product(self.form, *it) for it in ((short, short), (long, long), (short, long)))
        if squared != other:
            return pi / 2
        if mixed == 0 or 2 * abs(mixed) == squared:
            return 0.0
        (x, _), (u, v) = self.plain
        return -atan2(v, u + x) if mixed > 0 else -atan2(-v, x - u)

    def place(self, point):
        """Returns the place of a point of exact coordinates."""
        (p, q), (r, s) = self.basis
        x, y = point
        along, up = x * s - y * r, y * p - x * q
        (a, b), (c, d) = self.sides
        return float(along) * a + float(up) * c, float(along) * b + float(up) * d
