"""Measures pictures that `tools/gallery` makes: lengths of edges, tiles and their copies.

It also compares what the gallery says of symbols that cannot be drawn. All numbers are read from the SVG texts. The wanted
lengths follow from angles: a vertex is the mean of its neighbours, and the symmetries of these tilings fix the angles between
its edges.
"""
import filecmp, itertools, math, os, re, subprocess, sys

TOP = os.path.dirname(os.path.dirname(os.path.realpath(__file__)))
TOOLS = os.path.join(TOP, "tools")
GALLERY = os.path.join(TOOLS, "gallery")

# A tiling, the length of its longest edge divided by that of its shortest, and the tolerance.
RATIOS = (
    ("1-3.3.3.3.3.3", 1, 1 / 300),
    ("2-4.4.4.4", 1, 1 / 300),
    ("3-6.6.6", 1, 1 / 300),
    ("4-3.6.3.6", 1, 1 / 300),
    ("5-3.12.12", math.sqrt(3), 1 / 100),
    ("6-4.8.8", math.sqrt(2), 1 / 100),
    ("7-3.4.6.4", math.sqrt(3), 1 / 100),
    ("10-4.6.12", 2, 1 / 100),
    ("4-Dual-of-3.6.3.6", 1, 1 / 300),
    ("6-Dual-of-4.8.8", math.sqrt(2), 1 / 100),
    ("9-Dual-of-3.3.4.3.4", math.sqrt(5) / 2, 1 / 100),
)

# Symbols that the program refuses to draw, and one in whose drawing two of five vertices fall on others.
NOT_FLAT = "<1:1,1,1:3,7>"
TOO_WIDE = "<14:1 2 4 6 8 11 12 14,1 3 5 6 9 10 13 14,2 3 4 7 8 9 10 11 12 13 14:6 5 4,3 4 3 6 4>"
FALLING = "<5:1 3 5,2 3 4 5,1 4 5:3 8,3 8>"
TRIANGLES = "<1:1,1,1:3,6>"


def numbers_of(text):
    return [int(it) for it in re.findall(r"-?\d+", text)]


class Picture:
    """The polygons of the cell of a picture by class, its marks, the offsets of its copies, and its frame.

    The frame has a start and a length, across and down.
    """

    def __init__(self, text):
        left, top, width, height = numbers_of(re.search(r'viewBox="([^"]*)"', text)[1])
        self.frame = ((left, width), (top, height))
        self.copies = [tuple(map(int, it)) for it in re.findall(r'<use href="#cell" x="(-?\d+)" y="(-?\d+)"/>', text)]
        classes = re.findall(r'<path class="c\d" fill="[^"]*" d="([^"]*)"/>', text)
        self.tiles = [[polygon(part) for part in it.split("z")[:-1]] for it in classes]
        marks = re.search(r'<path fill="[^"]*" stroke="#fff" stroke-width="\d+" d="([^"]*)"/>', text)
        self.marks = [polygon(part) for part in marks[1].split("z")[:-1]] if marks else []

    def polygons(self):
        return [it for tiles in self.tiles for it in tiles]

    def lengths(self):
        return [math.dist(*edge) for it in self.polygons() for edge in edges_of(it)]

    def cell_area(self):
        """Returns the least area that two offsets of copies span with a third."""
        x, y = self.copies[0]
        steps = [(u - x, v - y) for u, v in self.copies[1:]]
        areas = {abs(a * d - b * c) for (a, b), (c, d) in itertools.combinations(steps, 2)}
        return min(areas - {0})

    def places(self):
        """Returns points of the picture, from border to border. None is whole, so none is a corner of a tile."""
        across, down = ([start + 1.37 + (length - 2.9) * k / 4 for k in range(5)] for start, length in self.frame)
        return itertools.product(across, down)

    def tiles_at(self, x, y):
        """Returns the number of tiles of all copies that have a point inside."""
        return sum(is_inside(x - u, y - v, it) for u, v in self.copies for it in self.polygons())


def polygon(path):
    """Returns the corners of a path of a first corner and steps."""
    x, y, *steps = numbers_of(path)
    corners = [(x, y)]
    for u, v in zip(steps[::2], steps[1::2], strict=True):
        corners.append((corners[-1][0] + u, corners[-1][1] + v))
    return corners


def edges_of(corners):
    return zip(corners, corners[1:] + corners[:1])


def area(corners):
    return abs(sum(x * v - y * u for (x, y), (u, v) in edges_of(corners))) / 2


def is_inside(x, y, corners):
    crossings = (a + (y - b) * (c - a) / (d - b) for (a, b), (c, d) in edges_of(corners) if (b > y) != (d > y))
    return sum(it > x for it in crossings) % 2


def lightness(colour):
    """Returns the lightness of a colour, from 0 to 100 (CIE 1976)."""
    parts = [int(colour[it : it + 2], 16) / 255 for it in (1, 3, 5)]
    red, green, blue = (it / 12.92 if it <= 0.04045 else ((it + 0.055) / 1.055) ** 2.4 for it in parts)
    return 116 * (0.2126 * red + 0.7152 * green + 0.0722 * blue) ** (1 / 3) - 16


def called(checks, file, folder, *words):
    """Calls the gallery on a file of this text. Returns its status and what it says."""
    with open(f"{checks.room}/f.ds", "w", encoding="utf-8") as it:
        it.write(file)
    ran = subprocess.run([GALLERY, "f.ds", folder, *words], cwd=checks.room, capture_output=True, encoding="utf-8", check=False)
    return ran.returncode, ran.stderr


def read(checks, folder):
    """Returns the page of a gallery, and the picture of each name."""
    pictures = {}
    for name in os.listdir(f"{checks.room}/{folder}/patches"):
        with open(f"{checks.room}/{folder}/patches/{name}", encoding="utf-8") as it:
            pictures[name.removesuffix(".svg")] = Picture(it.read())
    with open(f"{checks.room}/{folder}/index.html", encoding="utf-8") as it:
        return it.read(), pictures


def measured(checks, pictures):
    """The lengths of edges, and copies that cover the picture once."""
    for name, ratio, tolerance in RATIOS:
        lengths = pictures[name].lengths()
        found = max(lengths) / min(lengths)
        checks.same(f"{name}: longest edge {found:.4f}, wanted {ratio:.4f}", abs(found / ratio - 1) <= tolerance, True)
    for name, it in pictures.items():
        checks.same(f"{name}: copies", len(it.copies) >= 16, True)
        whole = sum(map(area, it.polygons()))
        checks.same(f"{name}: the tiles fill the cell", abs(whole / it.cell_area() - 1) < 1 / 1000, True)
        checks.same(f"{name}: tiles at points", {it.tiles_at(*place) for place in it.places()}, {1})


def counted(checks, text, pictures):
    """A name lists the tiles round a vertex. So V vertices with k tiles of n edges each make V k / n such tiles."""
    names = re.findall(r"# ([0-9.]+)", text)
    info = re.findall(r" tiles (\d+) vertices (\d+) ", checks.written("info f", checks.written("torus f", text)))
    for number, (name, (tiles, vertices)) in enumerate(zip(names, info, strict=True), 1):
        around = [int(it) for it in name.split(".")]
        found = [len(it) for it in pictures[f"{number}-{name}"].polygons()]
        wanted = [it for it in sorted(set(around)) for _ in range(int(vertices) * around.count(it) // it)]
        checks.same(f"{name}: corners of its tiles", (sorted(found), len(found)), (wanted, int(tiles)))
        dual = [len(it) for it in pictures[f"{number}-Dual-of-{name}"].polygons()]
        checks.same(f"dual of {name}: corners of its tiles", dual, [len(around)] * int(vertices))
        kinds = pictures[f"{number}-{name}"].tiles
        checks.same(f"{name}: corners of a class", {len({len(it) for it in kind}) for kind in kinds}, {1})


def marked(checks):
    """A net with more symmetries than the group has one mark for each chamber over chamber 1, and each is in one tile."""
    with open(f"{TOP}/examples/isohedral.ds", encoding="utf-8") as it:
        text = it.read()
    checks.same("status of a gallery with marks", called(checks, text, "types")[0], 0)
    _, pictures = read(checks, "types")
    torus = checks.written("torus f", text)
    sizes, covers = (re.findall(r" chambers (\d+) .* minimal (\w+)", checks.written("info f", it)) for it in (text, torus))
    for number, ((size, is_minimal), (cover, _)) in enumerate(zip(sizes, covers, strict=True), 1):
        it = pictures[f"{number}"]
        wanted = 0 if is_minimal == "yes" else int(cover) // int(size)
        centres = [tuple(sum(part) / 3 for part in zip(*mark)) for mark in it.marks]
        inside = {sum(is_inside(*place, tile) for tile in it.polygons()) for place in centres}
        checks.same(f"type {number}: marks", (len(it.marks), inside), (wanted, {1} if wanted else set()))
        checks.same(f"type {number}: classes", len(it.tiles), 1)


def kept(checks, made, name):
    """The gallery in docs/gallery has the tilings of its file: the exact drawings, and a picture of each."""
    for part in ("exact", "patches"):
        folders = f"{checks.room}/{made}/{part}", f"{TOP}/docs/gallery/{name}/{part}"
        found, wanted = (sorted(os.listdir(it)) for it in folders)
        checks.same(f"docs/gallery/{name}/{part}", found, wanted)
        if part == "exact":
            _, differ, errors = filecmp.cmpfiles(*folders, wanted, shallow=False)
            checks.same(f"docs/gallery/{name}: exact drawings that differ", (differ, errors), ([], []))


def left_out(checks):
    """Symbols that cannot be drawn are listed, and the others are drawn. A file with a fault has no page."""
    many = TRIANGLES
    for _ in range(3):
        many = checks.written("chamfer f", many)
    file = f"# `a` & b\n<1:1,1,1:4,4> # squares <1>\n{NOT_FLAT}\n{TOO_WIDE} # fan\n{many}{FALLING}"
    reasons = ["Symbol 2: not flat -1/42", "fan: too wide step 20 row 1 column 23", "Symbol 4: too many vertices 127"]
    said = "".join(f"tools/gallery: {it}\n" for it in (*reasons, "2 of 5 symbols drawn in some"))
    checks.same("a gallery of five symbols", called(checks, file, "some"), (0, said))
    page, pictures = read(checks, "some")
    checks.same("what the page leaves out", re.findall(r"<li>([^<]*) <code>&lt;", page), reasons)
    checks.same("what the page shows", (sorted(pictures), page.count("<article")), (["1-squares-1", "5"], 2))
    checks.same("vertices that fall on others", re.findall(r"(\d+) of (\d+) vertices fall on others", page), [("2", "5")])
    checks.same("the comment at the head", "<p><code>a</code> &amp; b</p>" in page, True)
    said = "tools/gallery: f.ds: file: symbol 2 at 16: unexpected end\n"
    checks.same("a gallery of a file with a fault", called(checks, f"{TRIANGLES}<1:", "none"), (1, said))
    checks.same("a folder is not made", os.path.exists(f"{checks.room}/none"), False)


def colours(checks):
    """No two colours of tiles are equally light, so they differ for every eye and in print."""
    sys.path.insert(0, TOOLS)
    from gallery_parts import picture

    for name, palette in (("light", picture.LIGHT), ("dark", picture.DARK)):
        levels = sorted(map(lightness, palette))
        steps = [high - low for low, high in zip(levels, levels[1:])]
        checks.same(f"{name}: least step of lightness {min(steps):.1f}", min(steps) >= 8, True)


def look(checks):
    """Looks at the pictures of the Archimedean tilings and of their duals, and at a file that cannot be drawn as a whole."""
    with open(f"{TOP}/examples/archimedean.ds", encoding="utf-8") as it:
        text = it.read()
    status, _ = called(checks, text, "all", "--duals")
    checks.same("status of the gallery", status, 0)
    page, pictures = read(checks, "all")
    checks.same("cards of the gallery", (page.count("<article"), len(pictures)), (22, 22))
    links = re.findall(r'(?:src|href)="([^"]*)"', page)
    checks.same("files of the page", (len(links), [it for it in links if not os.path.isfile(f"{checks.room}/all/{it}")]), (68, []))
    measured(checks, pictures)
    counted(checks, text, pictures)
    kept(checks, "all", "archimedean")
    marked(checks)
    kept(checks, "types", "isohedral")
    left_out(checks)
    colours(checks)
