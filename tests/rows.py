"""Worked rows of the whole program: what it is given, and what it has to write, tell and answer."""

# The flat symbols of up to two chambers, in the order of the catalogue, without their numbers.
SYMBOLS = (
    "1:1,1,1:3,6",
    "1:1,1,1:4,4",
    "1:1,1,1:6,3",
    "2:1 2,1 2,2:3 3,6",
    "2:1 2,1 2,2:3 6,4",
    "2:1 2,1 2,2:4 4,4",
    "2:1 2,2,1 2:4,4",
    "2:1 2,2,2:4,4",
    "2:1 2,2,2:6,3",
    "2:2,1 2,1 2:4,3 6",
    "2:2,1 2,1 2:4,4 4",
    "2:2,1 2,1 2:6,3 3",
    "2:2,1 2,2:4,4",
    "2:2,2,1 2:3,6",
    "2:2,2,1 2:4,4",
    "2:2,2,2:3,6",
    "2:2,2,2:4,4",
    "2:2,2,2:6,3",
)

ALL = tuple(range(len(SYMBOLS)))
ONE_TILE = (0, 1, 2, 6, 7, 8, 9, 10, 11, 12, 13, 14, 15, 16, 17)
ONE_VERTEX = (0, 1, 2, 3, 4, 5, 6, 7, 8, 12, 13, 14, 15, 16, 17)

# The words of a catalogue, and the places of the symbols that are written, counted from 0.
CATALOGUES = (
    ("catalogue 1", (0, 1, 2)),
    ("catalogue 0000000002", ALL),
    ("catalogue 2 --workers 64 --round 1", ALL),
    ("catalogue 2 --tiles 1", ONE_TILE),
    ("catalogue --tiles=1 2", ONE_TILE),
    ("catalogue --tiles 1 -- 2", ONE_TILE),
    ("catalogue 2 --vertices 1", ONE_VERTEX),
    ("catalogue 2 --minimal", (0, 1, 2, 4, 9)),
    ("catalogue 2 --least-face 7", ()),
    ("catalogue 2 --least-degree 6", (0, 3, 13, 15)),
    ("catalogue 2 --faces 4 --degrees 4", (1, 5, 6, 7, 10, 12, 14, 16)),
    ("catalogue 2 --faces 6,3", (0, 2, 3, 4, 8, 11, 13, 15, 17)),
    ("catalogue 2 --degrees=3-4,6-216 --faces 3-5 --minimal", (0, 1, 9)),
    ("shard 1 2 2", (0, 1, 2, 6, 9, 10, 11, 13, 14)),
    ("shard 2 2 2 --workers 3", (3, 4, 5, 7, 8, 12, 15, 16, 17)),
    ("shard 1 1 2", range(18)),
    ("shard 3 3 1", ()),
)

# Words that give the same bytes. With 14 chambers some jobs have so many members that their lines are made in parts.
SAME = (
    ("catalogue 8 --workers 4", "catalogue 8 --workers 1 --round 4096"),
    ("catalogue 14 --workers 4", "catalogue 14 --workers 1 --round 4096"),
    ("catalogue --minimal --least-face=6 --degrees=3,1-2 2 --workers=64 --vertices=3", "catalogue 2 --faces 6-216 --degrees 1-3 --vertices 3 --minimal"),
    ("catalogue 4 --least-degree=5 --least-face 5", "catalogue 4 --degrees 5-216 --faces=5-216"),
    ("exercise 1 00", "exercise 1 0"),
)

# The words of a catalogue, and how many symbols it has.
COUNTS = (
    ("catalogue 8", 445),
    ("catalogue 9", 630),
    ("catalogue 10", 1157),
    ("catalogue 11", 1663),
    ("catalogue 12", 3236),
    ("catalogue 13", 4811),
    ("catalogue 14", 9038),
    ("catalogue 8 --minimal", 270),
    ("catalogue 9 --minimal", 444),
    ("catalogue 10 --minimal", 879),
    ("catalogue 11 --minimal", 1385),
    ("catalogue 12 --minimal", 2638),
    ("catalogue 13 --minimal", 4213),
    ("catalogue 14 --minimal", 8060),
    ("catalogue 12 --tiles 1", 93),
    ("catalogue 12 --vertices 1", 93),
    ("catalogue 24 --tiles 2", 1363),
)

# Words that are not taken.
NOT_TAKEN = (
    "",
    "catalogue",
    "catalogue 0",
    "catalogue 37",
    "catalogue 2 2",
    "catalogue 2 --min",
    "catalogue 2 --workers 65",
    "catalogue 2 --pause 1",
    "catalogue 2 --checkpoint -c",
    "catalogue 2 --help",
    "--version",
    "resume",
    "resume c --tiles 1",
    "draw f --cell round",
    "exercise 1",
    "exercise 1 1 1",
    "exercise 1 10001",
    "exercise 2147483648 1",
    "exercise 1 1 --workers 1",
    "Catalogue 2",
    "help",
    "-h",
    "canon -- -f",
    "catalogue 00000000002",
    "catalogue -1",
    "catalogue 2 -t 1",
    "catalogue 2 --tiles=0",
    "catalogue 2 --minimal --minimal",
    "catalogue 2 --faces 5-3",
    "catalogue 2 --faces 3,",
    "catalogue 2 --faces 3 --least-face 3",
    "catalogue 2 --faces --minimal",
    "draw f --cell=round",
    "apply tx f",
    "apply tttt f",
    "apply f",
    "apply D f",
    "apply t f g",
    "apply t f --cell square",
    "apply t -f",
    "resume-shard",
    "resume-shard c --tiles 1",
    "shard 1 2",
    "shard 0 2 2",
    "shard 3 2 2",
    "shard 1 9 2",
    "shard 1 2 2 --pause 1",
    "merge",
    "merge -f",
    "merge f --minimal",
    "merge f f f f f f f f f",
)

FIRST_ROUND = "dressline checkpoint 2\nrun 1\nrequest 2 0 0 all\nfaces 3-216\ndegrees 3-216\nlines 3\nbytes 54\nat 2 1 1 2 2 2 1\n"
OLD_FIRST_ROUND = "dressline checkpoint 1\nrun 1\nrequest 2 0 0 3 3 all\nlines 3\nbytes 54\nat 2 1 1 2 2 2 1\n"

# A checkpoint of the second of two shards.
SHARD = "dressline shard 2 2\n" + FIRST_ROUND.replace("lines 3", "lines 1").replace("bytes 54", "bytes 24").replace("2 2 2 1", "2 2 2 1 3 6 4 4")

# A command, a file that is refused, and the line that tells why. To go on from a name that holds no checkpoint text is one.
REFUSED = (
    ("resume", OLD_FIRST_ROUND.replace("checkpoint 1", "checkpoint 9"), "checkpoint: version"),
    ("resume", OLD_FIRST_ROUND[:68], "checkpoint: shape line 6"),
    ("resume", OLD_FIRST_ROUND.replace("lines 3", "lines 03"), "checkpoint: shape line 4"),
    ("resume", OLD_FIRST_ROUND.replace("request 2", "request 37"), "checkpoint: range line 3"),
    ("resume", OLD_FIRST_ROUND.replace("2 2 2 1", "1 2 2 2"), "checkpoint: position"),
    ("resume", "d" * 4097, "checkpoint: too long"),
    ("resume", SHARD, "checkpoint: version"),
    ("resume-shard", FIRST_ROUND, "checkpoint: shard"),
    ("resume-shard", SHARD.replace("shard 2 2", "shard 3 2"), "checkpoint: shard"),
    ("resume-shard", SHARD.replace("shard 2 2", "shard 2 02"), "checkpoint: shard"),
    ("resume-shard", SHARD.replace("shard 2 2", "shard 1 2"), "checkpoint: other shard"),
    ("resume-shard", SHARD.replace("lines 1", "lines 01"), "checkpoint: shape line 6"),
    ("resume-shard", "dressline shard 2 2\n" + "d" * 9000, "checkpoint: too long"),
    ("resume-shard", "d" * 9000, "checkpoint: shard"),
    *(("lines", "<1.1:1:1,1,1:3,6>"[:length], f"file: symbol 1 at {length}: unexpected end") for length in range(1, 17)),
    ("lines", "<1.1;1", "file: symbol 1 at 4: stray"),
    ("lines", "<1.1:1234567890:", "file: symbol 1 at 5: number too long"),
    ("lines", "<1.1:1:1,1,1:3,6><1.1:1 3:", "file: symbol 2 at 24: dimension"),
    ("lines", "<1.1:3:2 3,1 2 3,1 3:4 3,3 4>", "file: symbol 1 at 0: not commuting 1"),
    ("lines", "<1.1:1:1,1,1:3,0>", "file: symbol 1 at 0: degree zero vertex 1"),
    ("lines", "<1.1:2:2,2,1 2:3,5>", "file: symbol 1 at 0: not multiple vertex 1 r 2 m 5"),
    ("lines", "<1.1:1:1,1,1:3,31>", "file: symbol 1 at 0: branching too large vertex 1 v 31"),
    ("minimal", "<1.1:2:1 2,2,1 2:32,4>", "symbol 1: branching too large 32"),
    ("minimal", "<1.1:1:1,1,1:4,4><1.2:2:1 2,2,1 2:32,4>", "symbol 2: branching too large 32"),
    ("minimal", "<1.1:2:1 2,2,1 2:32,60>", "symbol 1: branching too large 32"),
    ("minimal", "<1.1:2:1 2,2,1 2:30,60>", "symbol 1: branching too large 60"),
    ("torus", "<1.1:1:1,1,1:3,3>", "symbol 1: not flat 1/6"),
    ("torus", "<1.1:1:1,1,1:3,7>", "symbol 1: not flat -1/42"),
    ("sheets", "<1.1:1:1,1,1:3,3>", "symbol 1: not flat 1/6"),
    ("sheets", "<1.1:1:1,1,1:4,4><1.2:1:1,1,1:3,7>", "symbol 2: not flat -1/42"),
    ("draw", "<1.1:1:1,1,1:4,4><1.2:1:1,1,1:3,7>", "symbol 2: not flat -1/42"),
)

# Chains of calls under a name: what it holds at first, and for each call its words, how many lines the chain has written before
# and after it, the line that tells of a pause, and the number, the bytes and the position of the checkpoint that it leaves.
PAUSES = ("catalogue 2 --round 1 --pause 1 --checkpoint f", 0, 1, "paused at 1 lines", 1, 18, "1 1 1 1 4 4")
CHAINS = (
    ("", (PAUSES, ("resume f", 1, 18, "", 2, 365, "end"), ("resume f", 18, 18, "", 2, 365, "end"))),
    ("", (PAUSES, ("resume f --pause 17", 1, 18, "", 2, 365, "end"))),
    ("", (PAUSES, ("resume f --pause=16 --workers 3", 1, 17, "paused at 17 lines", 2, 346, "2 2 2 2 1 1 1 6 6 3 3"))),
    ("", (PAUSES, ("resume f --pause 1", 1, 2, "paused at 2 lines", 2, 18, "1 1 1 1 6 3"), ("resume f", 2, 18, "", 3, 347, "end"))),
    (FIRST_ROUND, (("resume f --round 2", 3, 18, "", 2, 329, "end"),)),
    (OLD_FIRST_ROUND, (("resume f", 3, 18, "", 2, 329, "end"),)),
    (OLD_FIRST_ROUND.replace("lines 3", "lines 7"), (("resume f", 7, 22, "", 2, 333, "end"),)),
    (OLD_FIRST_ROUND.replace("lines 3", "lines 0"), (("resume f --pause 1", 0, 1, "paused at 1 lines", 2, 24, "2 1 1 2 2 2 1 3 6 4 4"),)),
)

# A checkpoint after which no line may be numbered.
FULL = OLD_FIRST_ROUND.replace("lines 3", "lines 1000000000000000000")

SQUARES = "<1.1:1:1,1,1:4,4>\n"
OCTAGONS = "<1.1:3:1 2 3,1 3,2 3:4 8,3>\n"
ROTATIONS = "<1.1:2:2,2,2:4,4>\n"
TRIHEXAGONS = "<1.1:2:1 2,1 2,2:3 6,4>\n"
TURNED_OCTAGONS = "<1.1:6:4 5 6,4 6 5,5 4 6:4 8,3>\n"
TRUNCATED_AMBO = "<1.1:6:1 2 3 4 5 6,2 5 6,3 4 6:4 8 8,3>\n"
GREAT_RHOMBS = "<1.1:6:1 2 3 4 5 6,2 5 6,3 4 6:4 6 12,3>\n"
ONE_SQUARE = "<1.1:8:2 4 6 8,8 3 5 7,6 5 8 7:4,4>\n"

SQUARE_DRAWING = """\
<svg xmlns="http://www.w3.org/2000/svg" viewBox="-100 -100 1200 1200" fill="none" stroke="black" stroke-width="6">
<path d="M0 0L1000 0L1000 1000L0 1000Z" stroke="silver"/>
<path d="M0 0L1000 0"/>
<path d="M0 0L0 1000"/>
<circle cx="0" cy="0" r="12" data-at="0/1 0/1"/>
</svg>
"""
TRIANGLE_DRAWING = """\
<svg xmlns="http://www.w3.org/2000/svg" viewBox="-100 -966 1700 1932" fill="none" stroke="black" stroke-width="6">
<path d="M0 0L1000 0L1500 866L500 866Z" stroke="silver"/>
<path d="M0 0L500 -866"/>
<path d="M0 0L1000 0"/>
<path d="M0 0L500 866"/>
<circle cx="0" cy="0" r="12" data-at="0/1 0/1"/>
</svg>
"""

# A command, a file and what is written of it.
FILES = (
    ("lines", "<7.3:3:1 2 3,2 3,3 2:8 4,3>", "<1.1:3:1 2 3,2 3,3 2:8 4,3>\n"),
    ("lines", "# one\n<1 2:1,\n 1,1:3,6>  # triangular\n", "<1.1:1:1,1,1:3,6>\n"),
    ("lines", "<1:1,1,1:4,4>\t<1:1,1,1:6,3>", "<1.1:1:1,1,1:4,4>\n<1.2:1:1,1,1:6,3>\n"),
    ("canon", "<7.3:3:1 2 3,2 3,3 2:8 4,3>", OCTAGONS),
    ("canon", "<1.1:3:1 2 3,2 3,1 3:8 4,3>", OCTAGONS),
    ("canon", OCTAGONS, OCTAGONS),
    ("canon", "# nothing\n#", ""),
    ("lines", "", ""),
    ("dual", OCTAGONS, "<1.1:3:1 3,2 3,1 2 3:3,8 4>\n"),
    ("dual --", OCTAGONS, "<1.1:3:1 3,2 3,1 2 3:3,8 4>\n"),
    ("dual", "<1.1:3:2 3,1 3,1 2 3:3,4 8>", OCTAGONS),
    ("minimal", ROTATIONS, SQUARES),
    ("minimal", OCTAGONS, OCTAGONS),
    ("minimal", "<1.1:3:1 2 3,1 3,2 3:6 6,3>", "<1.1:1:1,1,1:6,3>\n"),
    ("oriented", SQUARES, ROTATIONS),
    ("oriented", ROTATIONS, ROTATIONS),
    ("oriented", "<1.1:1:1,1,1:3,7>", "<1.1:2:2,2,2:3,7>\n"),
    ("torus", SQUARES, "<1.1:8:2 7 6 8,3 5 7 8,4 6 5 8:4,4>\n"),
    (
        "sheets",
        f"{SQUARES}<1.2:1:1,1,1:3,6><1.3:2:2,2,2:4,4><1.4:8:2 7 6 8,3 5 7 8,4 6 5 8:4,4>",
        "1 sheets 8\n2 sheets 12\n3 sheets 4\n4 sheets 1\n",
    ),
    ("sheets", "", ""),
    ("draw", SQUARES, SQUARE_DRAWING),
    ("draw --cell square", SQUARES * 2, SQUARE_DRAWING * 2),
    ("draw --cell hex", "<1.1:1:1,1,1:3,6>", TRIANGLE_DRAWING),
    ("draw --cell own", SQUARES, SQUARE_DRAWING),
    ("draw --cell=own", "<1.1:1:1,1,1:3,6>", TRIANGLE_DRAWING),
    ("draw", "", ""),
    ("ambo", "<1.1:1:1,1,1:3,6>", TRIHEXAGONS),
    ("truncate", SQUARES, OCTAGONS),
    ("chamfer", "", ""),
    ("apply ta", SQUARES, TRUNCATED_AMBO),
    ("apply td", "<1.1:1:1,1,1:3,6>", "<1.1:3:1 2 3,1 3,2 3:3 12,3>\n"),
    ("apply -- ta", SQUARES, TRUNCATED_AMBO),
    ("apply dad", "", ""),
    (
        "info",
        f"# Archimedean\n{OCTAGONS}{TRIHEXAGONS}<1.3:1:1,1,1:6,3>\n",
        "1 chambers 3 tiles 2 vertices 1 edges 2 curvature 0 orientation weak group *442 minimal yes\n"
        "2 chambers 2 tiles 2 vertices 1 edges 1 curvature 0 orientation weak group *632 minimal yes\n"
        "3 chambers 1 tiles 1 vertices 1 edges 1 curvature 0 orientation weak group *632 minimal yes\n"
        "total *442 1\ntotal *632 2\n",
    ),
    (
        "info",
        ROTATIONS,
        "1 chambers 2 tiles 1 vertices 1 edges 1 curvature 0 orientation oriented group 442 minimal no\n"
        "total 442 1\n",
    ),
)

# Files, and the places of the symbols that a merge writes of them.
EVEN = (0, 1, 2, 6, 9, 10, 11, 13, 14)
ODD = (3, 4, 5, 7, 8, 12, 15, 16, 17)
MERGES = (
    ((EVEN, ODD), ALL),
    ((ODD, EVEN), ALL),
    ((ALL,), ALL),
    (((),), ()),
    (((), (2, 4), ()), (2, 4)),
    (((7,), (6,), (5,), (4,), (3,), (2,), (1,), (0,)), tuple(range(8))),
    (((0, 9, 17), (3, 4), (1, 10)), (0, 1, 3, 4, 9, 10, 17)),
)

# Files that are not merged, and why.
STRAY = "<1.1;1"
NOT_MERGED = (
    (((0, 1, 2), (0, 1, 2)), "file 2: symbol 1 doubled"),
    (((0, 0),), "file 1: symbol 2 not ascending"),
    (((1, 0),), "file 1: symbol 2 not ascending"),
    (((0, 1, 4), (2, 8), (5, 8, 1)), "file 3: symbol 3 not ascending"),
    (((0, 1, 4), (2, 8), (5, 8)), "file 3: symbol 2 doubled"),
    (((3, 7), (0, 7), (3, 5)), "file 2: symbol 2 doubled"),
    (((0, 1), (0, 1), (4, 2)), "file 3: symbol 2 not ascending"),
    (((8, 3), (4, 2)), "file 1: symbol 2 not ascending"),
    (((2, 1), STRAY), "file 2: symbol 1 at 4: stray"),
    ((STRAY, (0, 1), "#<"), "file 1: symbol 1 at 4: stray"),
    (((0,), "<1:1,1,1:3,3><2"), "file 2: symbol 2 at 15: unexpected end"),
)

# What exercises write, and how one begins that is made twice.
EXERCISES = (
    ("exercise 1 1", "made 1\nchambers 36\nclasses 1\ngroup 333 1\n"),
    ("exercise 00001 -- 0000000001", "made 1\nchambers 36\nclasses 1\ngroup 333 1\n"),
    ("exercise 1 0", "made 0\nchambers 0\nclasses 0\n"),
)
TWICE = ("exercise 2147483647 100", "made 100\nchambers 3278\nclasses 80\n")

# What a draw of an exercise picks: commands on a file.
CHANGES = ("canon", "dual", "ambo", "truncate", "chamfer")
COVERS = ("canon", "oriented", "torus")

# The command of each letter of a word of operations.
LETTERS = {"d": "dual", "a": "ambo", "t": "truncate", "c": "chamfer"}

# Two commands on files that write the same.
ALIKE = (
    ("apply ad", OCTAGONS, "apply a", OCTAGONS),
    ("apply dd", "<7.3:3:1 2 3,2 3,3 2:8 4,3>", "canon", OCTAGONS),
    ("apply -- ad", OCTAGONS, "apply ad", OCTAGONS),
    ("oriented", OCTAGONS, "canon", TURNED_OCTAGONS),
    ("oriented", ONE_SQUARE, "canon", ONE_SQUARE),
    ("torus", ONE_SQUARE, "canon", ONE_SQUARE),
    ("torus", OCTAGONS, "torus", TURNED_OCTAGONS),
)

# A symbol, its curvature, its orientation and the name of its group.
FACTS = (
    ("<1:1,1,1:3,6>", "0", "weak", "*632"),
    ("<1:1,1,1:4,4>", "0", "weak", "*442"),
    ("<1:1,1,1:3,7>", "-1/42", "weak", "*732"),
    ("<1:1,1,1:3,3>", "1/6", "weak", "*332"),
    ("<1:1,1,1:12,30>", "-23/60", "weak", "*(30)(12)2"),
    (ROTATIONS, "0", "oriented", "442"),
    (TRIHEXAGONS, "0", "weak", "*632"),
    (OCTAGONS, "0", "weak", "*442"),
    ("<4:2 4,4 3,3 4:4,4>", "0", "none", "22x"),
    ("<4:3 4,2 4,2 4:2,1 1>", "4", "oriented", "1"),
    (ONE_SQUARE, "0", "oriented", "o"),
    ("<8:2 4 6 8,8 3 5 7,5 6 8 7:4,4>", "0", "none", "xx"),
    ("<8:2 4 6 8,8 3 5 7,6 5 3 4 7 8:4,4 4>", "0", "weak", "**"),
    ("<8:2 4 6 8,8 3 5 7,5 6 3 4 7 8:4,4 4>", "0", "none", "*x"),
    ("<8:2 4 6 8,8 3 5 7,2 4 6 8:4,4>", "0", "oriented", "2222"),
    ("<8:2 4 6 8,8 3 5 7,2 3 4 6 7 8:4,4 4>", "0", "weak", "22*"),
)

# A symbol, and the number of chambers of its torus cover.
TORI = (
    (SQUARES, 8),
    ("<1:1,1,1:6,3>", 12),
    ("<1:1,1,1:3,6>", 12),
    (ROTATIONS, 8),
    (TRIHEXAGONS, 24),
    (OCTAGONS, 24),
    (TURNED_OCTAGONS, 24),
    (GREAT_RHOMBS, 72),
    (ONE_SQUARE, 8),
)

# The order of the point group of each group of the plane, which is the number of sheets of a torus cover.
ORDERS = {
    "*632": 12,
    "632": 6,
    "*442": 8,
    "442": 4,
    "4*2": 8,
    "*333": 6,
    "333": 3,
    "3*3": 6,
    "*2222": 4,
    "2222": 2,
    "2*22": 4,
    "22*": 4,
    "22x": 4,
    "**": 2,
    "*x": 2,
    "xx": 2,
    "o": 1,
}
