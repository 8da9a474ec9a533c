"""The page of a gallery: a card for each tiling, filters, and a list of what could not be drawn."""
import html, pathlib, re, string

from gallery_parts import picture

HERE = pathlib.Path(__file__).resolve().parent
FILTERS = {"group": "Group", "tiles": "Classes of tiles", "vertices": "Classes of vertices", "edges": "Classes of edges"}


def page(title, intro, entries):
    """Returns the page of the entries of a gallery. `intro` is plain text, one paragraph a line."""
    drawn = [it for it in entries if it.tiling]
    parts = {
        "title": html.escape(title),
        "intro": "\n".join(f"<p>{marked_up(it)}</p>" for it in intro),
        "colours": colours(drawn),
        "filters": "\n".join(select(it, label, drawn) for it, label in FILTERS.items()),
        "left_out": left_out([it for it in entries if not it.tiling]),
        "cards": "\n".join(map(card, drawn)),
    }
    return string.Template((HERE / "page.html").read_text(encoding="utf-8")).substitute(parts)


def marked_up(text):
    """Returns a paragraph in HTML. What stands between two backquotes is code."""
    return re.sub(r"`([^`]*)`", r"<code>\1</code>", html.escape(text))


def count(number, one, many):
    return f"{number} {one if number == 1 else many}"


def card(entry):
    """Returns the card of a tiling. Its data are what the filters compare."""
    facts, name = entry.facts, html.escape(entry.name)
    data = " ".join(f'data-{it}="{facts[it]}"' for it in FILTERS)
    counts = f"{count(facts['tiles'], 'class', 'classes')} of tiles, {facts['vertices']} of vertices, {facts['edges']} of edges"
    return f"""<article {data}>
<a href="patches/{entry.file}"><img src="patches/{entry.file}" alt="Patch of {name}" loading="lazy" width="400" height="300"></a>
<div class="facts">
<h2>{name}</h2>
<p class="counts">Group <span class="group">{facts["group"]}</span>. {counts}.</p>
<ul class="key" aria-label="Colours of the classes of tiles">{key(entry)}</ul>
{warning(entry)}<div class="symbol">
<code>{html.escape(entry.line)}</code><button type="button" hidden aria-label="Copy the symbol of {name}">Copy</button>
</div>
<p class="counts"><a href="exact/{entry.file}" aria-label="Exact drawing of {name}">Exact drawing</a></p>
</div>
</article>"""


def swatch(rank):
    """Returns the name of the style that shows the look of the class of tiles of a rank."""
    colour, turn = picture.look(rank)
    return f"k{colour}" if turn is None else f"k{colour}-{turn}"


def key(entry):
    """Returns a line for each class of tiles: its colour, and how many edges its tiles have."""
    degrees = [entry.symbol.tile_degrees[it] for it in entry.tiling.kinds()]
    return "".join(f'<li><span class="swatch {swatch(rank)}"></span>{it} edges</li>' for rank, it in enumerate(degrees))


def colours(entries):
    """Returns the styles of the looks in use."""
    most = max((len(it.symbol.tile_degrees) for it in entries), default=0)
    rules, dark = [], []
    for rank in range(min(most, len(picture.LIGHT) * len(picture.TURNS))):
        colour, turn = picture.look(rank)
        rules.append(f".{swatch(rank)}{{background-color:{picture.LIGHT[colour]}{stripes(turn)}}}")
        dark.append(f".{swatch(rank)}{{background-color:{picture.DARK[colour]}}}")
    return f"{''.join(rules)}@media(prefers-color-scheme:dark){{{''.join(dark)}}}"


def stripes(turn):
    """Returns the style of stripes at an angle. An angle of CSS is that of the normal of the stripes."""
    return "" if turn is None else f";background-image:repeating-linear-gradient({turn}deg,#fff 0 2px,#0000 2px 5px)"


def warning(entry):
    """Returns a paragraph if the picture does not show the whole tiling."""
    fallen, flat = entry.tiling.fallen(), entry.tiling.flat()
    if not fallen and not flat:
        return ""
    parts = [f"{fallen} of {count(len(entry.tiling.points), 'vertex', 'vertices')} fall on others"] if fallen else []
    parts += [f"{flat} of {count(len(entry.tiling.tiles), 'tile', 'tiles')} have no area"] if flat else []
    return f'<p class="warn">This drawing does not show the whole tiling: in each cell {" and ".join(parts)}.</p>\n'


def value(text):
    """Orders values of a filter: numbers by size, names by their letters."""
    return (0, text, "") if isinstance(text, int) else (1, 0, text)


def select(name, label, entries):
    """Returns a filter: a choice among the values that occur."""
    values = sorted({it.facts[name] for it in entries}, key=value)
    options = "".join(f'<option value="{it}">{it}</option>' for it in values)
    return f'<label>{label}<select name="{name}"><option value="">all</option>{options}</select></label>'


def left_out(entries):
    """Returns the list of the symbols that the program refused to draw, each with the reason."""
    if not entries:
        return ""
    rows = [[html.escape(text) for text in (it.name, it.refusal, it.line)] for it in entries]
    lines = "".join(f"<li>{name}: {refusal} <code>{line}</code></li>" for name, refusal, line in rows)
    return f"<section>\n<p>{count(len(entries), 'symbol', 'symbols')} could not be drawn:</p>\n<ul>{lines}</ul>\n</section>"
