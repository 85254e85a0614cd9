"""The chunks of a tier as parts of an SVG text: boxes, or in a large store a strip of shades.

Free chunks are one dashed line, and an entry is one shape. Where entries are many, all of one colour are one shape.
"""
from html import escape
from itertools import groupby
from typing import Iterator, List, Tuple

from .answers import Entry, Tier
from .draw_plan import Plan, Sheet

__all__ = ["COLOURS", "FREE", "GREY", "RULE", "SHADES"]
__all__ += ["chunks_of", "free_chunks", "free_strip", "free_tier", "key_fits", "marks_of", "seams", "shape", "text"]

# Fill and text. Neighbours in this cycle differ clearly, with each common kind of colour blindness too.
COLOURS = (("#0072b2", "#fff"), ("#e69f00", "#000"), ("#56b4e9", "#000"), ("#d55e00", "#000"))
# Less than a quarter, half, three quarters, all of the chunks in a column are marked; and all are.
SHADES = ("#b5d4ec", "#79b4de", "#3c8ecb", "#1766ab", "#08305f")
GREY, OUTLINE, RULE, FREE, PALE = "#57606a", "#9aa5b1", "#d0d7de", "#d9dfe5", "#f0f3f6"


def text(x: int, y: int, words: str, attributes: str = "") -> str:
    """A line of text. What the attributes leave open is as in the element around it."""
    return f'<text x="{x}" y="{y}"{attributes and " " + attributes}>{escape(words)}</text>'


def chunks_of(sheet: Sheet, tier: Tier) -> List[str]:
    """All chunks of a tier."""
    plan, chunks = sheet.plan, sheet.settings.chunks
    if not plan.width:
        return _strip(plan, tier, chunks)
    if tier.segment is None:
        return [*free_tier(plan, chunks), *_line_numbers(plan)]
    entries = sorted(tier.entries, key=lambda entry: entry.row.chunk)
    shapes = _each(plan, entries) if sheet.tooltips else _by_colour(plan, entries)
    return [free_chunks(plan, chunks), *shapes, seams(plan, chunks), *_keys(plan, entries), *_line_numbers(plan)]


def marks_of(tier: Tier, chunks: int) -> bytearray:
    """A byte for each chunk of a tier: 1 where an entry covers it."""
    marks = bytearray(chunks)
    for entry in tier.entries:
        marks[entry.row.chunk:entry.row.chunk + entry.row.chunks] = b"\1" * entry.row.chunks
    return marks


def _dashes(plan: Plan, chunks: int, dash: int, stroke: str, start: int = 0) -> str:
    """The same dash in each chunk: one dashed line for each line of chunks."""
    path = ""
    for line in range(-(-chunks // plan.per_line)):
        end = min(plan.per_line, chunks - line * plan.per_line) * plan.width
        path += f"M{start} {line * plan.height + (plan.height - plan.gap) / 2:g}H{end}"
    look = f'stroke="{stroke}" stroke-width="{plan.height - plan.gap}" stroke-dasharray="{dash} {plan.width - dash}"'
    return f'<path d="{path}" {look}/>'


def free_chunks(plan: Plan, chunks: int) -> str:
    """Boxes for the chunks of a chained tier. The entries come above them."""
    return _dashes(plan, chunks, plan.width - plan.gap, FREE)


def free_tier(plan: Plan, chunks: int) -> List[str]:
    """Pale boxes for the chunks of a free tier, in an outline that follows a last line with fewer chunks."""
    full, rest = divmod(chunks, plan.per_line)
    ends = [(count * plan.width - plan.gap, lines * plan.height - plan.gap)
            for count, lines in ((plan.per_line, full), (rest, full + 1)) if count and lines]
    path = "M-.5 -.5" + "".join(f"H{x}.5V{y}.5" for x, y in ends) + "H-.5z"
    boxes = _dashes(plan, chunks, plan.width - plan.gap, PALE)
    return [boxes, f'<path d="{path}" fill="none" stroke="{OUTLINE}"/>']


def seams(plan: Plan, chunks: int) -> str:
    """Faint lines above the entries, between their chunks. They do not hide what is below from a pointer."""
    line = _dashes(plan, chunks, plan.gap, "#fff", plan.width - plan.gap)
    return line.replace("/>", ' stroke-opacity=".35" pointer-events="none"/>')


def _line_numbers(plan: Plan) -> List[str]:
    """Where a tier has several lines of chunks: the number of the first chunk of some lines."""
    step = -(-28 // plan.height)
    numbers = [text(-8, line * plan.height + 8, str(line * plan.per_line)) for line in range(step, plan.lines, step)]
    return [f'<g font-size="9" fill="{GREY}" text-anchor="end">', *numbers, "</g>"] if numbers else []


def _coloured(plan: Plan, entries: List[Entry]) -> Iterator[Tuple[int, Entry]]:
    """A colour for each entry. It moves on once more at each new line, so that colours do not make stripes."""
    colour, line = 0, 0
    for entry in entries:
        colour += line != entry.row.chunk // plan.per_line
        line = entry.row.chunk // plan.per_line
        yield colour % len(COLOURS), entry
        colour += 1


def shape(plan: Plan, chunk: int, chunks: int) -> str:
    """The outline of so many chunks from one on, as the data of a path."""
    path = ""
    while chunks > 0:
        line, column = divmod(chunk, plan.per_line)
        here = min(chunks, plan.per_line - column)
        chunk, chunks = chunk + here, chunks - here
        width = here * plan.width - (0 if chunks else plan.gap)  # no white where the entry goes on in the next line
        path += f"M{column * plan.width} {line * plan.height}h{width}v{plan.height - plan.gap}h-{width}z"
    return path


def _by_colour(plan: Plan, entries: List[Entry]) -> List[str]:
    """One shape for all entries of a colour."""
    paths = [""] * len(COLOURS)
    for colour, entry in _coloured(plan, entries):
        paths[colour] += shape(plan, entry.row.chunk, entry.row.chunks)
    return [f'<path d="{path}" fill="{fill}"/>' for path, (fill, _) in zip(paths, COLOURS) if path]


def _each(plan: Plan, entries: List[Entry]) -> List[str]:
    """A shape with a tooltip for each entry."""
    parts = []
    for colour, entry in _coloured(plan, entries):
        path = shape(plan, entry.row.chunk, entry.row.chunks)
        parts.append(f'<path d="{path}" fill="{COLOURS[colour][0]}"><title>{_tooltip(entry)}</title></path>')
    return parts


def key_fits(plan: Plan, entry: Entry) -> bool:
    """Whether the key in hexadecimal has room in the entry's boxes, which then are in one line."""
    return plan.height >= 24 and 13 * len(entry.key) + 6 <= entry.row.chunks * plan.width


def _keys(plan: Plan, entries: List[Entry]) -> List[str]:
    """The keys that have room, each in the middle of its entry's boxes."""
    y, parts = (plan.height - plan.gap) // 2 + 4, []
    for colour, entry in _coloured(plan, entries):
        if key_fits(plan, entry):
            x = entry.row.chunk * plan.width + (entry.row.chunks * plan.width - plan.gap) // 2
            parts.append(text(x, y, entry.key.hex(), f'fill="{COLOURS[colour][1]}"'))
    look = 'font-family="monospace" font-size="10" text-anchor="middle" pointer-events="none"'
    return [f"<g {look}>", *parts, "</g>"] if parts else []


def _tooltip(entry: Entry) -> str:
    """What is told of an entry that the reader points at. A long key is shortened."""
    row = entry.row
    key = entry.key.hex() if len(entry.key) <= 64 else f"{entry.key[:60].hex()}..."
    last = "" if row.chunks == 1 else f" to {row.chunk + row.chunks - 1}"
    chunks = f"chunk{'s' if last else ''} {row.chunk}{last}"
    return f"key {key} ({_bytes(row.key_length)})\nrecord of {_bytes(row.value_length)}\nslot {row.slot}\n{chunks}"


def _bytes(length: int) -> str:
    return f"{length:,} byte{'' if length == 1 else 's'}"


def _strip(plan: Plan, tier: Tier, chunks: int) -> List[str]:
    """A strip of columns. Its shades say how many chunks of a column are marked."""
    width, height = plan.columns * plan.column, plan.height - plan.gap
    if tier.segment is None:
        return [free_strip(width, height)]
    paths = [f"M0 0h{width}"] + [""] * len(SHADES)
    for level, run in groupby(enumerate(_levels(plan, tier, chunks)), key=lambda column: column[1]):
        columns = [column for column, _ in run]
        paths[level] += f"M{columns[0] * plan.column} 0h{len(columns) * plan.column}" if level else ""
    shades = [f'<path d="{path}" stroke="{shade}"/>' for path, shade in zip(paths, (FREE, *SHADES)) if path]
    return [f'<g transform="translate(0,{height / 2:g})" stroke-width="{height}">', *shades, "</g>"]


def free_strip(width: int, height: int) -> str:
    """The strip of a free tier: an outline."""
    return f'<rect x=".5" y=".5" width="{width - 1}" height="{height - 1}" fill="{PALE}" stroke="{OUTLINE}"/>'


def _levels(plan: Plan, tier: Tier, chunks: int) -> Iterator[int]:
    """For each column 0 where all its chunks are free, else 1 and on, as SHADES has them."""
    marks = marks_of(tier, chunks)
    edges = [column * chunks // plan.columns for column in range(plan.columns + 1)]
    for start, end in zip(edges, edges[1:]):
        marked = sum(marks[start:end])
        yield 1 + 4 * marked // (end - start) if marked else 0
