"""Draws where the entries of a store stand: a picture in SVG that needs nothing beside it.

Title, counts and legend are here. draw_plan.py decides how large things are, draw_rows.py draws the rows of tiers,
and draw_chunks.py the chunks in a row.
"""
import unicodedata
from typing import Iterable, Iterator, List, Sequence, Tuple

from .answers import Counts, Tier
from .draw_chunks import COLOURS, FREE, GREY, RULE, SHADES, text
from .draw_chunks import free_chunks, free_strip, free_tier, key_fits, seams, shape
from .draw_plan import INNER, MARGIN, Plan, Sheet, WIDTH, sheet_of
from .draw_rows import draw_rows, without_room
from .settings import Settings

__all__ = ["svg"]

LEGEND_TOP = 136
TITLE_SIZE = 20
SAMPLE = Plan(1, 12, 14, 14, 3, 1, 0, 0)  # of the boxes in the legend

Item = Tuple[str, str]  # a sample and what it shows


def svg(tiers: Sequence[Tier], counts: Counts, settings: Settings, title: str) -> str:
    """The picture of an accepted store, whose tiers are as Store.tiers gives them."""
    sheet = sheet_of(tiers, counts, settings)
    items = _legend(sheet)
    rows, bottom = draw_rows(sheet, LEGEND_TOP + 20 * -(-len(items) // 2) + 56)
    head = _head(_shortened(title), counts, settings)
    legend = _draw_legend(items, _note(sheet))
    return "\n".join([*_frame(bottom + MARGIN // 2), *head, *legend, *rows, "</svg>", ""])


def _frame(height: int) -> List[str]:
    """The start of the picture, with a white ground of its own."""
    size = f'width="{WIDTH}" height="{height}" viewBox="0 0 {WIDTH} {height}"'
    look = 'font-family="Helvetica, Arial, sans-serif" font-size="12" fill="#1f2328"'
    ground = f'<rect x=".5" y=".5" width="{WIDTH - 1}" height="{height - 1}" rx="6" fill="#fff" stroke="{RULE}"/>'
    return [f'<svg xmlns="http://www.w3.org/2000/svg" {size} {look}>', ground]


def _shortened(title: str) -> str:
    """A title that fits in its line: the middle of a long one is left out. What XML does not allow is replaced."""
    letters = [letter if letter.isprintable() else "\ufffd" for letter in title]
    if sum(map(_ems, letters)) <= INNER / TITLE_SIZE:
        return "".join(letters)
    end = list(_first(reversed(letters), INNER / TITLE_SIZE / 4))
    return "".join([*_first(letters, INNER / TITLE_SIZE * 0.7), "\u2026", *reversed(end)])


def _first(letters: Iterable[str], room: float) -> Iterator[str]:
    """As many of the letters as there is room for."""
    for letter in letters:
        room -= _ems(letter)
        if room < 0:
            return
        yield letter


def _ems(letter: str) -> float:
    """The width of a bold letter, in sizes of the font, rather too large than too small."""
    wide = letter in "MWmw@%\ufffd" or unicodedata.east_asian_width(letter) in "WF"
    return 1.1 if wide else 0.85 if letter.isupper() else 0.71


def _head(title: str, counts: Counts, settings: Settings) -> List[str]:
    """Title, settings and counts."""
    tiers = f"{settings.slots:,} slots and {_many(settings.chunks, 'chunk')} of {_many(settings.chunk_size, 'byte')}"
    parts = [
        text(MARGIN, 42, title, f'font-size="{TITLE_SIZE}" font-weight="bold"'),
        text(MARGIN, 62, f"{_many(settings.segments, 'segment')}, {tiers} in each tier", f'fill="{GREY}"'),
    ]
    cards = (
        (f"{counts.entries:,}", "entries"),
        (f"{counts.chunks:,}", "marked chunks"),
        (f"{counts.tiers:,}", "chained tiers"),
        (f"{counts.free:,}", "free tiers"),
        (_per_cent(counts.chunks, counts.tiers * settings.chunks), "fill of chained tiers"),
        (_per_cent(counts.chunks, (counts.tiers + counts.free) * settings.chunks), "fill of all tiers"),
    )
    for i, (value, name) in enumerate(cards):
        x = MARGIN + i * INNER // len(cards)
        parts += [text(x, 98, value, 'font-size="20"'), text(x, 114, name, f'font-size="11" fill="{GREY}"')]
    return parts


def _many(number: int, noun: str) -> str:
    return f"{number:,} {noun}{'' if number == 1 else 's'}"


def _per_cent(part: int, whole: int) -> str:
    """Rounded down, so that nothing but full tiers has 100."""
    tenths = 1000 * part // max(whole, 1)
    return "< 0.1 %" if part and not tenths else f"{tenths // 10}.{tenths % 10} %"


def _legend(sheet: Sheet) -> List[Item]:
    """What explains the picture. What only some stores show is there where it is shown."""
    items = _of_boxes(sheet) if sheet.plan.width else _of_strips(sheet)
    tiers = [row for row in sheet.rows if isinstance(row, Tier)]
    if any(tier.segment is None for tier in tiers):
        sample = free_tier(SAMPLE, 3) if sheet.plan.width else [free_strip(42, 13)]
        items.append(("".join(sample), "free tier: of no segment, all its chunks are free"))
    if any(any(without_room(sheet, tier)) for tier in tiers):
        items.append((_sample("7/8", "bold"), "bold: no room left (one slot of a tier always stays empty)"))
    return items


def _draw_legend(items: List[Item], note: str) -> List[str]:
    """The items in two columns, from left to right, and a note below them."""
    small = f'font-size="11" fill="{GREY}"'
    parts = []
    for i, (sample, words) in enumerate(items):
        x, y = MARGIN + i % 2 * INNER // 2, LEGEND_TOP + i // 2 * 20
        parts.append(f'<g transform="translate({x},{y})">{sample}{text(54, 11, words, small)}</g>')
    return [*parts, text(MARGIN, LEGEND_TOP + 20 * -(-len(items) // 2) + 11, note, small)]


def _sample(words: str, weight: str = "normal") -> str:
    return text(21, 11, words, f'font-size="11" font-weight="{weight}" text-anchor="middle"')


def _of_boxes(sheet: Sheet) -> List[Item]:
    """What explains boxes."""
    entries = "".join(
        f'<path d="{shape(SAMPLE, chunk, chunks)}" fill="{fill}"/>'
        for chunk, chunks, (fill, _) in ((0, 2, COLOURS[0]), (2, 1, COLOURS[1]))
    )
    items = [
        (entries + seams(SAMPLE, 3), "entries: chunks joined, colours only tell neighbours apart"),
        (free_chunks(SAMPLE, 3), "free chunks of a chained tier"),
    ]
    if any(key_fits(sheet.plan, entry) for row in sheet.rows if isinstance(row, Tier) for entry in row.entries):
        items.append((_sample("0102"), "in an entry: its key in hexadecimal, where it fits"))
    if sheet.plan.lines > 1:
        items.append((_sample(str(sheet.plan.per_line)), "first chunk of that line; an entry can go on in the next"))
    return items


def _of_strips(sheet: Sheet) -> List[Item]:
    """What explains strips."""
    shades: List[str] = [FREE, SHADES[-1]]
    words = "free chunks and marked chunks"
    if sheet.plan.columns < sheet.settings.chunks:
        shades, words = [FREE, *SHADES], "marked chunks: none, below 25 %, 50 %, 75 %, 100 %, and all"
    width = 42 // len(shades)
    boxes = (f'<path d="M{i * width} 0h{width}v13h-{width}z" fill="{shade}"/>' for i, shade in enumerate(shades))
    return [("".join(boxes), words)]


def _note(sheet: Sheet) -> str:
    """What the picture leaves out, and how to see more of it."""
    point = "In a browser, point at a row to see its numbers in words"
    if sheet.tooltips:
        return f"{point}, or at an entry to see its key, record length, slot and chunks."
    if sheet.plan.width:
        return f"Too many entries to tell of each. {point}."
    least, rest = divmod(sheet.settings.chunks, sheet.plan.columns)
    column = f"a column of one pixel stands for {least}{f' or {least + 1}' if rest else ''} chunks"
    left_out = "neighbours are not told apart" if least == 1 and not rest else column
    return f"Too large to draw each entry: {left_out}. {point}."
