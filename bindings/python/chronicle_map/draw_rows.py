"""The rows of a drawing, as parts of an SVG text: above them their heads, in each a tier's numbers and its chunks."""
from typing import List, Tuple

from .answers import Tier
from .draw_chunks import GREY, RULE, chunks_of, marks_of, text
from .draw_plan import BETWEEN, HEAD_ENDS, MARGIN, Plan, Sheet

__all__ = ["draw_rows", "without_room"]

HEADS = ("segment", "tier", "in chain", "full slots", "marked chunks")


def draw_rows(sheet: Sheet, top: int) -> Tuple[List[str], int]:
    """All rows from a height on, with their heads just above, and where the last one ends."""
    plan, height = sheet.plan, sheet.plan.panel_height(sheet.rows)
    step = plan.panel + BETWEEN
    parts = [part for panel in range(plan.panels) for part in _moved(MARGIN + panel * step, top - 8, _heads(sheet))]
    x, y, bottom = MARGIN, top, top
    for row in sheet.rows:
        if y >= top + height:
            x, y = x + step, top
        parts += _moved(x, y, _words(plan, row) if isinstance(row, str) else _tier(sheet, row))
        y += plan.row_height(row)
        bottom = max(bottom, y)
    return parts, bottom


def without_room(sheet: Sheet, tier: Tier) -> Tuple[bool, bool]:
    """Whether a chained tier takes no further entry for want of slots, one of which stays empty, or of chunks."""
    return len(tier.entries) >= sheet.settings.slots - 1, _marked(tier) == sheet.settings.chunks


def _marked(tier: Tier) -> int:
    return sum(entry.row.chunks for entry in tier.entries)


def _moved(x: int, y: int, parts: List[str]) -> List[str]:
    return [f'<g transform="translate({x},{y})">', *parts, "</g>"]


def _heads(sheet: Sheet) -> List[str]:
    """What stands above a panel: the names of a tier's numbers, and some chunks' numbers."""
    plan = sheet.plan
    names = [text(end * plan.font // 12, 0, name) for name, end in zip(HEADS, HEAD_ENDS)]
    chunks = [text(plan.left + x, 0, str(chunk) if chunk else "chunk 0") for chunk, x in _ticks(sheet)]
    look = f'font-size="{plan.font - 1}" fill="{GREY}"'
    return [f'<g {look} text-anchor="end">', *names, "</g>", f"<g {look}>", *chunks, "</g>"]


def _ticks(sheet: Sheet) -> List[Tuple[int, int]]:
    """The chunks whose numbers are shown, and where they stand in a line or strip."""
    plan, chunks = sheet.plan, sheet.settings.chunks
    if plan.width:
        step = next(step for step in (1, 2, 4, 8, 16) if step * plan.width >= 5 * plan.font)
        return [(chunk, chunk * plan.width) for chunk in range(0, plan.per_line, step)]
    return [(chunks * i // 4, plan.columns * plan.column * i // 4) for i in range(4)]


def _words(plan: Plan, words: str) -> List[str]:
    """A line of text with a line above it."""
    return [_rule(plan), text(0, plan.font + 4, words, f'font-size="{plan.font}" fill="{GREY}"')]


def _rule(plan: Plan) -> str:
    """A thin line that parts a row from the one above it."""
    return f'<path d="M0 -{plan.space // 2}.5h{plan.panel}" stroke="{RULE}"/>'


def _tier(sheet: Sheet, tier: Tier) -> List[str]:
    """A tier. The first of a chain has a line above it."""
    plan = sheet.plan
    rule = [_rule(plan)] if tier.segment and tier.order == 0 else []
    title = f"<title>{_tooltip(sheet, tier)}</title>"
    return [title, *rule, *_numbers(sheet, tier), *_moved(plan.left, 0, chunks_of(sheet, tier))]


def _numbers(sheet: Sheet, tier: Tier) -> List[str]:
    """The five numbers of a tier, in bold where it has no room for want of them."""
    plan, settings = sheet.plan, sheet.settings
    values = (
        "-" if tier.segment is None else str(tier.segment),
        str(tier.tier),
        "free" if tier.segment is None else f"{tier.order + 1}/{sheet.chains[tier.segment]}",
        f"{len(tier.entries)}/{settings.slots}",
        f"{_marked(tier)}/{settings.chunks}",
    )
    bold = (False, False, False, *without_room(sheet, tier))
    ends = [end * plan.font // 12 for end in HEAD_ENDS]
    lines = [text(x, plan.base, value, 'font-weight="bold"' if b else "") for x, value, b in zip(ends, values, bold)]
    return [f'<g font-size="{plan.font}" text-anchor="end">', *lines, "</g>"]


def _tooltip(sheet: Sheet, tier: Tier) -> str:
    """A tier's numbers in words, and the most chunks that a new entry could have there."""
    settings = sheet.settings
    marks = marks_of(tier, settings.chunks)
    where = "in the free chain" if tier.segment is None else f"in the chain of segment {tier.segment}"
    longest = max(map(len, bytes(marks).split(b"\1")))
    return "\n".join((
        f"tier {tier.tier}: {tier.order + 1} of {sheet.chains[tier.segment]} {where}",
        f"{len(tier.entries)} of {settings.slots} slots full",
        f"{sum(marks)} of {settings.chunks} chunks marked",
        f"longest run of free chunks: {longest}",
    ))
