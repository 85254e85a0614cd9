"""How a drawing is laid out: which rows it has, and how large tiers and chunks are. Lengths are in pixels."""
from collections import Counter
from typing import Counter as Tally, Iterator, List, NamedTuple, Optional, Sequence, Union

from .answers import Counts, Tier
from .settings import Settings

__all__ = ["BETWEEN", "HEAD_ENDS", "INNER", "MARGIN", "Plan", "Row", "Sheet", "WIDTH", "sheet_of"]

WIDTH = 1000
MARGIN = 24
INNER = WIDTH - 2 * MARGIN
BETWEEN = 24  # between two panels
HEAD_ENDS = (50, 90, 162, 238, 328)  # of the numbers of a tier, with a font of 12
MOST_TOOLTIPS = 5000  # entries
MOST_FREE = 16  # free tiers with a row of their own

Row = Union[Tier, str]  # a tier, or a line of text


class Plan(NamedTuple):
    """How all tiers are drawn."""

    panels: int  # columns of rows, side by side
    font: int
    width: int  # of a chunk with the white behind it; 0 where a tier is a strip
    height: int  # of a line of chunks with the white below it
    per_line: int  # chunks in a line
    lines: int
    space: int  # between two rows
    tallest: int  # the plan is for panels of at most this height

    @property
    def gap(self) -> int:
        """The white between two chunks."""
        return 2 if self.width >= 18 else 1

    @property
    def left(self) -> int:
        """Where the chunks start in a row."""
        return HEAD_ENDS[-1] * self.font // 12 + 14

    @property
    def panel(self) -> int:
        """The width of a panel."""
        return (INNER - BETWEEN * (self.panels - 1)) // self.panels

    @property
    def columns(self) -> int:
        """How many columns a strip has: one for each chunk, or as many as there are pixels."""
        return min(self.per_line, self.panel - self.left)

    @property
    def column(self) -> int:
        """The width of a column of a strip."""
        return (self.panel - self.left) // self.columns

    @property
    def base(self) -> int:
        """Where the text beside the first line of chunks stands."""
        return (max(self.height - self.gap, self.font) + self.font * 3 // 4) // 2

    def row_height(self, row: Row) -> int:
        """The height of a row with the white below it."""
        return self.font + 14 if isinstance(row, str) else self.lines * self.height + self.space

    def panel_height(self, rows: Sequence[Row]) -> int:
        """The height of a panel where the panels share these rows."""
        return -(-sum(map(self.row_height, rows)) // self.panels)


class Sheet(NamedTuple):
    """What all parts of a drawing share."""

    rows: List[Row]
    plan: Plan
    settings: Settings
    chains: Tally[Optional[int]]  # how many tiers each segment has; None: how many are free
    tooltips: bool  # whether each entry is a shape of its own, with a tooltip


def sheet_of(tiers: Sequence[Tier], counts: Counts, settings: Settings) -> Sheet:
    """The first plan whose limit is kept."""
    rows = _rows(tiers)
    plan = next(plan for plan in _plans(settings.chunks) if plan.panel_height(rows) <= plan.tallest)
    chains = Counter(tier.segment for tier in tiers)
    return Sheet(rows, plan, settings, chains, counts.entries <= MOST_TOOLTIPS and plan.width > 0)


def _plans(chunks: int) -> Iterator[Plan]:
    """The ways to draw tiers of so many chunks, the largest first. The last has room for every store."""
    if chunks <= 76:
        yield Plan(1, 12, min(76, 610 // chunks), 28, chunks, 1, 8, 1000)
    else:
        for per_line, width, tallest in ((32, 18, 1000), (48, 12, 1000), (64, 9, 1200), (96, 6, 3000)):
            yield Plan(1, 12, width, width, per_line, -(-chunks // per_line), 14, tallest)
    if chunks <= 152:
        yield Plan(1, 12, min(56, 610 // chunks), 16, chunks, 1, 4, 3000)
    if chunks <= 51:
        yield Plan(2, 9, min(24, 204 // chunks), 10, chunks, 1, 3, 16000)
    yield Plan(1, 11, 0, 14, chunks, 1, 3, 2400)
    yield Plan(2, 9, 0, 10, chunks, 1, 3, 16000)


def _rows(tiers: Sequence[Tier]) -> List[Row]:
    """The chained tiers, then some free ones below a line of text, then a line on those that are left out."""
    free = [tier for tier in tiers if tier.segment is None]
    rows: List[Row] = [tier for tier in tiers if tier.segment is not None]
    if free:
        rows += ["Free tiers, the next to be taken first", *free[:MOST_FREE]]
    if len(free) > MOST_FREE:
        rows.append(f"and {len(free) - MOST_FREE:,} more free tiers, which are not drawn")
    return rows
