"""Tables of text."""
from __future__ import annotations

from collections.abc import Sequence

GAP, CUT_MARK = "  ", ".."
# No column is made narrower than this: IDs and profiles are never cut.
MIN_COLUMN_WIDTH = 8


def table(rows: Sequence[Sequence[str]], most: int = 0) -> str:
    """Rows with columns of equal width. Columns that are empty below their heading are left out. The widest ones are
    cut so that a row has at most so many characters, unless that is 0."""
    columns = [column for column in zip(*rows) if len(column) == 1 or any(column[1:])]
    widths = [max(map(len, column)) for column in columns]
    while most and sum(widths) + len(GAP) * (len(widths) - 1) > most and max(widths) > MIN_COLUMN_WIDTH:
        widths[widths.index(max(widths))] -= 1
    return "\n".join(GAP.join(map(fit_cell, row, widths)).rstrip() for row in zip(*columns))


def fit_cell(cell: str, width: int) -> str:
    """A cell with this width."""
    return cell.ljust(width) if len(cell) <= width else cell[:width - len(CUT_MARK)] + CUT_MARK
