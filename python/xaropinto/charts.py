"""Charts as SVG: lines, bars and steps, with axes, units and a legend that shows the line's style.

No text is cut off: margins follow the longest label. Lines and fills differ in grey print too.
"""

from dataclasses import dataclass
from typing import Sequence

from xaropinto.html_parts import text
from xaropinto.number_format import swiss

WIDTH, HEIGHT = 420, 240
TOP, BOTTOM, RIGHT = 46, 40, 14
PLOT_HEIGHT = HEIGHT - TOP - BOTTOM
# The widest digit or letter of the font on average, and between an axis and its labels.
LETTER, GAP = 6.8, 6
SAMPLE, SQUARE = 24, 12
# Steps of an axis that people read easily.
STEPS = (1, 2, 5)
MOST_STEPS = 5
MARK_EVERY = 20
ROW = 24
# What amounts in centimes are divided by, and its name; the first with at most four digits.
UNITS = ((100, "francs"), (100_000, "thousand francs"), (100_000_000, "million francs"),
         (100_000_000_000, "billion francs"))
MOST_ON_AN_AXIS = 10_000


@dataclass(frozen=True)
class Series:
    """What one line or one kind of bar shows."""

    name: str
    values: Sequence[float]


@dataclass(frozen=True)
class Frame:
    """A chart's plot: where it starts, the axis's step and how many of them there are."""

    left: float
    step: int
    steps: int

    @property
    def width(self) -> float:
        """How wide the plot is."""
        return WIDTH - RIGHT - self.left

    def height(self, value: float) -> float:
        """Where a value stands in the picture."""
        return TOP + PLOT_HEIGHT * (1 - value / (self.step * self.steps))

    def across(self, share: float) -> float:
        """Where a share of the plot's width stands in the picture."""
        return self.left + self.width * share


def unit_of(highest: int, most: int = MOST_ON_AN_AXIS) -> tuple[int, str]:
    """What a chart's amounts in centimes are divided by, so that none is above the most."""
    for divisor, name in UNITS:
        if highest <= divisor * most:
            return divisor, name
    return UNITS[-1]


def axis_step(highest: float) -> tuple[int, int]:
    """The step of an axis from 0 that holds a highest value, and how many of them."""
    power = 1
    while True:
        for each in STEPS:
            steps = -int(-highest // (each * power))
            if steps <= MOST_STEPS:
                return each * power, max(steps, 1)
        power *= 10


def frame_for(highest: float) -> Frame:
    """The plot beside the longest label of its axis."""
    step, steps = axis_step(highest)
    return Frame(GAP + LETTER * len(swiss(step * steps)) + 2, step, steps)


def opening(title: str, height: int = HEIGHT) -> list[str]:
    """The picture's start."""
    return [f'<svg viewBox="0 0 {WIDTH} {height}" role="img" xmlns="http://www.w3.org/2000/svg">',
            f"<title>{text(title)}</title>"]


def axes(frame: Frame, unit: str, along: str, marks: Sequence[tuple[float, int]]) -> list[str]:
    """Both axes with their labels."""
    parts = [f'<text class="unit" x="0" y="{TOP - 10}">{text(unit)}</text>']
    for step in range(frame.steps + 1):
        height = frame.height(step * frame.step)
        parts.append(f'<line class="grid" x1="{frame.left:.1f}" x2="{WIDTH - RIGHT}" '
                     f'y1="{height:.1f}" y2="{height:.1f}"/>')
        parts.append(f'<text text-anchor="end" x="{frame.left - GAP:.1f}" y="{height + 4:.1f}">'
                     f"{swiss(step * frame.step)}</text>")
    for share, mark in marks:
        parts.append(f'<text text-anchor="middle" x="{frame.across(share):.1f}" '
                     f'y="{TOP + PLOT_HEIGHT + 16}">{mark}</text>')
    parts.append(f'<text class="unit" text-anchor="middle" x="{frame.across(0.5):.1f}" '
                 f'y="{HEIGHT - 6}">{text(along)}</text>')
    return parts


def legend(names: Sequence[str], is_line: bool) -> list[str]:
    """The first row: a sample of each line or fill, and its name."""
    parts: list[str] = []
    left = 0.0
    for number, name in enumerate(names):
        words = left + (SAMPLE if is_line else SQUARE) + GAP
        if is_line:
            parts.append(f'<line class="line{number}" x1="{left:.1f}" x2="{left + SAMPLE:.1f}" '
                         'y1="9" y2="9"/>')
        else:
            parts.append(f'<rect class="fill{number}" x="{left:.1f}" y="3" width="{SQUARE}" '
                         f'height="{SQUARE}"/>')
        parts.append(f'<text x="{words:.1f}" y="13">{text(name)}</text>')
        left = words + LETTER * len(name) + 2 * GAP
    return parts


def line_chart(title: str, unit: str, along: str, series: Sequence[Series]) -> str:
    """A line for each series, over 0, 1, 2 and so on."""
    frame = frame_for(max(max(each.values) for each in series))
    last = len(series[0].values) - 1
    every = MARK_EVERY if last > 60 else MARK_EVERY // 2
    marks = [(at / last, at) for at in range(0, last + 1, every)]
    parts = [*opening(title), *legend([each.name for each in series], True),
             *axes(frame, unit, along, marks)]
    for number, each in enumerate(series):
        points = " ".join(f"{frame.across(at / last):.1f},{frame.height(value):.1f}"
                          for at, value in enumerate(each.values))
        parts.append(f'<polyline class="line{number}" points="{points}"/>')
    return "\n".join([*parts, "</svg>"])


def bar_chart(title: str, unit: str, along: str, series: Sequence[Series]) -> str:
    """Bars on top of each other for each step along the bottom."""
    columns = list(zip(*(each.values for each in series)))
    frame = frame_for(max(map(sum, columns)))
    width = frame.width / len(columns)
    marks = [((at + 0.5) / len(columns), at) for at in range(0, len(columns), MARK_EVERY)]
    parts = [*opening(title), *legend([each.name for each in series], False),
             *axes(frame, unit, along, marks)]
    for at, column in enumerate(columns):
        below = 0.0
        for number, value in enumerate(column):
            if value:
                left, top = frame.across(at / len(columns)), frame.height(below + value)
                parts.append(f'<rect class="fill{number}" x="{left:.2f}" y="{top:.2f}" '
                             f'width="{width:.2f}" height="{frame.height(below) - top:.2f}"/>')
            below += value
    return "\n".join([*parts, "</svg>"])


def step_chart(title: str, unit: str, steps: Sequence[tuple[str, float, bool]]) -> str:
    """Rows from a total to a total: each step starts where the one before it ended.

    A step is its name, its value and whether it is a total, which starts at 0.
    """
    left = GAP + LETTER * max(len(name) for name, _, _ in steps)
    value_width = GAP + LETTER * max(len(signed(value, total)) for _, value, total in steps)
    spans, at = [], 0.0
    for _, value, is_total in steps:
        start = 0.0 if is_total else at
        at = value if is_total else at + value
        spans.append((start, at))
    low, high = min(0.0, *(min(each) for each in spans)), max(0.0, *(max(each) for each in spans))
    scale = (WIDTH - left - value_width - GAP) / ((high - low) or 1.0)
    height = ROW * (len(steps) + 1)
    parts = [*opening(title, height),
             f'<text class="unit" x="{left:.1f}" y="14">{text(unit)}</text>']
    for row, ((name, value, is_total), span) in enumerate(zip(steps, spans), start=1):
        fill = 0 if is_total else 1 if value > 0 else 2
        parts += step_row(row, (name, signed(value, is_total)), left,
                          [left + (end - low) * scale for end in span], fill)
    zero = left - low * scale
    parts.append(f'<line class="axis" x1="{zero:.1f}" x2="{zero:.1f}" y1="{ROW - 2}" '
                 f'y2="{height}"/>')
    return "\n".join([*parts, "</svg>"])


def step_row(row: int, words: tuple[str, str], left: float, ends: list[float],
             fill: int) -> list[str]:
    """One row of steps: name, bar and value."""
    name, value = words
    base = ROW * row
    return [f'<text text-anchor="end" x="{left - GAP:.1f}" y="{base + 15}">{text(name)}</text>',
            f'<rect class="fill{fill}" x="{min(ends):.1f}" y="{base + 3}" '
            f'width="{max(max(ends) - min(ends), 1):.1f}" height="{ROW - 7}"/>',
            f'<text x="{max(ends) + GAP:.1f}" y="{base + 15}">{value}</text>']


def signed(value: float, is_total: bool) -> str:
    """A step with its sign, a total as it is."""
    whole = round(value)
    return f"+{swiss(whole)}" if whole > 0 and not is_total else swiss(whole)
