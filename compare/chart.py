"""The bar chart of compare/page: ratios as bars on logarithmic scales, port / Rust and port / memcpy, and beside them in small print the times they are of.

A row of the chart has one row of figures or two, which then share it: two thin bars, the first above the second, and two numbers beside them."""

import math
from html import escape

WIDTH = 1000
LABELS = 212  # the row labels end here
PANELS = {"port_to_rust": (216, 534), "port_to_memcpy": (690, 926)}
TIMES = {"port": 610, "Rust": 688, "memcpy": 990}  # the columns of times end here
ROW, BAR, GAP, LAYER = 12.5, 10, 6, 20  # heights of a row, its bars, the space behind a group, a layer's name
NUMBERS = {"port_to_rust": (76, 34), "port_to_memcpy": (32, 56)}  # room for the numbers beside the bars, left and right
FASTER, SLOWER, COPY, GRID, INK, GOAL = ("#2a7f86", "#86bcc1"), ("#c8642c", "#e6ab89"), ("#7c86a3", "#b7bdce"), "#dddddd", "#222222", "#a3123a"
STEPS = [m * 10.0**e for e in range(-3, 4) for m in (1, 2, 5)]
LEAST = 0.01  # a bar of less is drawn as long, so that one row does not press all others together; its number tells


class Scale:
    """A logarithmic scale between two edges of a panel, with room for the numbers beside the bars."""

    def __init__(self, edges, room, ratios):
        self.left, self.right = edges[0] + room[0], edges[1] - room[1]
        self.low, self.high = max(LEAST, min(ratios + [0.5])), max(ratios + [2])

    def x(self, ratio):
        share = math.log(max(ratio, self.low) / self.low) / math.log(self.high / self.low)
        return self.left + share * (self.right - self.left)

    def steps(self):
        return [step for step in STEPS if self.low <= step <= self.high]


class Drawing:
    def __init__(self):
        self.parts = []
        self.y = 0

    def text(self, x, y, words, size=12, anchor="start", fill=INK, weight="normal"):
        style = f'font-size="{size}" text-anchor="{anchor}" fill="{fill}" font-weight="{weight}"'
        self.parts.append(f'<text x="{x:.1f}" y="{y:.1f}" {style}>{escape(words)}</text>')

    def box(self, x, y, width, height, fill):
        self.parts.append(f'<rect x="{x:.1f}" y="{y:.1f}" width="{width:.1f}" height="{height:.1f}" fill="{fill}"/>')

    def line(self, x, top, bottom, stroke, width=1):
        self.parts.append(
            f'<line x1="{x:.1f}" x2="{x:.1f}" y1="{top:.1f}" y2="{bottom:.1f}" stroke="{stroke}" stroke-width="{width}"/>'
        )

    def whole(self, title):
        head = f'<svg xmlns="http://www.w3.org/2000/svg" viewBox="0 0 {WIDTH} {self.y:.0f}" width="{WIDTH}" height="{self.y:.0f}"'
        head += ' font-family="DejaVu Sans, Verdana, sans-serif">'
        paper = f'<rect width="{WIDTH}" height="{self.y:.0f}" fill="white"/>'
        return "\n".join([head, f"<title>{escape(title)}</title>", paper, *self.parts, "</svg>", ""])


def shown(ratio):
    """A ratio in two figures or three."""
    places = 0 if ratio >= 9.95 else 1 if ratio >= 1.995 else 2 if ratio >= 0.0995 else 3 if ratio >= 0.0095 else 4
    return f"{ratio:.{places}f}"


def legend(drawing, title, subtitle, pairs):
    drawing.text(10, 24, title, 17, weight="bold")
    drawing.text(10, 41, subtitle, 10)
    x = 10
    for fills, words in [(FASTER, "port faster than the Rust"), (SLOWER, "port slower than the Rust"), (COPY, "port / memcpy")]:
        drawing.box(x, 51, 12, 11, fills[0])
        drawing.text(x + 17, 60, words, 10)
        x += 175
    drawing.line(x - 40, 49, 64, GOAL, 3)
    drawing.text(x - 33, 60, "goal: the bar ends on it or left of it", 10)
    for line, words in enumerate(reversed(pairs)):
        for at, fill in enumerate(COPY):
            drawing.box(x + 190, 50 - 14 * line + 6 * at, 12, 5, fill)
        drawing.text(x + 207, 60 - 14 * line, words, 10)
    drawing.y = 70


def axes(drawing, scales, height):
    """The columns' names, the scales' steps and their lines behind all bars."""
    top = drawing.y + 32
    for column, words in [("port_to_rust", "port / Rust"), ("port_to_memcpy", "port / memcpy")]:
        scale = scales[column]
        drawing.text((scale.left + scale.right) / 2, drawing.y + 12, words, 11, "middle", weight="bold")
        for step in scale.steps():
            drawing.text(scale.x(step), drawing.y + 27, f"{step:g}", 9, "middle")
            drawing.line(scale.x(step), top, top + height, INK if step == 1 else GRID)
    for words, edge in TIMES.items():
        drawing.text(edge, drawing.y + 27, words, 9, "end", weight="bold")
    drawing.y = top


def bars(drawing, scale, ratios, fills, goal=None):
    """Bars from the line at 1 to each ratio, the goal's mark, and the ratios behind the longest bar's end, beyond the mark where that is near."""
    one, high = scale.x(1), (BAR + 1) / len(ratios) - 1
    for at, ratio in enumerate(ratios):
        end = scale.x(ratio)
        drawing.box(min(one, end), drawing.y + (ROW - BAR) / 2 + at * (high + 1), abs(end - one), high, fills(ratio)[at])
    words, ends = " · ".join(map(shown, ratios)), [scale.x(ratio) for ratio in ratios]
    left = max(ratios) < 1
    end = min(ends) if left else max(ends)
    if goal is not None:
        mark = scale.x(goal)
        drawing.line(mark, drawing.y, drawing.y + ROW, GOAL, 3)
        if abs(mark - end) < 7 * len(words):
            end = min(end, mark) if left else max(end, mark)
    drawing.text(end - 4 if left else end + 4, drawing.y + ROW - 3.5, words, 10, "end" if left else "start")


def row(drawing, scales, label, figures, times, goal):
    drawing.text(LABELS, drawing.y + ROW - 3, label, 10, "end")
    bars(drawing, scales["port_to_rust"], [each["port_to_rust"] for each in figures], lambda ratio: FASTER if ratio <= 1 else SLOWER, goal)
    bars(drawing, scales["port_to_memcpy"], [each["port_to_memcpy"] for each in figures], lambda ratio: COPY)
    for words, edge in TIMES.items():
        drawing.text(edge, drawing.y + ROW - 3.5, " · ".join(times[words]), 9, "end")
    drawing.y += ROW


def group_words(words, unit):
    """A group's name on lines of its own, and its unit."""
    return [*words.split(", "), unit]


def group_height(words, unit, rows):
    return max(len(rows) * ROW, len(group_words(words, unit)) * 11.5) + GAP


def group(drawing, scales, words, unit, rows, goals):
    top = drawing.y
    for at, line in enumerate(group_words(words, unit)):
        drawing.text(10, top + 9.5 + 11.5 * at, line, 10 if line != unit else 9, weight="normal" if at else "bold")
    for label, figures, times in rows:
        asked = [goals[each["row"]] for each in figures if each["row"] in goals]
        row(drawing, scales, label, figures, times, min(asked, default=None))
    drawing.y = top + group_height(words, unit, rows)


def chart(title, subtitle, pairs, layers, goals):
    """The drawing. `pairs`: what the two rows of figures are, where they share a row. `layers`: pairs of a layer's name and its groups, each a name with
    commas, a unit, and rows of a label, one or two rows of figures and their times by column, a list each."""
    drawing = Drawing()
    legend(drawing, title, subtitle, pairs)
    every = [each for _, groups in layers for *_, rows in groups for _, figures, _ in rows for each in figures]
    scales = {column: Scale(edges, NUMBERS[column], [each[column] for each in every]) for column, edges in PANELS.items()}
    axes(drawing, scales, sum(LAYER + sum(group_height(*each) for each in groups) for _, groups in layers))
    for layer, groups in layers:
        drawing.text(10, drawing.y + 14, layer, 13, weight="bold")
        drawing.y += LAYER
        for words, unit, rows in groups:
            group(drawing, scales, words, unit, rows, goals)
    drawing.y += 6
    return drawing.whole(title)
