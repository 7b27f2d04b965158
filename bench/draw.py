#!/usr/bin/env python3
"""Draws docs/load.svg from the lines that bench/load writes. Use: draw.py lines.csv load.svg"""
import csv
import math
import sys

WIDTH, HEIGHT = 900, 590
# buckets: colour (Okabe and Ito's, safe for colour-blind readers), line width, dashes. Where the lines lie on each other,
# the wide ones show under the narrow ones.
STYLES = {64: ("#e69f00", 5, ""), 256: ("#0072b2", 2.5, ""), 1024: ("#000000", 2, "6 3")}


def read_lines(path):
    """For each number of buckets, its lines, by the number of animals held."""
    lines = {}
    with open(path, newline="") as file:
        for row in csv.DictReader(file):
            line = {name: int(value) for name, value in row.items()}
            line["load"] = 100 * line["animals"] / (4 * line["buckets"])
            lines.setdefault(line["buckets"], []).append(line)
    return lines


def without_refusal(lines):
    """Percent of herds that met no refusal 6 before each load."""
    met, points = 0, []
    for line in lines:
        points.append((line["load"], 100 * (1 - met / line["herds"])))
        met += line["refused"]
    return points


def means(lines, what):
    """Mean of a set in each percent of load, where there are sets enough for a mean."""
    points = []
    for low in range(100):
        inside = [line for line in lines if low <= line["load"] < low + 1]
        sets = sum(line["sets"] for line in inside)
        if sets >= 500:
            points.append((low + 0.5, sum(line[what] for line in inside) / sets))
    return points


class Panel:
    def __init__(self, left, top, width, height, x_range, y_range, log=False):
        self.left, self.top, self.width, self.height = left, top, width, height
        self.x_range, self.y_range, self.log = x_range, y_range, log
        self.parts = []

    def x(self, value):
        low, high = self.x_range
        return self.left + self.width * (value - low) / (high - low)

    def y(self, value):
        low, high = self.y_range
        if self.log:
            low, high, value = math.log(low), math.log(high), math.log(value)
        return self.top + self.height * (high - value) / (high - low)

    def text(self, x, y, words, more=""):
        self.parts.append(f'<text x="{x:.1f}" y="{y:.1f}"{more}>{words}</text>')

    def axes(self, title, x_ticks, y_ticks, x_name, unit=""):
        right, bottom = self.left + self.width, self.top + self.height
        self.text(self.left, self.top - 12, title, ' font-size="13" font-weight="bold"')
        for tick in x_ticks:
            x = self.x(tick)
            self.parts.append(f'<path d="M{x:.1f},{self.top}V{bottom}" stroke="#dddddd"/>')
            self.text(x, bottom + 17, f"{tick} %", ' text-anchor="middle"')
        for tick in y_ticks:
            y = self.y(tick)
            self.parts.append(f'<path d="M{self.left},{y:.1f}H{right}" stroke="#dddddd"/>')
            self.text(self.left - 7, y + 4, f"{tick}{unit}", ' text-anchor="end"')
        self.parts.append(f'<path d="M{self.left},{self.top}V{bottom}H{right}" stroke="black" fill="none"/>')
        self.text(self.left + self.width / 2, bottom + 36, x_name, ' text-anchor="middle"')

    def limit(self, value, words):
        y = self.y(value)
        self.parts.append(f'<path d="M{self.left},{y:.1f}H{self.left + self.width}" stroke="#555555" stroke-dasharray="2 3"/>')
        self.text(self.left + 8, y + 15, words, ' fill="#555555" stroke="white" stroke-width="4" paint-order="stroke"')

    def curve(self, points, style):
        low, high = self.x_range
        at = " ".join(f"{self.x(x):.1f},{self.y(y):.1f}" for x, y in points if low <= x <= high)
        self.parts.append(f'<polyline points="{at}" {stroke(style)}/>')


def stroke(style):
    colour, width, dashes = style
    dashed = f' stroke-dasharray="{dashes}"' if dashes else ""
    return f'fill="none" stroke="{colour}" stroke-width="{width}" stroke-linejoin="round"{dashed}'


def main():
    lines = read_lines(sys.argv[1])
    load = "load: held animals / 4N slots"
    herds = Panel(70, 120, 350, 395, (90, 100), (0, 100))
    herds.axes("Herds that have met no refusal 6 yet", range(90, 101, 2), range(0, 101, 20), load, " %")
    visits = Panel(520, 120, 350, 155, (0, 100), (1, 682), log=True)
    visits.axes("Mean visits of a set (buckets, log scale)", range(0, 101, 20), (1, 10, 100), load)
    visits.limit(682, "682: the whole visit list")
    moves = Panel(520, 360, 350, 155, (0, 100), (0, 4))
    moves.axes("Mean moves of a set (entries)", range(0, 101, 20), range(0, 4), load)
    moves.limit(4, "4: the most moves of any set")
    legend = []
    for i, (buckets, style) in enumerate(STYLES.items()):
        herds.curve(without_refusal(lines[buckets]), style)
        visits.curve(means(lines[buckets], "visits"), style)
        moves.curve(means(lines[buckets], "moves"), style)
        x = 70 + 190 * i
        legend.append(f'<path d="M{x},75h36" {stroke(style)}/><text x="{x + 44}" y="79">N {buckets:,}, '
                      f'{lines[buckets][0]["herds"]:,} herds</text>')
    body = "\n  ".join(legend + herds.parts + visits.parts + moves.parts)
    with open(sys.argv[2], "w") as file:
        file.write(f'''<?xml version="1.0" encoding="UTF-8"?>
<svg xmlns="http://www.w3.org/2000/svg" width="{WIDTH}" height="{HEIGHT}" viewBox="0 0 {WIDTH} {HEIGHT}" role="img" aria-labelledby="t d" font-family="sans-serif" font-size="12" fill="black">
  <title id="t">How full the table gets</title>
  <desc id="d">Left: percent of herds that have met no refusal 6, against load from 90 to 100 %, for N 64, 256 and 1,024. Right: mean visits and mean moves of a set of an absent animal, against load. Drawn by bench/draw.py from bench/load.c.</desc>
  <rect width="{WIDTH}" height="{HEIGHT}" fill="white"/>
  <text x="20" y="28" font-size="18" font-weight="bold">How full the table gets</text>
  <text x="20" y="49">Sets of absent animals with scattered numbers into an empty table, up to the first refusal 6 (no room within four moves).</text>
  {body}
  <text x="20" y="{HEIGHT - 12}">N 2,048 is not drawn: its 4,096 places are all taken at 50 % load.</text>
</svg>
''')


if __name__ == "__main__":
    main()
