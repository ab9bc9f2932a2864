#!/usr/bin/env python3
"""Draws what bench/growth.sh prints: time a ply and memory a game, by the number of games.

Usage: bench/growth.sh | python3 -B bench/growth.py > docs/growth.svg
"""
from __future__ import annotations

import math
import re
import sys

MAKERS = {"pbook": "#1f5fa8", "polyglot": "#b3541e"}
LEFT, TOP, WIDE, HIGH, APART = 60, 56, 300, 220, 390

# For each maker the points (games, nanoseconds of processor time a ply, kilobytes a game).
Points = dict[str, list[tuple[int, float, float]]]


def read() -> Points:
    """Reads what bench/growth.sh prints."""
    points: Points = {maker: [] for maker in MAKERS}
    games = plies = 1
    maker, seconds = "", 0.0
    for line in sys.stdin:
        if found := re.match(r"(\d+) games of (\d+) plies", line):
            games, plies = int(found[1]), int(found[2])
        elif found := re.match(r"([\d.]+) s of processor time.*: \S*?(pbook|polyglot) ", line):
            seconds, maker = float(found[1]), found[2]
        elif found := re.match(r" *(\d+) KB of memory", line):
            points[maker].append((games, seconds * 1e9 / plies, int(found[1]) / games))
    return points


def rounded_up(value: float) -> float:
    """The next number that has one digit that counts: where an axis ends."""
    unit = 10 ** math.floor(math.log10(value))
    return math.ceil(value / unit) * unit


def chart(points: Points, column: int, left: int, title: str) -> list[str]:
    """One chart: games on a logarithmic axis, and a column of the points."""
    games = [point[0] for some in points.values() for point in some]
    first, last = math.log10(min(games)), math.log10(max(games))
    top = rounded_up(max(point[column] for some in points.values() for point in some))

    def place(count: int, value: float) -> tuple[float, float]:
        """Where a point stands."""
        across = (math.log10(count) - first) / (last - first)
        return left + WIDE * across, TOP + HIGH * (1 - value / top)

    lines = [f'<text class="title" x="{left}" y="{TOP - 18}">{title}</text>']
    for quarter in range(5):
        value = top * quarter / 4
        y = place(min(games), value)[1]
        lines += [f'<path class="grid" d="M{left} {y:.1f} h{WIDE}"/>',
                  f'<text class="value" x="{left - 6}" y="{y + 4:.1f}">{value:,g}</text>']
    for count in sorted(set(games)):
        x = place(count, 0)[0]
        lines.append(f'<text class="games" x="{x:.1f}" y="{TOP + HIGH + 18}">{count:,}</text>')
    for maker, colour in MAKERS.items():
        places = [place(point[0], point[column]) for point in points[maker]]
        drawn = " L".join(f"{x:.1f} {y:.1f}" for x, y in places)
        lines.append(f'<path class="maker" stroke="{colour}" d="M{drawn}"/>')
        lines += [f'<circle cx="{x:.1f}" cy="{y:.1f}" r="3.5" fill="{colour}"/>' for x, y in places]
        x, y = places[-1]
        lines.append(f'<text class="name" fill="{colour}" x="{x:.1f}" y="{y - 9:.1f}">{maker}</text>')
    return lines


def main() -> None:
    """Prints the picture."""
    points = read()
    said = "; ".join(f"{maker}, {games:,} games: {time:.0f} ns a ply, {memory:.1f} KB a game"
                     for maker, some in points.items() for games, time, memory in some)
    wide, high = LEFT + APART + WIDE + 40, TOP + HIGH + 50
    print(f'''<svg xmlns="http://www.w3.org/2000/svg" viewBox="0 0 {wide} {high}" width="{wide}" height="{high}" role="img" aria-labelledby="title desc">
  <title id="title">Time and memory by the number of games, beside PolyGlot</title>
  <desc id="desc">{said}</desc>
  <style>
    text {{ font-family: "DejaVu Sans", Verdana, sans-serif; font-size: 11.5px; fill: #333333; }}
    text.title {{ font-size: 13px; font-weight: bold; fill: #111111; }}
    text.value, text.name {{ text-anchor: end; }}
    text.games {{ text-anchor: middle; }}
    text.name {{ font-weight: bold; }}
    rect {{ fill: #ffffff; }}
    path {{ fill: none; }}
    path.grid {{ stroke: #dddddd; }}
    path.maker {{ stroke-width: 2; }}
  </style>
  <rect x="0" y="0" width="{wide}" height="{high}"/>''')
    for line in chart(points, 1, LEFT, "nanoseconds of processor time a ply") + \
            chart(points, 2, LEFT + APART, "kilobytes of memory a game"):
        print(f"  {line}")
    print(f'  <text class="games" x="{wide / 2:.0f}" y="{high - 10}">games of 80 plies</text>\n</svg>')


if __name__ == "__main__":
    main()
