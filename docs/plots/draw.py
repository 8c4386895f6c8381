#!/usr/bin/env python3
# SPDX-License-Identifier: MIT OR Apache-2.0
"""Draws each table of this folder as a plot: NAME.csv gives NAME.svg. Both axes go by powers of ten."""
import csv
import math
from pathlib import Path
from xml.sax.saxutils import escape

HERE = Path(__file__).resolve().parent
WIDTH, HEIGHT = 560, 300
LEFT, RIGHT, TOP, BOTTOM = 70, 170, 20, 50
COLOURS = ['#1f6feb', '#d1242f', '#1a7f37']


class Axis:
    """Powers of ten around the values, spread from one place of the picture to another."""

    def __init__(self, values, start, end):
        self.low = math.floor(math.log10(min(values)))
        self.high = max(math.ceil(math.log10(max(values))), self.low + 1)
        self.start, self.end = start, end

    def place(self, value):
        share = (math.log10(value) - self.low) / (self.high - self.low)
        return self.start + share * (self.end - self.start)

    def marks(self):
        return [10.0 ** power for power in range(self.low, self.high + 1)]


def short(value):
    return f'{value:,.0f}' if value >= 1 else f'{value:g}'


def text(x, y, words, anchor='middle'):
    return f'<text x="{x:.1f}" y="{y:.1f}" text-anchor="{anchor}">{escape(words)}</text>'


def line(x1, y1, x2, y2, colour):
    return f'<line x1="{x1:.1f}" y1="{y1:.1f}" x2="{x2:.1f}" y2="{y2:.1f}" stroke="{colour}"/>'


def frame(across, up, words):
    parts = []
    for mark in across.marks():
        parts.append(line(across.place(mark), TOP, across.place(mark), HEIGHT - BOTTOM, '#d8dee4'))
        parts.append(text(across.place(mark), HEIGHT - BOTTOM + 18, short(mark)))
    for mark in up.marks():
        parts.append(line(LEFT, up.place(mark), WIDTH - RIGHT, up.place(mark), '#d8dee4'))
        parts.append(text(LEFT - 8, up.place(mark) + 4, short(mark), 'end'))
    parts.append(text((LEFT + WIDTH - RIGHT) / 2, HEIGHT - 12, words))
    return parts


def curve(points, colour, words, last):
    path = ' '.join(f'{x:.1f},{y:.1f}' for x, y in points)
    dots = [f'<circle cx="{x:.1f}" cy="{y:.1f}" r="3" fill="{colour}"/>' for x, y in points]
    name = f'<text x="{WIDTH - RIGHT + 8}" y="{last:.1f}" fill="{colour}">{escape(words)}</text>'
    return [f'<polyline points="{path}" fill="none" stroke="{colour}" stroke-width="2"/>', *dots, name]


def plot(heads, rows):
    across = Axis([row[0] for row in rows], LEFT, WIDTH - RIGHT)
    up = Axis([value for row in rows for value in row[1:]], HEIGHT - BOTTOM, TOP)
    parts = frame(across, up, heads[0])
    # Names of curves that end close together are moved apart.
    ends = sorted((up.place(rows[-1][at]), at) for at in range(1, len(heads)))
    places, lowest = {}, 0.0
    for end, at in ends:
        lowest = max(end + 4, lowest + 16)
        places[at] = lowest
    for at in range(1, len(heads)):
        points = [(across.place(row[0]), up.place(row[at])) for row in rows]
        parts += curve(points, COLOURS[at - 1], heads[at], places[at])
    head = f'<svg xmlns="http://www.w3.org/2000/svg" viewBox="0 0 {WIDTH} {HEIGHT}" font-family="sans-serif" font-size="12">'
    return '\n'.join([head, f'<rect width="{WIDTH}" height="{HEIGHT}" fill="white"/>', *parts, '</svg>', ''])


def main():
    for table in sorted(HERE.glob('*.csv')):
        with open(table, newline='') as source:
            heads, *rows = csv.reader(source)
        rows = [[float(value) for value in row] for row in rows]
        table.with_suffix('.svg').write_text(plot(heads, rows))


if __name__ == '__main__':
    main()
