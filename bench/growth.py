#!/usr/bin/env python3
"""Pictures of how times grow: a line a program, both axes by their logarithms, as SVG."""
from __future__ import annotations

import math
from collections.abc import Iterator
from typing import Any

WIDTH, HEIGHT, LEFT, RIGHT, HIGH, LOW = 560, 320, 60, 130, 20, 40
COLOURS = ["#1f6f43", "#b3541e", "#2b6cb0", "#7b4397"]


class Axes:
    """Where a size and a time stand in the picture."""

    def __init__(self, sizes: Any, times: Any) -> None:
        self.sizes = math.log(min(sizes)), math.log(max(sizes))
        self.times = math.floor(math.log10(min(times))), math.ceil(math.log10(max(times)))

    def across(self, size: int) -> Any:
        low, high = self.sizes
        return LEFT + (math.log(size) - low) / (high - low) * (WIDTH - LEFT - RIGHT)

    def up(self, seconds: float) -> Any:
        low, high = self.times
        return HEIGHT - LOW - (math.log10(seconds) - low) / (high - low) * (HEIGHT - LOW - HIGH)


def grid(axes: Any, sizes: Any, label: Any) -> Iterator[Any]:
    """The lines of the times, and the sizes below."""
    for power in range(axes.times[0], axes.times[1] + 1):
        y = axes.up(10**power)
        yield (
            f'<path d="M{LEFT} {y:.0f}H{WIDTH - RIGHT}" stroke="#ddd"/><text x="{LEFT - 8}" y="{y + 4:.0f}"'
            f' text-anchor="end">{10.0**power:g} s</text>'
        )
    for size in sizes:
        yield f'<text x="{axes.across(size):.0f}" y="{HEIGHT - LOW + 18}" text-anchor="middle">{size}</text>'
    yield f'<text x="{(LEFT + WIDTH - RIGHT) / 2:.0f}" y="{HEIGHT - 4}" text-anchor="middle">{label}</text>'


def line(axes: Any, name: str, colour: Any, points: Any, y: Any) -> Iterator[Any]:
    """A program's times up to the first that did not end, which is drawn at its limit, by a broken line; its name at a
    height."""
    places = [(axes.across(size), axes.up(seconds)) for size, seconds, _ in points]
    whole = sum(1 for _, _, ended in points if ended)
    joined = " ".join("%.1f,%.1f" % it for it in places[:whole])
    yield f'<polyline fill="none" stroke="{colour}" stroke-width="2" points="{joined}"/>'
    yield from (f'<circle cx="{x:.1f}" cy="{height:.1f}" r="3" fill="{colour}"/>' for x, height in places[:whole])
    if 0 < whole < len(places):
        (a, b), (c, d) = places[whole - 1 : whole + 1]
        yield f'<path d="M{a:.1f} {b:.1f}L{c:.1f} {d:.1f}" stroke="{colour}" stroke-dasharray="4 4" stroke-width="2"/>'
    said = name if whole == len(points) else name + ", not ended"
    yield f'<text x="{WIDTH - RIGHT + 8}" y="{y:.1f}" fill="{colour}">{said}</text>'


def picture(title: str, label: str, lines: dict[str, Any]) -> str:
    """The picture of some programs' times: for each name the sizes, the seconds and whether the run ended, in order of
    size."""
    cut = {}
    for name, points in lines.items():
        first = next((at for at, point in enumerate(points) if not point[2]), len(points))
        cut[name] = [(size, max(seconds, 0.001), ended) for size, seconds, ended in points[: first + 1]]
    sizes = sorted({size for points in lines.values() for size, _, _ in points})
    axes = Axes(sizes, [seconds for points in cut.values() for _, seconds, _ in points])
    heights, last = {}, -100.0
    for name in sorted(cut, key=lambda it: axes.up(cut[it][-1][1])):
        heights[name] = last = max(axes.up(cut[name][-1][1]) + 4, last + 15)
    out = [
        (
            f'<svg xmlns="http://www.w3.org/2000/svg" viewBox="0 0 {WIDTH} {HEIGHT}" font-family="sans-serif"'
            ' font-size="12">'
        ),
        f"<title>{title}</title>",
        f'<rect width="{WIDTH}" height="{HEIGHT}" fill="#fff"/>',
        *grid(axes, sizes, label),
    ]
    for (name, points), colour in zip(cut.items(), COLOURS):
        out += line(axes, name, colour, points, heights[name])
    return "\n".join([*out, "</svg>"]) + "\n"


def power(points: Any) -> Any:
    """The exponent by which a quantity grows from the first size to the last."""
    (small, little), (large, much) = points[0], points[-1]
    return math.log(much / little) / math.log(large / small)
