#!/usr/bin/env python3
"""A page for any browser, with a picture of the lag of a site: ordup lag < RECORD | lag_page.py [SITE] > PAGE

It reads what `ordup lag` prints, also with --series, and writes a file of HTML that needs no other. There is a panel for each scope, as
examples/lag.gp draws it; where there are more places than points on the screen, a point has the greatest weight of its places. What is
no lag, as the verdict on a record that is not valid, is told on standard error with status 3. It needs Python 3.9 alone.
"""

from __future__ import annotations

import html
import sys
from dataclasses import dataclass
from itertools import groupby
from typing import Callable, Iterable, Iterator, Optional

WIDTH, HEIGHT = 760, 220  # of a panel, in points
LEFT, TOP, RIGHT, BOTTOM = 70, 30, 20, 30  # what is around it
BEGINS, ENDS = ["place", "reported"], ["round", "window"]
PAGE = """<!DOCTYPE html>
<html lang="en">
<meta charset="utf-8">
<title>{title}</title>
<style>
body {{ font: 14px sans-serif; margin: 1em 2em; color: #222; background: #fff }}
svg {{ display: block; max-width: 100% }}
text {{ font-size: 12px; fill: #222 }}
.weight {{ fill: none; stroke: #0072b2; stroke-width: 2 }}
.amount {{ fill: none; stroke: #000; stroke-width: 2 }}
.waits {{ fill: #d55e00 }}
.odd {{ fill: #cfe3f1 }}
.even {{ fill: #ead9e6 }}
.epoch {{ stroke: #666; stroke-dasharray: 4 4 }}
.axis {{ fill: none; stroke: #222 }}
span {{ white-space: nowrap; margin-right: 1.2em }}
i {{ display: inline-block; width: 1.6em; height: 0.2em; vertical-align: middle; margin-right: 0.4em; text-align: center }}
</style>
<h1>{title}</h1>
{body}
</html>
"""
LEGEND = ('<p><span><i style="background: #0072b2"></i>acknowledged and not reported</span> '
          '<span><i style="background: #000"></i>amount of the limit</span> '
          '<span><i style="height: auto; color: #d55e00">&#9650;</i>an update that waits, at the weight that it would bring</span> '
          '<span><i style="background: #cfe3f1; height: 1em"></i>window</span></p>')


class NoLag(Exception):
    """A line is not of a lag."""


@dataclass
class Place:
    """A row: what the site's lag weighs at a place on each scope, and the amount of the limit there."""

    number: int
    weights: dict[str, tuple[int, int]]
    is_round: bool
    window: Optional[int]


@dataclass
class Lag:
    """The rows of a lag, its scopes, and at which places the epochs after the first begin."""

    places: list[Place]
    scopes: list[str]
    epochs: list[int]


def scopes_of(header: list[str]) -> list[str]:
    """The scopes of a header, each of which has two columns."""
    scopes = [it[len("weight ") :] for it in header[2:-2:2]]
    if header != [*BEGINS, *(f"{word} {it}" for it in scopes for word in ("weight", "amount")), *ENDS]:
        raise NoLag
    return scopes


def place_of(cells: list[str], scopes: list[str]) -> Place:
    number, _, *pairs, is_round, window = cells
    if len(pairs) != 2 * len(scopes):
        raise NoLag
    weights = {it: (int(weight), int(amount)) for it, weight, amount in zip(scopes, pairs[::2], pairs[1::2]) if weight}
    return Place(int(number), weights, is_round == "1", int(window) if window else None)


def read(lines: Iterable[str]) -> Lag:
    """What `ordup lag` printed."""
    lag, scopes, is_begun = Lag([], [], []), list[str](), False
    for line in lines:
        cells = line.rstrip("\n").split(",")
        try:
            if cells[:2] == BEGINS:
                scopes, is_begun = scopes_of(cells), True
                lag.scopes += [it for it in scopes if it not in lag.scopes]
                if lag.places:
                    lag.epochs.append(lag.places[-1].number + 1)
            elif is_begun:
                lag.places.append(place_of(cells, scopes))
            else:
                raise NoLag
        except (NoLag, ValueError):
            raise NoLag(f"this is no line of a lag, as `ordup lag` prints it: {line.rstrip()[:60]}") from None
    return lag


def ticks(top: int, most: int) -> Iterator[int]:
    """Whole numbers from 0 to the top, not more than so many, whose step is 1, 2 or 5 times a power of ten."""
    step = next(it for power in range(20) for it in (10**power, 2 * 10**power, 5 * 10**power) if top // it < most)
    return iter(range(0, top + 1, step))


class Panel:
    """The panel of a scope."""

    def __init__(self, lag: Lag, scope: str) -> None:
        self.lag, self.scope = lag, scope
        self.first, self.count = lag.places[0].number, lag.places[-1].number - lag.places[0].number + 1
        # The greatest that a point shows, of the places where the limit is in force.
        self.waits = {self.point(it): it for it in lag.places if it.is_round and scope in it.weights}
        self.weights = self.greatest(lambda it: 0 if it.is_round else it.weights[scope][0])
        self.amounts = self.greatest(lambda it: it.weights[scope][1])
        of_waiting = (it.weights[scope][0] for it in self.waits.values())
        self.greatest_of_all = max([1, *self.weights.values(), *self.amounts.values(), *of_waiting])

    def point(self, it: Place) -> int:
        """Which of the points along the panel shows a place."""
        return (it.number - self.first) * min(WIDTH, self.count) // self.count

    def greatest(self, value: Callable[[Place], int]) -> dict[int, int]:
        shown = (it for it in self.lag.places if self.scope in it.weights)
        return {point: max(map(value, places)) for point, places in groupby(shown, self.point)}

    def x(self, point: float) -> float:
        return round(LEFT + point * WIDTH / min(WIDTH, self.count), 1)

    def x_of_place(self, number: int) -> float:
        return round(LEFT + (number - self.first) * WIDTH / self.count, 1)

    def y(self, value: int) -> float:
        return round(TOP + HEIGHT * (1 - value / (1.1 * self.greatest_of_all)), 1)

    def steps(self, kind: str, values: dict[int, int]) -> str:
        """A line through values, with a gap where there is none."""
        path, last = [], None
        for point, value in values.items():
            path.append(f"{'M' if last != point - 1 else 'L'}{self.x(point)} {self.y(value)}H{self.x(point + 1)}")
            last = point
        return f'<path class="{kind}" d="{"".join(path)}"/>'

    def windows(self) -> Iterator[str]:
        for number, places in groupby((it for it in self.lag.places if it.window is not None), lambda it: it.window):
            numbers = [it.number for it in places]
            x, end = self.x_of_place(numbers[0]), self.x_of_place(numbers[-1] + 1)
            kind = "odd" if (number or 0) % 2 else "even"
            yield (f'<rect class="{kind}" x="{x}" y="{TOP}" width="{round(end - x, 1)}" height="{HEIGHT}">'
                   f"<title>window {number}: the updates {numbers[0]} to {numbers[-1]}</title></rect>")

    def triangles(self) -> Iterator[str]:
        for point, place in self.waits.items():
            x, y = round((self.x(point) + self.x(point + 1)) / 2, 1), self.y(place.weights[self.scope][0])
            told = f"update {place.number} waits: {place.weights[self.scope][0]} with it, of {place.weights[self.scope][1]}"
            yield f'<path class="waits" d="M{x} {y - 6}l6 10h-12z"><title>{told}</title></path>'

    def axes(self) -> Iterator[str]:
        yield f'<path class="axis" d="M{LEFT} {TOP}v{HEIGHT}h{WIDTH}"/>'
        for value in ticks(self.greatest_of_all, 6):
            yield f'<text x="{LEFT - 6}" y="{self.y(value) + 4}" text-anchor="end">{value:,}</text>'
        for number in ticks(self.first + self.count - 1, 12):
            if number >= self.first:
                x = round((self.x_of_place(number) + self.x_of_place(number + 1)) / 2, 1)
                yield f'<text x="{x}" y="{TOP + HEIGHT + 16}" text-anchor="middle">{number:,}</text>'
        for number in self.lag.epochs:
            x = self.x_of_place(number)
            yield f'<path class="epoch" d="M{x} {TOP}v{HEIGHT}"><title>the next epoch</title></path>'

    def drawn(self) -> str:
        unit = "updates" if self.scope == "count" else "units of the values"
        parts = [*self.windows(), self.steps("weight", self.weights), self.steps("amount", self.amounts), *self.triangles(), *self.axes()]
        size = f"{LEFT + WIDTH + RIGHT} {TOP + HEIGHT + BOTTOM}"
        scope = html.escape(self.scope)
        return (f'<svg viewBox="0 0 {size}" width="{size.split()[0]}" role="img" aria-label="the lag on {scope}">\n'
                f'<text x="{LEFT}" y="{TOP - 10}">{scope}, in {unit}, by the place in the log</text>\n' + "\n".join(parts) + "\n</svg>")


def page(lag: Lag, site: str) -> str:
    """The page."""
    if lag.places and lag.scopes:
        body = "\n".join([LEGEND, *(Panel(lag, it).drawn() for it in lag.scopes)])
    else:
        body = "<p>No limit, or no decided place: there is nothing to draw.</p>"
    return PAGE.format(title=html.escape(f"The lag of {site}" if site else "The lag of a site"), body=body)


def main(words: list[str]) -> int:
    if len(words) > 1 or words[:1] in (["-h"], ["--help"]):
        print(__doc__)
        return 2 if len(words) > 1 else 0
    try:
        sys.stdout.write(page(read(sys.stdin), "".join(words)))
    except NoLag as why:
        print(f"lag_page.py: {why}", file=sys.stderr)
        return 3
    return 0


if __name__ == "__main__":
    sys.exit(main(sys.argv[1:]))
