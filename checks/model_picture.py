"""The picture of the crates, docs/crates.svg, which checks/model --print draws from crates.txt.

A crate stands on a level above all that it stands on. An edge that others imply is left out. One that passes levels goes through a
place of its own on each, so that it crosses no box. The order on a level is that of the middle of what is joined to it.
"""

from __future__ import annotations

from typing import Iterator, Mapping, Sequence, Union

# A crate by its name, or the place of an edge: the crates above and below, and the level.
Point = Union[str, "tuple[str, str, int]"]
Crates = Mapping[str, Sequence[str]]

WIDTH, HIGH, STEP, GAP, EDGE = 900, 30, 70, 18, 24

STYLE = """\
    text { font-family: Helvetica, Arial, "DejaVu Sans", sans-serif; font-size: 15px; fill: #1f2328; text-anchor: middle; }
    rect { fill: #f6f8fa; stroke: #57606a; stroke-width: 1.5; }
    .script { fill: #fff3c4; stroke: #8a6d00; }
    .thread { fill: #eaf2fd; stroke: #0b57b0; }
    .audit { fill: #e9f6ec; stroke: #1a7f37; }
    path { fill: none; stroke: #57606a; stroke-width: 1.3; }
    .page { fill: #ffffff; stroke: #d0d7de; stroke-width: 1; }"""
TITLE = "The crates of ordup, each above those that it stands on"
TEXT = ("From the program and the library for C down: the jobs of the program; successors and scripts, plans in threads and audits; "
        "below them the world, the cluster with its holds and feeds, and the records; then the primary, limits and the log; and at "
        "the bottom objects and rounds. The list below the picture says what each crate is for.")


def below(crates: Crates, name: str) -> set[str]:
    """All crates that a crate stands on."""
    return set(crates[name]).union(*(below(crates, it) for it in crates[name]))


def levels_of(crates: Crates) -> dict[str, int]:
    """The level of each crate, from 0 at the bottom."""
    level: dict[str, int] = {}
    for name in crates:
        level[name] = max((level[it] + 1 for it in crates[name]), default=0)
    return level


def kind(crates: Crates, name: str) -> str:
    """The colour of a box: what a crate is for, by what it stands on."""
    stands = below(crates, name) | {name}
    if not any(name in it for it in crates.values()):
        return ""
    if "ordup_world" in stands:
        return "script"
    return "thread" if "ordup_feed" in stands else "audit" if "ordup_audit" in stands else ""


def width_of(point: Point) -> int:
    return len(point) * 8 + 28 if isinstance(point, str) else 6


class Drawing:
    """Points, which are crates and the places of edges on the levels between, and the lines between points of neighbouring levels."""

    def __init__(self, crates: Crates):
        self.crates = {name.removeprefix("ordup_"): [it.removeprefix("ordup_") for it in names] for name, names in crates.items()}
        self.kinds = {name.removeprefix("ordup_"): kind(crates, name) for name in crates}
        self.level = levels_of(self.crates)
        self.rows: list[list[Point]] = [[] for _ in range(max(self.level.values()) + 1)]
        for name in self.crates:
            self.rows[self.level[name]].append(name)
        self.lines: list[tuple[Point, Point]] = []
        self.paths: list[list[Point]] = []
        for name, names in self.crates.items():
            direct = [it for it in names if not any(it in below(self.crates, other) for other in names)]
            for goal in direct:
                self.add_edge(name, goal)
        self.order()
        self.x = self.places()

    def add_edge(self, upper: str, lower: str) -> None:
        path: list[Point] = [upper]
        for level in range(self.level[upper] - 1, self.level[lower], -1):
            path.append((upper, lower, level))
            self.rows[level].append(path[-1])
        path.append(lower)
        self.paths.append(path)
        self.lines += list(zip(path, path[1:]))

    def joined(self, point: Point, down: bool) -> list[Point]:
        return [b if down else a for a, b in self.lines if (a if down else b) == point]

    def order(self) -> None:
        """Orders each level by the middle of what its points are joined to, down and up in turn."""
        for turn in range(24):
            down = turn % 2 == 0
            for row in self.rows if down else self.rows[::-1]:
                at = {it: index / max(len(line) - 1, 1) for line in self.rows for index, it in enumerate(line)}
                middles = {}
                for it in row:
                    others = [at[other] for other in self.joined(it, down)] or [at[it]]
                    middles[it] = sum(others) / len(others)
                row.sort(key=lambda it: middles[it])

    def places(self) -> dict[Point, float]:
        """The middle of each point: as near to what it is joined to as the others on its level let it be."""
        x: dict[Point, float] = {}
        for row in self.rows:
            total = sum(width_of(it) + GAP for it in row)
            left = (WIDTH - total) / 2
            for it in row:
                x[it] = left + (width_of(it) + GAP) / 2
                left += width_of(it) + GAP
        for turn in range(60):
            for row in self.rows if turn % 2 else self.rows[::-1]:
                wanted = []
                for it in row:
                    others = [x[other] for other in self.joined(it, True) + self.joined(it, False)]
                    wanted.append(sum(others) / len(others) if others else x[it])
                x.update(zip(row, apart(row, wanted)))
        return x


def apart(row: Sequence[Point], wanted: Sequence[float]) -> list[float]:
    """Places near the wanted ones, in their order, which leave room for each point and stay within the picture."""
    need = [(width_of(a) + width_of(b)) / 2 + GAP for a, b in zip(row, row[1:])]
    least: list[float] = []
    most: list[float] = []
    for index, it in enumerate(row):
        edge = EDGE + width_of(it) / 2
        least.append(max(wanted[index], least[-1] + need[index - 1]) if index else max(wanted[0], edge))
    for index in reversed(range(len(row))):
        edge = WIDTH - EDGE - width_of(row[index]) / 2
        most.append(min(wanted[index], most[-1] - need[index]) if most else min(wanted[index], edge))
    middle = [(a + b) / 2 for a, b in zip(least, reversed(most))]
    for index, it in enumerate(row):
        edge = EDGE + width_of(it) / 2
        middle[index] = max(middle[index], edge if not index else middle[index - 1] + need[index - 1])
    for index in reversed(range(len(row))):
        edge = WIDTH - EDGE - width_of(row[index]) / 2
        middle[index] = min(middle[index], edge if index == len(row) - 1 else middle[index + 1] - need[index])
    return middle


def picture(crates: Crates) -> Iterator[str]:
    drawing = Drawing(crates)
    high = len(drawing.rows) * STEP + 2 * EDGE - (STEP - HIGH)
    top = {level: high - EDGE - HIGH - level * STEP for level in range(len(drawing.rows))}
    yield (f'<svg xmlns="http://www.w3.org/2000/svg" viewBox="0 0 {WIDTH} {high}" width="{WIDTH}" height="{high}" role="img" '
           'aria-labelledby="title text">')
    yield f'  <title id="title">{TITLE}</title>'
    yield f'  <desc id="text">{TEXT}</desc>'
    yield f"  <style>\n{STYLE}\n  </style>"
    yield f'  <rect x="0.5" y="0.5" width="{WIDTH - 1}" height="{high - 1}" rx="8" class="page"/>'
    for path in drawing.paths:
        place, drawn = top[drawing.level[str(path[0])]] + HIGH, [f"M{drawing.x[path[0]]:.0f} {top[drawing.level[str(path[0])]] + HIGH}"]
        for point in path[1:]:
            level = drawing.level[point] if isinstance(point, str) else point[2]
            drawn.append(f"L{drawing.x[point]:.0f} {top[level]}")
            if not isinstance(point, str):
                drawn.append(f"V{top[level] + HIGH}")
        yield f'  <path d="{" ".join(drawn)}"/>'
    for row, level in zip(drawing.rows, top):
        for name in [it for it in row if isinstance(it, str)]:
            shade = f' class="{drawing.kinds[name]}"' if drawing.kinds[name] else ""
            left = drawing.x[name] - (width_of(name) - 4) / 2
            yield f'  <rect x="{left:.0f}" y="{top[level]}" width="{width_of(name) - 4}" height="{HIGH}" rx="6"{shade}/>'
            yield f'  <text x="{drawing.x[name]:.0f}" y="{top[level] + 20}">{name}</text>'
    yield "</svg>"
