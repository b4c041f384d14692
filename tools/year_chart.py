#!/usr/bin/env python3
"""A year of one register, drawn from its calendar.

    python3 tools/year_chart.py            examples/depot.days as docs/year-of-depot.svg
    python3 tools/year_chart.py --check    nothing is written; exits 1 where the file is not what the calendar makes

A calendar is what c/seasons.c prints: runs of days with their farthest toxic and flammable card, and over the year the earliest
day with each one's distance. The toxic ones are drawn, a step for each run of days, with the days of a year of 366 in months.
"""

import re
import sys
from pathlib import Path

CALENDAR = Path("examples/depot.days")
CHART = Path("docs/year-of-depot.svg")

MONTHS = [("January", 31), ("February", 29), ("March", 31), ("April", 30), ("May", 31), ("June", 30), ("July", 31),
          ("August", 31), ("September", 30), ("October", 31), ("November", 30), ("December", 31)]
LAST_DAY = sum(days for _, days in MONTHS)

WIDTH, HEIGHT = 900, 420
LEFT, RIGHT, TOP, BOTTOM = 60, 880, 80, 360
STEP, GRID, TEXT, MARK = "#1f4e79", "#d9d9d9", "#222222", "#b3261e"


class Run:
    """Days with the same farthest toxic card, or with none: of no miles then."""

    def __init__(self, first, last, card, miles):
        self.first, self.last, self.card, self.miles = first, last, card, miles


def read_runs(text):
    """The runs of a calendar, which are to be all of a year; joined where only the flammable card is another."""
    runs, day = [], 1
    for first, last, toxic in re.findall(r"^from (\d+) to (\d+): T (none|\d+ \d+\.\d\d), ", text, re.MULTILINE):
        if int(first) != day:
            sys.exit(f"{CALENDAR}: a run from {first} on, not from {day}")
        card, miles = (None, 0.0) if toxic == "none" else (toxic.split()[0], float(toxic.split()[1]))
        if runs and (runs[-1].card, runs[-1].miles) == (card, miles):
            runs[-1].last = int(last)
        else:
            runs.append(Run(day, int(last), card, miles))
        day = int(last) + 1
    if day != LAST_DAY + 1:
        sys.exit(f"{CALENDAR}: the runs end with {day - 1}")
    return runs


def read_year(text):
    """The farthest distance and the earliest day that has it."""
    told = re.search(r"^over the year: T \d+ (\d+\.\d\d) on (\d+), ", text, re.MULTILINE)
    if not told:
        sys.exit(f"{CALENDAR}: no farthest toxic card over the year")
    return float(told[1]), int(told[2])


def date(day):
    for month, days in MONTHS:
        if day <= days:
            return f"{day} {month}"
        day -= days


def x(day):
    """Where a day begins."""
    return LEFT + (RIGHT - LEFT) * (day - 1) / LAST_DAY


def y(miles, top):
    return BOTTOM - (BOTTOM - TOP) * miles / top


def line(x1, y1, x2, y2, colour, more=""):
    return f'<line x1="{x1:.1f}" y1="{y1:.1f}" x2="{x2:.1f}" y2="{y2:.1f}" stroke="{colour}"{more}/>'


def words(at_x, at_y, text, anchor="middle", colour=TEXT, size=12, more=""):
    place = f'x="{at_x:.1f}" y="{at_y:.1f}" text-anchor="{anchor}"'
    return f'<text {place} fill="{colour}" font-size="{size}"{more}>{text}</text>'


def grid(top):
    """Miles beside the axis, months under it."""
    parts = []
    for miles in range(top + 1):
        parts += [line(LEFT, y(miles, top), RIGHT, y(miles, top), GRID), words(LEFT - 8, y(miles, top) + 4, miles, "end")]
    parts.append(words(LEFT - 8, TOP - 14, "miles", "end"))
    day = 1
    for month, days in MONTHS:
        parts += [line(x(day), BOTTOM, x(day), BOTTOM + 6, TEXT), words((x(day) + x(day + days)) / 2, BOTTOM + 22, month[:3])]
        day += days
    parts += [line(RIGHT, BOTTOM, RIGHT, BOTTOM + 6, TEXT), line(LEFT, BOTTOM, RIGHT, BOTTOM, TEXT)]
    parts.append(words((LEFT + RIGHT) / 2, BOTTOM + 44, f"days 1 to {LAST_DAY} of a year"))
    return parts


def steps(runs, top):
    """One path through all runs, and over each the number of its card."""
    points = [(x(day), y(run.miles, top)) for run in runs for day in (run.first, run.last + 1)]
    path = "M" + " L".join(f"{px:.1f} {py:.1f}" for px, py in points)
    parts = [f'<path d="{path}" fill="none" stroke="{STEP}" stroke-width="2.5"/>']
    for run in runs:
        if run.card:
            parts.append(words((x(run.first) + x(run.last + 1)) / 2, y(run.miles, top) - 7, run.card, colour=STEP))
    return parts


def earliest(miles, day, top):
    """A point where the farthest distance begins, and what it is in words, above the numbers of the cards."""
    px, py = x(day), y(miles, top)
    told = f"{miles:.2f} miles from day {day} on, {date(day)}: the farthest of the year"
    return [f'<circle cx="{px:.1f}" cy="{py:.1f}" r="4.5" fill="{MARK}"/>', words(px, py - 26, told, "start", MARK, 13)]


def chart(text):
    runs, (miles, day) = read_runs(text), read_year(text)
    # A mile above the longest ring has room for what is said of it.
    top = int(max(run.miles for run in runs)) + 1
    parts = [
        f'<svg xmlns="http://www.w3.org/2000/svg" viewBox="0 0 {WIDTH} {HEIGHT}" width="{WIDTH}" height="{HEIGHT}"',
        ' font-family="sans-serif">',
        f"<!-- Generated by tools/year_chart.py from {CALENDAR}: do not edit. -->",
        f'<rect width="{WIDTH}" height="{HEIGHT}" fill="#ffffff"/>',
        words(LEFT, 26, "The depot's farthest toxic ring, day by day", "start", size=17, more=' font-weight="bold"'),
        words(LEFT, 46, "over each step the number of the card that has it", "start", STEP),
        *grid(top), line(x(day), y(miles, top), x(day), BOTTOM, MARK, ' stroke-dasharray="4 4"'), *steps(runs, top),
        *earliest(miles, day, top), "</svg>",
    ]
    return "\n".join(parts) + "\n"


def main(given):
    if given not in ([], ["--check"]):
        sys.exit(__doc__)
    made = chart(CALENDAR.read_text())
    if not given:
        CHART.write_text(made)
    elif not CHART.exists() or CHART.read_text() != made:
        sys.exit(f"{CHART} is not up to date")


if __name__ == "__main__":
    main(sys.argv[1:])
