#!/usr/bin/env python3
"""Draws the plan of a job shop as a Gantt chart, an SVG picture with a row for each machine and a colour for each job:

    dtp jobshop < examples/jobshop/ft06.txt > ft06.plan
    examples/gantt.py examples/jobshop/ft06.txt ft06.plan > ft06.svg

With --text it draws by characters, for a terminal, and with --csv it writes a table. A file named - is standard input.

It tests the plan first: no operation begins below 0, or before the one ahead of it in its job has ended; a machine has
one at a time; the makespan is the latest end. A plan that isn't so is refused with status 1, and each fault is told in
a line. Python 3.9 or later, its standard library alone.
"""
# It reads a plan, and doesn't ask dtp.py for one, so that it is a test of what dtp printed; bakes.py draws a plan that
# was made by dtp.py.
import argparse
import colorsys
import csv
import html
import re
import string
import sys
from collections import namedtuple
from itertools import count

# an operation in a plan, all of it numbers from 0
Bar = namedtuple("Bar", "job operation machine start end")
MARKS = string.digits + string.ascii_letters
WIDTH, ROW, LEFT, TOP = 960, 28, 100, 34    # of the picture: of its time, of a machine, before the time, above it
LEGEND = 12     # how many jobs stand in a line of the legend


class Wrong(ValueError):
    """Why a text is no instance, or no plan of it."""


def require(condition, reason):
    if not condition:
        raise Wrong(reason)


def read_shop(text):
    """The jobs of an instance, each a list of machines and durations."""
    words = text.split()
    for place, word in enumerate(words, 1):
        require(re.fullmatch("[0-9]+", word), f"word {place} of the instance isn't a number: {word}")
    numbers = list(map(int, words))
    many, machines = (numbers + [0, 0])[:2]
    is_whole = many and machines and len(words) == 2 + 2 * many * machines
    require(is_whole, f"the instance has too many numbers, or too few: {len(words)}")
    pairs = list(zip(numbers[2::2], numbers[3::2]))
    jobs = [pairs[first : first + machines] for first in range(0, len(pairs), machines)]
    for j, job in enumerate(jobs):
        used = sorted(machine for machine, _ in job)
        require(used == list(range(machines)), f"job {j} doesn't have each machine once")
    return jobs


def read_plan(text, jobs):
    """The makespan, and the starts of each job."""
    lines = text.splitlines()
    shapes = ["makespan( [0-9]+)"]
    shapes += [f"job {j}:((?: -?[0-9]+){{{len(job)}}})" for j, job in enumerate(jobs)]
    found = [re.fullmatch(shape, line) for shape, line in zip(shapes, lines)]
    for place, match in enumerate(found):
        require(match, f"line {place + 1} isn't that of a plan for this instance: {lines[place]}")
    require(len(lines) == len(shapes), f"a plan for this instance has {len(shapes)} lines, and not {len(lines)}")
    (makespan,), *starts = (list(map(int, match[1].split())) for match in found)
    return makespan, starts


def bars_of(jobs, starts):
    """The bars of a plan, job by job."""
    return [
        Bar(j, k, machine, start, start + duration)
        for j, (job, own) in enumerate(zip(jobs, starts))
        for k, ((machine, duration), start) in enumerate(zip(job, own))
    ]


def faults(bars, makespan):
    """What is wrong with a plan, a line each."""
    tell = lambda bar: f"operation {bar.operation} of job {bar.job} ({bar.start} to {bar.end})"
    for bar in bars:
        if bar.start < 0:
            yield f"{tell(bar)} begins below 0"
    for before, bar in zip(bars, bars[1:]):
        if before.job == bar.job and bar.start < before.end:
            yield f"{tell(bar)} begins before {tell(before)} has ended"
    in_turn = sorted(bars, key=lambda bar: (bar.machine, bar.start, bar.end))
    for before, bar in zip(in_turn, in_turn[1:]):
        if before.machine == bar.machine and bar.start < before.end:
            yield f"machine {bar.machine} has {tell(before)} and {tell(bar)} at once"
    latest = max(bar.end for bar in bars)
    if latest != makespan:
        yield f"the latest end is {latest}, and the makespan is said to be {makespan}"


def text(bars, makespan, machines, marks=MARKS):
    """The chart in characters, below the names of the machines; each job has its mark."""
    unit = max(1, -(-makespan // 100))
    columns, left, step = -(-makespan // unit), max(map(len, machines)) + 1, max(10, len(str(makespan)) + 2)
    ruler = "".join(f"{column * unit:<{step}}" for column in range(0, columns + 1, step))
    rows = [["."] * columns for _ in machines]
    for bar in bars:
        for column in range(bar.start // unit, -(-bar.end // unit)):
            rows[bar.machine][column] = marks[bar.job % len(marks)]
    lines = [f"{name:{left}}{''.join(row)}" for name, row in zip(machines, rows)]
    ending = f"makespan {makespan}" + (f", {unit} to a character" if unit > 1 else "")
    return "\n".join([" " * left + ruler.rstrip(), *lines, ending])


def svg(bars, makespan, machines, jobs):
    """The chart as a picture, with the names of the machines and of the jobs; a bar's title tells its times."""
    at = lambda time: round(LEFT + time * WIDTH / max(makespan, 1), 2)
    shades = [colorsys.hls_to_rgb(j / len(jobs), 0.72, 0.6) for j in range(len(jobs))]
    colours = ["#" + "".join(f"{round(255 * part):02x}" for part in shade) for shade in shades]
    foot = TOP + ROW * len(machines)
    height = foot + 50 + 20 * -(-len(jobs) // LEGEND)
    size = f'width="{LEFT + WIDTH + 60}" height="{height}"'
    lines = [
        f'<svg xmlns="http://www.w3.org/2000/svg" {size} font-family="sans-serif" font-size="12">',
        '<rect width="100%" height="100%" fill="white"/>',
    ]
    write = lambda x, y, words, more="": lines.append(f'<text x="{x}" y="{y}"{more}>{html.escape(words)}</text>')
    middle = ' text-anchor="middle"'
    step = next(n * 10**power for power in count() for n in (1, 2, 5) if makespan <= 12 * n * 10**power)
    for time in range(0, makespan + 1, step):
        lines.append(f'<path d="M{at(time)} {TOP}V{foot}" stroke="#ccc"/>')
        write(at(time), foot + 16, str(time), middle)
    for machine, name in enumerate(machines):
        write(8, TOP + ROW * machine + 18, name)
    for bar in bars:
        x, y, width = at(bar.start), TOP + ROW * bar.machine, round(at(bar.end) - at(bar.start), 2)
        title = f"{html.escape(jobs[bar.job])}, operation {bar.operation}: {bar.start} to {bar.end}"
        box = f'x="{x}" y="{y + 3}" width="{width}" height="{ROW - 6}" fill="{colours[bar.job]}" stroke="#444"'
        lines.append(f"<rect {box}><title>{title}</title></rect>")
        if width > 16:
            write(round(x + width / 2, 2), y + 18, str(bar.job), middle + ' pointer-events="none"')
    lines.append(f'<path d="M{at(makespan)} {TOP - 8}V{foot + 4}" stroke="#c00" stroke-width="2"/>')
    write(at(makespan), TOP - 14, f"makespan {makespan}", ' text-anchor="end" fill="#c00"')
    for j, name in enumerate(jobs):
        x, y = LEFT + j % LEGEND * WIDTH // LEGEND, foot + 32 + j // LEGEND * 20
        lines.append(f'<rect x="{x}" y="{y}" width="12" height="12" fill="{colours[j]}" stroke="#444"/>')
        write(x + 18, y + 11, name)
    return "\n".join([*lines, "</svg>"])


def contents(path):
    """What is in the file."""
    if path == "-":
        return sys.stdin.read()
    with open(path, encoding="utf-8", errors="replace") as file:
        return file.read()


def main():
    parser = argparse.ArgumentParser(description="Tests the plan of a job shop, and draws it as an SVG picture.")
    parser.add_argument("instance", help="the file of numbers that dtp jobshop read")
    parser.add_argument("plan", help="what it printed")
    way = parser.add_mutually_exclusive_group()
    way.add_argument("--text", action="store_true", help="draw it by characters, a mark for each job")
    way.add_argument("--csv", action="store_true", help="write a table: job, operation, machine, start, end")
    words = parser.parse_args()
    try:
        jobs = read_shop(contents(words.instance))
        makespan, starts = read_plan(contents(words.plan), jobs)
        bars = bars_of(jobs, starts)
        found = list(faults(bars, makespan))
        require(not found, "\n".join(found))
    except (OSError, ValueError) as reason:
        sys.exit(str(reason))
    machines = [f"machine {machine}" for machine in range(len(jobs[0]))]
    if words.csv:
        table = csv.writer(sys.stdout, lineterminator="\n")
        table.writerows([Bar._fields, *bars])
    else:
        names = [f"job {j}" for j in range(len(jobs))]
        print(text(bars, makespan, machines) if words.text else svg(bars, makespan, machines, names))


if __name__ == "__main__":
    main()
