#!/usr/bin/env python3
"""Takes an instance out of a collection of job shops, as it is found, and writes the numbers that `dtp jobshop` reads:

    examples/or_library.py jobshop1.txt ft06 > ft06.txt

It reads the OR-library's form (lines `instance NAME`, headings and lines of + above the numbers), Taillard's (a table
of times and one of machines, below the lines `Times` and `Machines`) and plain numbers. An instance without a name has
its number in the file, from 1. Where there is but one, it needn't be named, and where there are more, they are listed.
Machines that are counted from 1 are counted from 0 in what is written. On standard error it says what was read; a file
named - is standard input. Python 3.9 or later, its standard library alone.
"""
import re
import sys
from itertools import chain

MOST, LONGEST = 40, 1000000     # jobs or machines, and a duration, that dtp jobshop takes
NAMED = re.compile(r"\W*instance\s+(\S+)\s*", re.IGNORECASE)


class Wrong(Exception):
    """Why nothing is written."""


def require(condition, reason):
    if not condition:
        raise Wrong(reason)


def tables(text):
    """Rows of numbers that no other line divides, each time with the line above them and the name above that."""
    rows, heading, name = [], "", None
    for line in [*text.splitlines(), "end"]:
        words = line.split()
        if words and all(re.fullmatch("[0-9]+", word) for word in words):
            rows.append(list(map(int, words)))
        elif words:
            if rows:
                yield rows, heading, name
                rows, name = [], None
            named = NAMED.fullmatch(line)
            heading, name = line.strip(" \t:").lower(), named[1] if named else name


def from_numbers(rows):
    """The jobs, each a list of machines and durations, where these stand side by side behind the two counts."""
    numbers = list(chain.from_iterable(rows))
    count, machines = (numbers + [0, 0])[:2]
    is_whole = machines and len(numbers) == 2 + 2 * count * machines
    require(is_whole, f"{len(numbers)} numbers don't make {count} jobs on {machines} machines")
    pairs = list(zip(numbers[2::2], numbers[3::2]))
    return [pairs[first : first + machines] for first in range(0, len(pairs), machines)]


def from_tables(counts, times, machines):
    """The same, from a table of each."""
    count, most = counts
    for table in times, machines:
        require([len(row) for row in table] == [most] * count, f"a table isn't one of {count} jobs on {most} machines")
    return [list(zip(*rows)) for rows in zip(machines, times)]


def instances(text):
    """What makes the jobs of each instance, by its name."""
    found, counts, times = {}, (0, 0), []
    for rows, heading, name in tables(text):
        name = name or str(len(found) + 1)
        if re.match("(nb|number) of jobs", heading):
            counts = rows[0][:2]
        elif heading == "times":
            times = rows
        elif heading == "machines":
            found[name] = lambda parts=(counts, times, rows): from_tables(*parts)
        else:
            found[name] = lambda rows=rows: from_numbers(rows)
    return found


def from_zero(jobs):
    """The same jobs with machines from 0, and from where they were counted."""
    require(0 < len(jobs) <= MOST and 0 < len(jobs[0]) <= MOST, f"dtp jobshop takes 1 to {MOST} jobs and machines")
    first = min(machine for machine, _ in jobs[0])
    require(first in (0, 1), f"machines are counted from {first}")
    for j, job in enumerate(jobs):
        used = sorted(machine - first for machine, _ in job)
        require(used == list(range(len(job))), f"job {j} doesn't have each machine once")
        require(max(duration for _, duration in job) <= LONGEST, f"job {j} has a duration of more than {LONGEST}")
    return [[(machine - first, duration) for machine, duration in job] for job in jobs], first


def told(jobs, first):
    """What an instance is, in words."""
    durations = [duration for job in jobs for _, duration in job]
    counted = "from 0" if first == 0 else "from 1, and from 0 in what is written"
    size = f"{len(jobs)} jobs on {len(jobs[0])} machines"
    return f"{size}, durations from {min(durations)} to {max(durations)}, machines {counted}"


def main():
    words = sys.argv[1:]
    if len(words) not in (1, 2):
        sys.exit(__doc__)
    try:
        with sys.stdin if words[0] == "-" else open(words[0], encoding="utf-8", errors="replace") as file:
            found = instances(file.read())
    except OSError as reason:
        sys.exit(str(reason))
    name, *others = words[1:] or found or [""]
    if others or name not in found:
        sys.exit(f"name one of these: {' '.join(found)}" if found else "there is no instance in it")
    try:
        jobs, first = from_zero(found[name]())
    except Wrong as reason:
        sys.exit(f"instance {name}: {reason}")
    print(f"instance {name}: {told(jobs, first)}", file=sys.stderr)
    print(len(jobs), len(jobs[0]))
    for job in jobs:
        print(*chain.from_iterable(job))


if __name__ == "__main__":
    main()
