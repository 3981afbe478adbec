#!/usr/bin/env python3
"""Plans three bakes on shared machines by dtp.py, and draws the shortest plan by gantt.py: examples/bakes.py [DTP].
A machine is one line, a minute one letter, that of the bake. By hand: the oven is wanted for 5 + 4 + 3 minutes, and
nothing gets there before 2, so no plan ends before 14. DTP is the path of the program."""
import sys
from itertools import combinations

from dtp import Plan
from gantt import Bar, faults, text

MACHINES = ["mixer", "oven", "table"]
# each bake's machines in order, with the minutes that it needs them
BAKES = {
    "bread": [("mixer", 3), ("oven", 5), ("table", 1)],
    "cake": [("mixer", 2), ("oven", 4), ("table", 3)],
    "pie": [("table", 2), ("mixer", 2), ("oven", 3)],
}


def add_bake(plan, bake, ready):
    """Its steps in order, the first at zero or later, each with the event at which it begins."""
    steps, earliest = [], {"time": 0}
    for machine, minutes in BAKES[bake]:
        begin = plan.event(f"{bake}: {machine}")
        plan.require(plan.at_least(begin, **earliest))
        steps.append((machine, begin, minutes))
        earliest = {"time": minutes, "after": begin}
    plan.require(plan.at_least(ready, **earliest))
    return steps


def keep_apart(plan, steps):
    """One machine has one step at a time: of each two, one begins when the other is done, or later."""
    for (machine, one, its_minutes), (another, other, other_minutes) in combinations(steps, 2):
        if machine == another:
            plan.require(plan.either(plan.at_least(other, its_minutes, one), plan.at_least(one, other_minutes, other)))


plan = Plan(*sys.argv[1:2])
ready = plan.event("all is ready")
bakes = [add_bake(plan, bake, ready) for bake in BAKES]
keep_apart(plan, [step for steps in bakes for step in steps])
schedule = plan.shortest(ready)
bars = [
    Bar(bake, place, MACHINES.index(machine), schedule[begin], schedule[begin] + minutes)
    for bake, steps in enumerate(bakes)
    for place, (machine, begin, minutes) in enumerate(steps)
]
marks = [bake[0] for bake in BAKES]
print(*faults(bars, schedule[ready]), text(bars, schedule[ready], MACHINES, marks), sep="\n")
if plan.check(plan.certificate(ready), ready):
    print("no plan is shorter: dtp check accepts the proof")
