#!/usr/bin/env python3
"""Plans tea with `dtp`, by dtp.py beside it: examples/schedule.py [PATH OF dtp]. It prints when each step begins, in minutes."""
import sys

from dtp import Plan

plan = Plan(*sys.argv[1:2])
on, boils, ready = steps = [plan.event(name) for name in ("kettle on", "water boils", "tea is ready")]
plan.require(plan.exactly(on, 0), plan.at_least(boils, 4, on))
plan.require(plan.either(plan.at_least(ready, 3, boils), plan.at_least(ready, 5, boils)))
plan.require(plan.at_most(ready, 15))
schedule = plan.solve()
print("unsat" if schedule is None else "sat")
if schedule is not None:
    print(*(f"{step}: {schedule[step]}" for step in steps), sep="\n")
