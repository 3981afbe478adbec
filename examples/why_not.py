#!/usr/bin/env python3
"""Says why a plan can't work, by dtp.py beside it: examples/why_not.py [PATH OF dtp]. Of eight requirements it prints the few that clash,
and which of them, given up alone, makes a plan possible. Times are minutes from two o'clock."""
import sys

from dtp import Plan

plan = Plan(*sys.argv[1:2])
mixing, cake_in, cake_out, guests, tea = map(plan.event, ("mixing", "cake in", "cake out", "guests", "tea"))
begin, end = plan.event("sandwiches begin"), plan.event("sandwiches end")
plan.require(plan.at_least(mixing, 0), plan.at_least(begin, 0), name="nobody begins before two")
plan.require(plan.at_least(cake_in, 15, mixing), name="mixing takes fifteen")
plan.require(plan.at_least(cake_out, 40, cake_in), name="the cake bakes for forty")
plan.require(plan.at_least(guests, 10, cake_out), name="the cake cools for ten")
plan.require(plan.at_least(end, 50, begin), plan.at_least(guests, 0, end), name="sandwiches take fifty")
plan.require(plan.either(plan.at_least(begin, 0, cake_in), plan.at_least(mixing, 0, end)), name="one pair of hands")
plan.require(plan.at_least(guests, 0, tea), plan.at_most(guests, 5, tea), name="the tea is fresh")
in_order = [plan.at_least(cake_in, 0, mixing), plan.at_least(cake_out, 0, cake_in), plan.at_least(guests, 0, cake_out)]
plan.require(*in_order, plan.at_most(guests, 60), name="guests come at three")
clash = plan.why_not()
print("These can't all be met:", *clash, sep="\n  ")
# only one of them can make the difference
print("It can be done without:", *plan.possible_without(*clash), sep="\n  ")
