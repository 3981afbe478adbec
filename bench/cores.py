#!/usr/bin/env python3
"""Unsatisfiable cores: their sizes and times, beside z3's and cvc5's, each put back alone.

    bench/cores.py [PATH OF dtp] [--only WORD] [--limit SECONDS]

The scripts have 20 to 500 named assertions and no solution: random problems with clauses of two and three bounds, job shops with a deadline for
each job, and plans with windows and alternatives, all drawn from the seeds in this file. Of each it prints the number of assertions, the
processor seconds of `dtp solve` for the check-sat alone and with the core, the core's size, and size and seconds of the peers that are there
(`apt-get install z3 cvc5`), whose cores are asked for as they come by default. At the end stand the mean sizes relative to the number of assertions, over the scripts that all of
them ended, and the geometric mean of dtp's time with the core over that without. It fails where a core, asserted alone, isn't unsatisfiable by `dtp`.
"""
import math
import random
import resource
import os
import shutil
import subprocess
import sys

TOP = os.path.dirname(os.path.dirname(os.path.abspath(__file__)))
BUILT = os.path.join(TOP, "crates", "dtp_main", "out", "dtp_main")


def number(n):
    return str(n) if n >= 0 else f"(- {-n})"


def bound(x, y, c):
    return f"(<= (- {x} {y}) {number(c)})"


def either(literals):
    return literals[0] if len(literals) == 1 else "(or " + " ".join(literals) + ")"


def random_problem(points, clauses, width, seed):
    draw = random.Random(seed)
    names = [f"x{i}" for i in range(points)]
    terms = []
    for _ in range(clauses):
        terms.append(either([bound(*draw.sample(names, 2), draw.randint(-60, 30)) for _ in range(width)]))
    return names, terms


def job_shop(jobs, machines, seed, slack):
    """An assertion for each job's chain, one for each machine, and a deadline for each job."""
    draw = random.Random(seed)
    names, chains, deadlines, users = [], [], [], {}
    for job in range(jobs):
        order = list(range(machines))
        draw.shuffle(order)
        durations = [draw.randint(1, 20) for _ in order]
        own = [f"j{job}o{k}" for k in range(machines)]
        names += own
        parts = [f"(>= {own[0]} 0)"] + [f"(>= (- {b} {a}) {d})" for a, b, d in zip(own, own[1:], durations)]
        chains.append("(and " + " ".join(parts) + ")")
        deadlines.append(f"(<= {own[-1]} {int(sum(durations) * slack)})")
        for k, machine in enumerate(order):
            users.setdefault(machine, []).append((own[k], durations[k]))
    apart = []
    for operations in users.values():
        for i, (a, d) in enumerate(operations):
            for b, e in operations[:i]:
                apart.append(either([bound(a, b, -d), bound(b, a, -e)]))
    return names, chains + apart + deadlines


def plan(events, requirements, seed):
    """Windows on pairs of events, some with an alternative, and a horizon."""
    draw = random.Random(seed)
    names = [f"event {i}" for i in range(events)]
    quoted = [f"|{name}|" for name in names]
    terms = []
    for _ in range(requirements):
        a, b = draw.sample(quoted, 2)
        low = draw.randint(-20, 40)
        window = f"(<= {number(low)} (- {a} {b}) {number(low + draw.randint(0, 30))})"
        if draw.random() < 0.4:
            c, d = draw.sample(quoted, 2)
            window = f"(or {window} (>= (- {c} {d}) {draw.randint(5, 50)}))"
        terms.append(window)
    return quoted, terms


def scripts():
    for points, clauses, width, seed in [(8, 40, 2, 1), (10, 60, 2, 2), (15, 90, 2, 3), (20, 130, 2, 4), (25, 200, 2, 5), (30, 300, 2, 6), (12, 160, 3, 7), (15, 210, 3, 8), (20, 240, 3, 9), (40, 500, 2, 10)]:
        yield f"random-{points}-{clauses}-{width}", *random_problem(points, clauses, width, seed)
    for jobs, machines, seed, slack in [(4, 3, 1, 1.0), (5, 4, 2, 1.1), (6, 5, 3, 1.1), (8, 5, 4, 1.2), (10, 5, 5, 1.2), (10, 8, 6, 1.15), (12, 8, 7, 1.1)]:
        yield f"shop-{jobs}-{machines}", *job_shop(jobs, machines, seed, slack)
    for events, requirements, seed in [(8, 20, 1), (10, 30, 2), (15, 50, 3), (20, 80, 4), (30, 120, 5), (40, 200, 6), (60, 350, 7), (80, 500, 8)]:
        yield f"plan-{events}-{requirements}", *plan(events, requirements, seed)


def script_of(names, terms, chosen, ending):
    lines = ["(set-option :produce-unsat-cores true)", "(set-logic QF_IDL)"] + [f"(declare-const {name} Int)" for name in names]
    lines += [f"(assert (! {terms[i]} :named n{i}))" for i in chosen]
    return "\n".join(lines + ending) + "\n"


def run(words, text, limit):
    before = resource.getrusage(resource.RUSAGE_CHILDREN)
    try:
        printed = subprocess.run(words, input=text, capture_output=True, text=True, timeout=limit).stdout
    except subprocess.TimeoutExpired:
        return None
    after = resource.getrusage(resource.RUSAGE_CHILDREN)
    return printed, after.ru_utime + after.ru_stime - before.ru_utime - before.ru_stime


def core_of(done):
    """The numbers of the assertions behind `unsat`."""
    verdict, rest = done[0].split("\n", 1)
    assert verdict == "unsat", done[0][:80]
    return sorted(int(word[1:]) for word in rest.replace("(", " ").replace(")", " ").split())


def main():
    words = sys.argv[1:]
    option = lambda name, default: words[words.index(name) + 1] if name in words else default
    plain = [w for i, w in enumerate(words) if not w.startswith("--") and (i == 0 or not words[i - 1].startswith("--"))]
    program = plain[0] if plain else BUILT
    limit, only = float(option("--limit", "60")), option("--only", "")
    commands = {"z3": ["z3", "-in"], "cvc5": ["cvc5", "--lang", "smt2", "-"]}
    peers = [name for name in commands if shutil.which(name)]
    print("\t".join(["script", "assertions", "check-sat", "and core", "size"] + [f"{name} {what}" for name in peers for what in ("size", "and core")]))
    shares, times, wrong = [], [], False
    for name, names, terms in scripts():
        if only not in name:
            continue
        everything = range(len(terms))
        asking = ["(check-sat)", "(get-unsat-core)"]
        alone = run([program, "solve"], script_of(names, terms, everything, asking[:1]), limit)
        if alone is None or alone[0] != "unsat\n":
            print(f"{name}: {alone and alone[0].strip()}")
            continue
        done = run([program, "solve"], script_of(names, terms, everything, asking), limit)
        core = core_of(done)
        back = run([program, "solve"], script_of(names, terms, core, asking[:1]), limit)
        if back is None or back[0] != "unsat\n":
            wrong = True
            print(f"{name}: the core alone isn't unsatisfiable: {core}")
        others = [run(commands[peer], script_of(names, terms, everything, asking), limit) for peer in peers]
        sizes = [len(core_of(other)) if other else None for other in others]
        shown = [text for size, other in zip(sizes, others) for text in ([str(size), f"{other[1]:.3f}"] if other else ["-", "-"])]
        print("\t".join([name, str(len(terms)), f"{alone[1]:.3f}", f"{done[1]:.3f}", str(len(core)), *shown]), flush=True)
        times.append(max(done[1], 0.001) / max(alone[1], 0.001))
        if all(size is not None for size in sizes):
            shares.append([size / len(terms) for size in [len(core), *sizes]])
    if shares:
        means = [sum(column) / len(shares) for column in zip(*shares)]
        print("mean share of the assertions:", ", ".join(f"{who} {mean:.3f}" for who, mean in zip(["dtp", *peers], means)), f"over {len(shares)} scripts")
        print(f"time with the core over time without: {math.exp(sum(map(math.log, times)) / len(times)):.2f} (geometric mean of {len(times)})")
    return 1 if wrong else 0


if __name__ == "__main__":
    sys.exit(main())
