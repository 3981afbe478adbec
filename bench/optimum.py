#!/usr/bin/env python3
"""Times least values: job shops, open shops and random problems, beside z3's `minimize` and MiniZinc with Gecode.

    bench/optimum.py [PATH OF dtp] [--only WORD] [--workers N] [--limit SECONDS] [--counted PATH] [--jobshop]

The shops of examples/jobshop and bench/shops are known ones (Fisher and Thompson 1963: ft06, ft10; Lawrence 1984: la01 to la05,
la16; Adams, Balas and Zawack 1988: abz6), each as its numbers of jobs and machines and a line of machines and durations for each job;
their least makespans are those of the literature. The others are drawn from the seeds in this file. Of each it prints the processor
seconds of `solve` and `certify` by one worker, of `solve` by several (and the seconds by the clock), and those of the peers that are
there (`apt-get install z3 minizinc`); with a program that `bench/native/build.sh FOLDER dtp_main --counted` built, also the questions
below a bound that one worker asks, and its conflicts; and at the end the geometric mean of `solve` over the better peer where both
end. It fails where two answers differ, or one isn't the known value.

With --jobshop it prints, of the shops of examples/jobshop, the seconds by the clock from the file of numbers to the plan, and those of
processors: of `dtp jobshop` by one worker and by several, of z3's `minimize` on the script of `--emit script`, and of Gecode on a model
of ten lines. Each plan is tested by examples/gantt.py, and a makespan that isn't the known one is told.
"""

import math
import os
import random
import resource
import shutil
import signal
import subprocess
import sys
import tempfile
import time

TOP = os.path.dirname(os.path.dirname(os.path.abspath(__file__)))
BUILT = os.path.join(TOP, "crates", "dtp_main", "out", "dtp_main")
sys.dont_write_bytecode = True
sys.path.insert(0, os.path.join(TOP, "examples"))
from gantt import Wrong, bars_of, contents, faults, read_plan, read_shop  # noqa: E402

KNOWN = {"ft06": 55, "ft10": 930, "la01": 666, "la02": 655, "la03": 597, "la04": 590, "la05": 593, "la16": 945, "abz6": 943}


class Problem:
    """Points 0 to count - 1, of which 0 is zero, clauses of bounds (x, y, c), x - y <= c, and an objective x - y."""

    def __init__(self, count, clauses, x, y, known=None, model=None):
        self.count, self.clauses, self.x, self.y, self.known, self.model = count, clauses, x, y, known, model

    def script(self, ending):
        number = lambda n: str(n) if n >= 0 else f"(- {-n})"
        point = lambda p: f"x{p}" if p else "0"
        bound = lambda b: f"(<= (- {point(b[0])} {point(b[1])}) {number(b[2])})"
        lines = [f"(declare-const x{p} Int)" for p in range(1, self.count)]
        for clause in self.clauses:
            body = bound(clause[0]) if len(clause) == 1 else "(or " + " ".join(map(bound, clause)) + ")"
            lines.append(f"(assert {body})")
        lines.append(f"(minimize (- {point(self.x)} {point(self.y)}))")
        return "\n".join(lines + ending) + "\n"


def shop(jobs, is_open=False, known=None):
    """Point 1 is the makespan, then the starts, job by job."""
    start, clauses, count = {}, [], 2
    for j, job in enumerate(jobs):
        for k in range(len(job)):
            start[j, k] = count
            count += 1
    machines = {}
    for j, job in enumerate(jobs):
        for k, (machine, duration) in enumerate(job):
            machines.setdefault(machine, []).append((start[j, k], duration))
            clauses.append([(0, start[j, k], 0)])
            clauses.append([(start[j, k], 1, -duration)])
            for before in range(k):
                earlier = (start[j, before], start[j, k], -job[before][1])
                if is_open:
                    clauses.append([(start[j, k], start[j, before], -duration), earlier])
                elif before == k - 1:
                    clauses.append([earlier])
    for operations in machines.values():
        for a in range(len(operations)):
            for b in range(a):
                (s, d), (t, e) = operations[a], operations[b]
                clauses.append([(s, t, -d), (t, s, -e)])
    return Problem(count, clauses, 1, 0, known, model_of(jobs, start, machines, is_open))


def model_of(jobs, start, machines, is_open):
    """The same for MiniZinc, by `disjunctive`."""
    latest = sum(duration for job in jobs for _, duration in job)
    lines = ['include "disjunctive.mzn";', f"var 0..{latest}: x1;"]
    lines += [f"var 0..{latest}: x{point};" for point in start.values()]
    groups = list(machines.values())
    for j, job in enumerate(jobs):
        own = [(start[j, k], duration) for k, (_, duration) in enumerate(job)]
        if is_open:
            groups.append(own)
        else:
            lines += [f"constraint x{a} + {d} <= x{b};" for (a, d), (b, _) in zip(own, own[1:])]
        lines += [f"constraint x{a} + {d} <= x1;" for a, d in own]
    for group in groups:
        starts, durations = ",".join(f"x{a}" for a, _ in group), ",".join(str(d) for _, d in group)
        lines.append(f"constraint disjunctive([{starts}],[{durations}]);")
    names = ",".join(["x1"] + [f"x{point}" for point in start.values()])
    lines.append(f'solve :: int_search([{names}], smallest, indomain_min) minimize x1; output ["minimum ", show(x1), "\\n"];')
    return "\n".join(lines) + "\n"


def path_of(name):
    """Where the numbers of a known shop are."""
    shown = os.path.join(TOP, "examples", "jobshop", name + ".txt")
    return shown if os.path.exists(shown) else os.path.join(TOP, "bench", "shops", name + ".txt")


def known_shop(name):
    return shop(read_shop(contents(path_of(name))), known=KNOWN[name])


def random_jobs(jobs, machines, seed):
    draw = random.Random(seed)
    drawn = []
    for _ in range(jobs):
        order = list(range(machines))
        draw.shuffle(order)
        drawn.append([(machine, draw.randint(1, 99)) for machine in order])
    return drawn


def random_problem(points, count, seed, latest):
    """Points from 0 to 1,000, clauses of two bounds; the objective is a difference of two points, or that of a last one behind all."""
    draw = random.Random(seed)
    clauses = []
    for point in range(1, points):
        clauses += [[(0, point, 0)], [(point, 0, 1000)]]
    for _ in range(count):
        clause = []
        for _ in range(2):
            x, y = draw.sample(range(1, points), 2)
            clause.append((x, y, draw.randint(-100, 100)))
        clauses.append(clause)
    if not latest:
        return Problem(points, clauses, 1, 2)
    clauses += [[(point, points, 0)] for point in range(1, points)]
    return Problem(points + 1, clauses, points, 0)


def problems():
    for name in KNOWN:
        yield name, known_shop(name)
    for jobs, machines, seed in [(8, 8, 1), (8, 8, 2), (10, 10, 1), (15, 15, 1)]:
        yield f"shop-{jobs}x{machines}-{seed}", shop(random_jobs(jobs, machines, seed))
    for jobs, machines, seed in [(4, 4, 1), (5, 5, 1), (6, 6, 1), (7, 7, 1)]:
        yield f"open-{jobs}x{machines}-{seed}", shop(random_jobs(jobs, machines, seed), is_open=True)
    for points, count, seed in [(20, 100, 1), (25, 130, 2), (30, 160, 3), (30, 180, 4), (40, 200, 5)]:
        yield f"random-{points}-{count}", random_problem(points, count, seed, False)
        yield f"latest-{points}-{count}", random_problem(points, count, seed, True)


def run(words, text, limit):
    """What it prints, its processor seconds and those by the clock, and what it prints as errors; None where it is stopped."""
    before, begun = resource.getrusage(resource.RUSAGE_CHILDREN), time.time()
    with tempfile.TemporaryFile("w+") as source:
        source.write(text)
        source.seek(0)
        # in a session of its own, so that what it starts ends with it
        child = subprocess.Popen(words, stdin=source, stdout=subprocess.PIPE, stderr=subprocess.PIPE, text=True, start_new_session=True)
        try:
            printed, beside = child.communicate(timeout=limit)
        except subprocess.TimeoutExpired:
            os.killpg(child.pid, signal.SIGKILL)
            child.communicate()
            return None
    after = resource.getrusage(resource.RUSAGE_CHILDREN)
    used = after.ru_utime + after.ru_stime - before.ru_utime - before.ru_stime
    return printed, used, time.time() - begun, beside


def value_of(text):
    """`unsat`, `unbounded` or the number, from dtp's, z3's or MiniZinc's output."""
    flat = text.replace("(- ", "-").replace("(", " ").replace(")", " ").split()
    if "unsat" in flat or "=====UNSATISFIABLE=====" in flat:
        return "unsat"
    numbers = [word for word in flat if word.lstrip("-").isdigit()]
    return int(numbers[-1]) if numbers else (flat[0] if flat else None)


def peer(name, problem, limit):
    if name == "z3":
        text = problem.script(["(check-sat)", "(get-objectives)"])
        return run(["z3", "-in"], text, limit)
    return gecode(problem.model, limit) if problem.model else None


def gecode(model, limit):
    """What MiniZinc prints of the model by Gecode, and its times; None where it wasn't done."""
    with tempfile.NamedTemporaryFile("w", suffix=".mzn") as file:
        file.write(model)
        file.flush()
        # its solver stands in a group of its own, and outlives it where it is killed: it is told the limit itself
        stop = ["--time-limit", str(int(limit * 1000))]
        done = run(["minizinc", "--solver", "gecode", *stop, file.name], "", limit + 10)
    return done if done and "==========" in done[0] else None


# a job shop for MiniZinc, whatever its numbers
MODEL = """include "disjunctive.mzn";
int: J; int: M; array[1..J, 1..M] of int: machine; array[1..J, 1..M] of int: duration;
int: latest = sum(duration); var 0..latest: makespan; array[1..J, 1..M] of var 0..latest: start;
constraint forall(j in 1..J, k in 1..M - 1)(start[j, k] + duration[j, k] <= start[j, k + 1]);
constraint forall(j in 1..J)(start[j, M] + duration[j, M] <= makespan);
constraint forall(i in 0..M - 1)(disjunctive(
    [start[j, k] | j in 1..J, k in 1..M where machine[j, k] = i],
    [duration[j, k] | j in 1..J, k in 1..M where machine[j, k] = i]));
solve :: int_search([makespan] ++ array1d(start), smallest, indomain_min) minimize makespan;
output ["makespan \\(makespan)\\n"] ++ ["job \\(j - 1):" ++ join("", [" \\(start[j, k])" | k in 1..M]) ++ "\\n" | j in 1..J];
"""


def model_with(jobs):
    """The same with the numbers of these jobs."""
    table = lambda part: f"array2d(1..J, 1..M, {[pair[part] for job in jobs for pair in job]})"
    return f"{MODEL}J = {len(jobs)}; M = {len(jobs[0])}; machine = {table(0)}; duration = {table(1)};\n"


def fault_of(text, jobs, known):
    """What is wrong with a plan, the first thing; None where nothing is, and its makespan is the known one."""
    try:
        makespan, starts = read_plan(text, jobs)
        other = None if makespan == known else f"a makespan of {makespan}"
        return next(faults(bars_of(jobs, starts), makespan), other)
    except Wrong as reason:
        return str(reason)


def peer_of_jobshop(name, program, numbers, known, limit):
    """The seconds by the clock, those of processors, and what is wrong; None where it is stopped."""
    jobs = read_shop(numbers)
    if name == "minizinc":
        done = gecode(model_with(jobs), limit)
        return done and (done[2], done[1], fault_of(done[0].split("----------\n")[-2], jobs, known))
    made = run([program, "jobshop", "--emit", "script"], numbers, limit)
    done = made and run(["z3", "-in"], made[0].replace("(exit)", "(check-sat)\n(get-objectives)\n(get-model)"), limit)
    if not done:
        return None
    value = value_of(done[0].split("(objectives")[-1].split("\n(\n")[0])
    return made[2] + done[2], made[1] + done[1], None if value == known else f"a makespan of {value}"


def jobshops(program, workers, limit, only, peers):
    """A line for each shop of examples/jobshop, with the seconds by the clock, and those of processors behind them. It gives the status."""
    print("\t".join(["shop", "makespan", "1 worker", f"{workers} workers", *peers]))
    status = 0
    for name in [name for name in KNOWN if only in name and "examples" in path_of(name)]:
        numbers, known, found = contents(path_of(name)), KNOWN[name], []
        for count in ("1", workers):
            done = run([program, "jobshop", "--workers", count], numbers, limit)
            found.append(done and (done[2], done[1], fault_of(done[0], read_shop(numbers), known)))
        found += [peer_of_jobshop(other, program, numbers, known, limit) for other in peers]
        faulty = sorted({entry[2] for entry in found if entry and entry[2]})
        status = 1 if faulty else status
        print("\t".join([name, str(known), *(f"{entry[0]:.2f} ({entry[1]:.2f})" if entry else "-" for entry in found)]), *faulty, flush=True)
    return status


def main():
    words = [word for word in sys.argv[1:] if word != "--jobshop"]
    option = lambda name, default: words[words.index(name) + 1] if name in words else default
    plain = [w for i, w in enumerate(words) if not w.startswith("--") and (i == 0 or not words[i - 1].startswith("--"))]
    program = plain[0] if plain else BUILT
    limit, workers, only = float(option("--limit", "120")), option("--workers", "4"), option("--only", "")
    counted = option("--counted", "")
    counts = ["questions", "conflicts"] if counted else []
    peers = [name for name in ("z3", "minizinc") if shutil.which(name)]
    if "--jobshop" in sys.argv:
        return jobshops(program, workers, limit, only, peers)
    print("\t".join(["problem", "value", "solve", "certify", f"{workers} workers", "by the clock", *counts, *peers]))
    ratios, wrong = [], False
    for name, problem in problems():
        if only not in name:
            continue
        script = problem.script(["(exit)"])
        one = run([program, "solve", "--workers", "1"], script, limit)
        written = run([program, "certify", "--workers", "1"], script, limit)
        several = run([program, "solve", "--workers", workers], script, limit)
        told = run([counted, "solve", "--workers", "1"], script, limit) if counted else None
        asked = (told[3].split()[1::2] if told else ["-", "-"]) if counted else []
        others = [peer(other, problem, limit) for other in peers]
        value = value_of(one[0]) if one else None
        answers = {value_of(done[0]) for done in [one, several, *others] if done}
        if problem.known is not None:
            answers.add(problem.known)
        if len(answers) > 1:
            wrong = True
            print(f"{name}: different answers {answers}")
        show = lambda done, at=1: f"{done[at]:.2f}" if done else "-"
        print("\t".join([name, str(value), show(one), show(written), show(several), show(several, 2), *asked, *map(show, others)]), flush=True)
        ended = [done[1] for done in others if done]
        if one and ended:
            ratios.append(max(one[1], 0.001) / max(min(ended), 0.001))
    if ratios:
        print(f"geometric mean over the better peer: {math.exp(sum(map(math.log, ratios)) / len(ratios)):.2f} of {len(ratios)}")
    return 1 if wrong else 0


if __name__ == "__main__":
    sys.exit(main())
