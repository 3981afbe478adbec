#!/usr/bin/env python3
"""Scripts of many related questions: their times beside z3's (in three configurations) and cvc5's, verdict by verdict.

    bench/incremental.py [PATH OF dtp] [--only WORD] [--limit SECONDS] [--certify]

Each script asks some hundred check-sats, of which each differs from the one before by a few bounds: what-if questions of a network of bounds and of
a problem with alternatives, a job shop whose deadline goes down, levels that are pushed one by one and popped again, a plan whose deadline
shrinks by one until it fails, a network of which one constraint is replaced each time, and a job shop whose least makespan is asked again and again,
without the peers, whose answers to that have another form; all drawn from the seeds in this file. Of each
it prints the number of check-sats, the processor seconds of `dtp solve` with one worker and of the peers that are there (`apt-get install z3
cvc5`), `-` where the limit came first, and dtp's time over the best peer's; at the end the geometric mean of these for each family. With
`--certify` also the seconds and bytes of `dtp certify` in both versions and the seconds of `dtp check`. It fails where two differ in a verdict.
"""
import math
import os
import random
import resource
import shutil
import subprocess
import sys

TOP = os.path.dirname(os.path.dirname(os.path.abspath(__file__)))
BUILT = os.path.join(TOP, "crates", "dtp_main", "out", "dtp_main")
Z3 = ["z3", "tactic.default_tactic=smt", "smt.auto_config=false"]
PEERS = {
    "z3": ["z3", "-in"],
    "z3 graph": Z3 + ["smt.arith.solver=1", "smt.relevancy=0", "smt.phase_selection=4", "smt.restart_strategy=2", "-in"],
    "z3 old": Z3 + ["smt.arith.solver=2", "-in"],
    "cvc5": ["cvc5", "--incremental", "--lang", "smt2", "-"],
}


def number(n):
    return str(n) if n >= 0 else f"(- {-n})"


def bound(x, y, c):
    return f"(<= (- {x} {y}) {number(c)})"


def asserted(*terms):
    return [f"(assert {term})" for term in terms]


def what_if(terms):
    return ["(push 1)", *asserted(*terms), "(check-sat)", "(pop 1)"]


def declared(count):
    return [f"(declare-const x{i} Int)" for i in range(count)]


def network(points, constraints, questions, seed):
    """A network of bounds that has a solution, and what-if bounds."""
    draw = random.Random(seed)
    hidden = [draw.randrange(100_000) for _ in range(points)]
    pairs = [(i, draw.randrange(i)) for i in range(1, points)]
    pairs += [draw.sample(range(points), 2) for _ in range(constraints - len(pairs))]
    lines = declared(points)
    lines += asserted(*(bound(f"x{x}", f"x{y}", hidden[x] - hidden[y] + draw.randrange(500)) for x, y in pairs))
    for _ in range(questions):
        x, y = draw.sample(range(points), 2)
        lines += what_if([bound(f"x{x}", f"x{y}", hidden[x] - hidden[y] - draw.randrange(1500))])
    return lines


def alternatives(points, clauses, questions, seed):
    """A random problem of clauses of two bounds, and what-if clauses; every tenth question one clause comes for good."""
    draw = random.Random(seed)

    def clause():
        return "(or " + " ".join(bound(*draw.sample([f"x{i}" for i in range(points)], 2), draw.randint(-100, 100)) for _ in range(2)) + ")"

    lines = declared(points) + asserted(*(clause() for _ in range(clauses)))
    for question in range(questions):
        if question % 10 == 9:
            lines += asserted(clause())
        x, y = draw.sample(range(points), 2)
        lines += what_if([clause(), clause(), bound(f"x{x}", f"x{y}", draw.randint(-150, 0))])
    return lines


def operations_of(jobs, machines, seed):
    """The assertions of a job shop: its lines, the last operation of each job with its duration, the longest job's length, and the sum of all."""
    draw = random.Random(seed)
    lines, ends, users, longest, total = [], [], {}, 0, 0
    for job in range(jobs):
        order = list(range(machines))
        draw.shuffle(order)
        durations = [draw.randint(1, 20) for _ in order]
        own = [f"j{job}o{k}" for k in range(machines)]
        lines += [f"(declare-const {name} Int)" for name in own]
        lines += asserted(f"(>= {own[0]} 0)", *(f"(>= (- {b} {a}) {d})" for a, b, d in zip(own, own[1:], durations)))
        ends.append((own[-1], durations[-1]))
        longest, total = max(longest, sum(durations)), total + sum(durations)
        for k, machine in enumerate(order):
            users.setdefault(machine, []).append((own[k], durations[k]))
    for operations in users.values():
        for i, (a, d) in enumerate(operations):
            lines += asserted(*(f"(or {bound(a, b, -d)} {bound(b, a, -e)})" for b, e in operations[:i]))
    return lines, ends, longest, total


def shop(jobs, machines, seed):
    """A job shop, and deadlines from a loose one down to the longest job's length."""
    lines, ends, longest, total = operations_of(jobs, machines, seed)
    for deadline in range(total // 2, longest - 1, -max(1, (total // 2 - longest) // 40)):
        lines += what_if([f"(<= {end} {deadline - duration})" for end, duration in ends])
    return lines


def least(jobs, machines, questions, seed):
    """A job shop's least makespan, each time with one operation that isn't to start before some time."""
    draw = random.Random(seed)
    lines, ends, longest, _ = operations_of(jobs, machines, seed)
    lines += ["(declare-const end Int)", *asserted(*(bound(last, "end", -duration) for last, duration in ends))]
    for _ in range(questions):
        late = f"(>= j{draw.randrange(jobs)}o{draw.randrange(machines)} {draw.randrange(longest)})"
        lines += ["(push 1)", *asserted(late), "(minimize end)", "(pop 1)"]
    return lines


def levels(count):
    """A level for each of a chain of bounds, with a question on each, a bound that closes the chain, and the way back."""
    lines = declared(count + 1)
    for i in range(count):
        forth, back = f"(< x{i} x{i + 1})", f"(< x{i + 1} x{i})"
        lines += ["(push 1)", *asserted(f"(or {forth} {back})" if i % 7 == 3 else forth), "(check-sat)"]
    lines += ["(push 1)", *asserted("(and (< x1 x0) (< x0 x1))"), "(check-sat)"]
    return lines + ["(pop 1)", "(check-sat)"] * (count + 1)


def shrinking(events, requirements, seed):
    """A plan with windows and alternatives, asked with a deadline that shrinks by one until it fails: some 200 questions."""
    draw = random.Random(seed)
    hidden = sorted(draw.randrange(10 * events) for _ in range(events))
    lines = declared(events) + asserted("(>= x0 0)", *(f"(>= (- x{i} x0) 0)" for i in range(1, events)))
    for _ in range(requirements):
        a, b = sorted(draw.sample(range(events), 2))
        apart = hidden[b] - hidden[a]
        window = f"(and (>= (- x{b} x{a}) {number(apart - draw.randrange(8))}) (<= (- x{b} x{a}) {number(apart + draw.randrange(30))}))"
        if draw.random() < 0.3:
            c, d = sorted(draw.sample(range(events), 2))
            window = f"(or {window} (>= (- x{d} x{c}) {hidden[d] - hidden[c] + draw.randint(1, 40)}))"
        lines += asserted(window)
    last = hidden[-1] - hidden[0]
    for deadline in range(last + 150, last - 50, -1):
        lines += what_if([f"(<= (- x{i} x0) {deadline})" for i in range(1, events)])
    return lines


def replaced(points, questions, seed):
    """A network of which one constraint is replaced each time: each constraint stands on a level of its own, and the last few are popped and pushed anew."""
    draw = random.Random(seed)
    hidden = [draw.randrange(10_000) for _ in range(points)]

    def constraint():
        x, y = draw.sample(range(points), 2)
        return bound(f"x{x}", f"x{y}", hidden[x] - hidden[y] + draw.randint(-20, 300))

    lines = declared(points)
    lines += asserted(*(bound(f"x{i}", f"x{draw.randrange(i)}", hidden[i] + 10_000) for i in range(1, points)))
    standing = [constraint() for _ in range(30)]
    for term in standing:
        lines += ["(push 1)", *asserted(term)]
    for _ in range(questions):
        place = draw.randrange(len(standing))
        standing[place] = constraint()
        lines += [f"(pop {len(standing) - place})"]
        for term in standing[place:]:
            lines += ["(push 1)", *asserted(term)]
        lines += ["(check-sat)"]
    return lines


def scripts():
    for points, constraints, questions in [(200, 600, 300), (1000, 3000, 300), (5000, 15000, 200)]:
        yield "network", f"{points}-{constraints}", network(points, constraints, questions, 1)
    for points, clauses, questions in [(20, 90, 300), (30, 140, 200), (40, 200, 300)]:
        yield "alternatives", f"{points}-{clauses}", alternatives(points, clauses, questions, 2)
    for jobs, machines in [(4, 4), (6, 5), (8, 5)]:
        yield "shop", f"{jobs}-{machines}", shop(jobs, machines, 3)
    for count in [500, 3000, 20000]:
        yield "levels", f"{count}", levels(count)
    for events, requirements in [(20, 40), (60, 150), (150, 400)]:
        yield "shrinking", f"{events}-{requirements}", shrinking(events, requirements, 4)
    for points, questions in [(100, 300), (500, 500), (2000, 500)]:
        yield "replaced", f"{points}", replaced(points, questions, 5)
    for jobs, machines, questions in [(5, 5, 40), (8, 5, 20), (10, 5, 10)]:
        yield "least", f"{jobs}-{machines}", least(jobs, machines, questions, 6)


def run(words, text, limit):
    """What the words print, and the processor seconds; None where the limit came first."""
    before = resource.getrusage(resource.RUSAGE_CHILDREN)
    try:
        printed = subprocess.run(words, input=text, capture_output=True, timeout=limit).stdout
    except subprocess.TimeoutExpired:
        return None
    after = resource.getrusage(resource.RUSAGE_CHILDREN)
    return printed, after.ru_utime + after.ru_stime - before.ru_utime - before.ru_stime


def certified(program, text, limit):
    """Seconds and bytes of the certificates of both versions, and the seconds of their checks, as columns."""
    shown = []
    for version in ("1", "2"):
        made = run([program, "certify", "--workers", "1", "--format", version], text, limit)
        checked = made and run([program, "check"], text + made[0], limit)
        shown += [f"{made[1]:.2f}", str(len(made[0])), f"{checked[1]:.2f}" if checked else "-"] if made else ["-", "-", "-"]
        if checked and checked[0] != b"accepted\n":
            shown.append(f"NOT ACCEPTED: {checked[0].decode()}")
    return shown


def main():
    words = sys.argv[1:]
    option = lambda name, default: words[words.index(name) + 1] if name in words else default
    valued = ("--only", "--limit")
    plain = [w for i, w in enumerate(words) if not w.startswith("--") and (i == 0 or words[i - 1] not in valued)]
    program = plain[0] if plain else BUILT
    limit, only = float(option("--limit", "60")), option("--only", "")
    peers = [name for name, peer in PEERS.items() if shutil.which(peer[0])]
    columns = [f"{what} {version}" for version in ("1", "2") for what in ("certify", "bytes", "check")] if "--certify" in words else []
    print("\t".join(["script", "check-sats", "dtp", *peers, "of the best", *columns]))
    shares, wrong = {}, False
    for family, size, lines in scripts():
        if only not in family + "-" + size:
            continue
        text = "\n".join(["(set-logic QF_IDL)", *lines, ""]).encode()
        done = run([program, "solve", "--workers", "1"], text, limit)
        others = [None if family == "least" else run(PEERS[peer], text, limit) for peer in peers]
        for peer, other in zip(peers, others):
            if done and other and other[0] != done[0]:
                wrong = True
                print(f"{family}-{size}: dtp and {peer} differ")
        times = [other[1] for other in others if other]
        share = done[1] / min(times) if done and times else None
        shown = [f"{one[1]:.2f}" if one else "-" for one in [done, *others]]
        more = certified(program, text, limit) if columns else []
        print("\t".join([f"{family}-{size}", str(lines.count("(check-sat)") + lines.count("(minimize end)")), *shown, f"{share:.2f}" if share else "-", *more]), flush=True)
        if share:
            shares.setdefault(family, []).append(share)
    for family, found in shares.items():
        print(f"{family}: {math.exp(sum(map(math.log, found)) / len(found)):.2f} of the best peer (geometric mean of {len(found)})")
    return 1 if wrong else 0


if __name__ == "__main__":
    sys.exit(main())
