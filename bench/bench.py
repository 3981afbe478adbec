#!/usr/bin/env python3
"""Times `dtp solve` on large scripts, beside z3 where it is installed, and then `certify` and `check` on scripts with large
certificates. It prints, and asserts nothing.

    bench/bench.py [PATH OF dtp]

Each script is written to a temporary folder and read on standard input. The columns are the seconds from start to
end, the greatest resident memory in MB, and what was printed.
"""

import os
import random
import shutil
import subprocess
import sys
import tempfile
import threading
import time

TOP = os.path.dirname(os.path.dirname(os.path.abspath(__file__)))
# seconds after which a solver is stopped
LIMIT = 60
BUILT = os.path.join(TOP, "crates", "dtp_main", "out", "dtp_main")


def wide(names, assertions):
    """Many names, and comparisons that a hidden schedule satisfies."""
    draw = random.Random(1)
    hidden = [draw.randrange(1_000_000) for _ in range(names)]
    for i in range(names):
        yield f"(declare-const n{i} Int)\n"
    for _ in range(assertions):
        x, y = draw.randrange(names), draw.randrange(names)
        slack = draw.randrange(1_000)
        bound = hidden[x] - hidden[y] + slack
        number = str(bound) if bound >= 0 else f"(- {-bound})"
        yield f"(assert (<= (- n{x} n{y}) {number}))\n"
    yield "(check-sat)\n"


def chain(points):
    """x0 > x1 > .. : the links in the order in which plain rounds settle one point each."""
    for i in range(points):
        yield f"(declare-const x{i} Int)\n"
    for i in reversed(range(points - 1)):
        yield f"(assert (< x{i + 1} x{i}))\n"
    yield "(check-sat)\n"


def units(names, assertions):
    """Clauses of one literal each."""
    for i in range(names):
        yield f"(declare-const n{i} Int)\n"
    for i in range(assertions):
        yield f"(assert (or (<= (- n{i % names} n{(7 * i + 1) % names}) {i})))\n"
    yield "(check-sat)\n"


def pairs(names, assertions):
    """Clauses of two literals, of which the first always holds."""
    for i in range(names):
        yield f"(declare-const n{i} Int)\n"
    for i in range(assertions):
        yield f"(assert (or (<= n{i % names} n{i % names}) (< n{i % names} {i})))\n"
    yield "(check-sat)\n"


def orders(count):
    """Pairs of names, each in one of two orders: every clause is branched on."""
    for i in range(count):
        yield f"(declare-const a{i} Int) (declare-const b{i} Int)\n"
        yield f"(assert (or (< a{i} b{i}) (< b{i} a{i})))\n"
    yield "(check-sat)\n"


def machine(jobs, deadline):
    """Jobs of lengths 1, 2, .. on one machine: they fit exactly where the deadline is the sum of their lengths."""
    for j in range(jobs):
        yield f"(declare-const s{j} Int) (assert (>= s{j} 0)) (assert (<= s{j} {deadline - j - 1}))\n"
    for a in range(jobs):
        for b in range(a + 1, jobs):
            yield f"(assert (or (<= (- s{a} s{b}) (- {a + 1})) (<= (- s{b} s{a}) (- {b + 1}))))\n"
    yield "(check-sat)\n"


def cycles(points, checks):
    """A negative cycle through all points, asked for many times."""
    for i in range(points):
        yield f"(declare-const x{i} Int)\n"
    for i in range(points):
        yield f"(assert (< x{i} x{(i + 1) % points}))\n"
    for _ in range(checks):
        yield "(check-sat)\n"


def nested(depth):
    """Opening parentheses alone."""
    yield "(" * depth


def levels(base, turns):
    """A base of assertions, and over it many times a level of its own."""
    yield "(declare-const z Int)\n"
    for i in range(base):
        yield f"(declare-const n{i} Int) (assert (>= n{i} (+ z {i})))\n"
    for i in range(turns):
        yield f"(push 1) (declare-const t Int) (assert (< t n{i % base})) (check-sat) (pop 1)\n"


def formulas(names, different, assertions):
    """Formulas of all operators, so many of them different: the others are shared whole."""
    for i in range(names):
        yield f"(declare-const n{i} Int) (declare-const p{i} Bool)\n"
    for i in range(assertions):
        draw = random.Random(i % different)
        a, b, c = (draw.randrange(names) for _ in range(3))
        k = i % different
        yield (
            f"(assert (let ((?v (- n{a} n{b})) (?w (or p{c} (< n{c} (+ n{a} {k}))))) "
            f"(or (and ?w (<= ?v {k})) (xor (not ?w) (distinct ?v {k + 1})) (ite p{a} (> ?v (- {k})) (= n{b} n{c})))))\n"
        )
    yield "(check-sat)\n"


def chained_lets(depth):
    """Lets in lets; each body uses the first variable."""
    yield "(declare-const x Int) (assert (let ((v0 (< x 0))) "
    for i in range(1, depth):
        yield f"(let ((v{i} (and v{i - 1} v0))) "
    yield f"(or v{depth - 1} v0)" + ")" * depth + ")\n(check-sat)\n"


def long_sum(names):
    """A sum of all names, less all but two of them."""
    for i in range(names):
        yield f"(declare-const n{i} Int)\n"
    yield "(assert (< (- (+ " + " ".join(f"n{i}" for i in range(names)) + ") " + " ".join(f"n{i}" for i in range(1, names)) + ") 0))\n(check-sat)\n"


def deep(opening, depth, innermost="p", formula="{}"):
    """One operator in itself."""
    term = f"({opening} " * depth + innermost + ")" * depth
    return f"(declare-const p Bool) (declare-const x Int) (assert {formula.format(term)}) (check-sat)\n"


def conditions(count):
    return "".join(f"(declare-const p{i} Bool) " for i in range(count)) + "(declare-const x Int) (declare-const y Int)\n"


def choices(depth):
    """Int `ite` in one another."""
    term = "".join(f"(ite p{i} y " for i in range(depth)) + "x" + ")" * depth
    return conditions(depth) + f"(assert (<= {term} 0)) (check-sat)\n"


def chained_choices(depth):
    """Lets in lets; each variable is an Int `ite` of the one before it."""
    lets = "".join(f"(let ((v{i + 1} (ite p{i} y {f'v{i}' if i else 'x'}))) " for i in range(depth))
    return conditions(depth) + f"(assert {lets}(<= v{depth} 0){')' * depth}) (check-sat)\n"


def stepped_choices(depth):
    """Int `ite` and sums in one another."""
    term = "".join(f"(+ 1 (ite p{i} y " for i in range(depth)) + "x" + "))" * depth
    return conditions(depth) + f"(assert (<= {term} 0)) (check-sat)\n"


def long_choice(summands):
    """A sum of twelve Int `ite` and then of so many numerals; it is no difference."""
    terms = [f"(ite p{i} x {i})" for i in range(12)] + [str(i) for i in range(summands)]
    return conditions(12) + f"(assert (<= (+ {' '.join(terms)}) 0)) (check-sat)\n"


def nested_sums(names):
    """Sums of different names in one another, less all names but one."""
    for i in range(names):
        yield f"(declare-const n{i} Int)\n"
    term = "".join(f"(+ n{i} " for i in range(names)) + "0" + ")" * names
    yield f"(assert (<= (- {term} " + " ".join(f"n{i}" for i in range(1, names)) + ") 0))\n(check-sat)\n"


def chained_sums(names):
    """Lets in lets; each variable is the sum of one more name and the one before it."""
    for i in range(names):
        yield f"(declare-const n{i} Int)\n"
    lets = "".join(f"(let ((s{i + 1} (+ n{i} {f's{i}' if i else '0'}))) " for i in range(names))
    yield f"(assert {lets}(<= (- s{names} " + " ".join(f"n{i}" for i in range(1, names)) + ") 0)" + ")" * names + ")\n(check-sat)\n"


def run(command, path, kept=None):
    with open(path, "rb") as script, open(kept, "wb+") if kept else tempfile.TemporaryFile() as out:
        start = time.monotonic()
        child = subprocess.Popen(command, stdin=script, stdout=out, stderr=subprocess.DEVNULL)
        timer = threading.Timer(LIMIT, child.kill)
        timer.start()
        _, status, usage = os.wait4(child.pid, 0)
        timer.cancel()
        seconds = time.monotonic() - start
        child.returncode = os.waitstatus_to_exitcode(status)
        out.seek(0)
        answer = " ".join(out.read(60).decode(errors="replace").split())
    ended = f"status {child.returncode}" if child.returncode >= 0 else f"stopped after {LIMIT} s"
    return seconds, usage.ru_maxrss / 1024, f"{answer} ({ended})".strip()


def main():
    dtp = sys.argv[1] if len(sys.argv) > 1 else BUILT
    if not os.path.exists(dtp):
        sys.exit(f"{dtp} isn't there; build it as the README says")
    solvers = [("dtp", [dtp, "solve"])]
    if shutil.which("z3"):
        solvers.append(("z3", ["z3", "-in"]))
    scripts = [
        ("65,536 names, 500,000 assertions", wide(65_536, 500_000)),
        ("a chain of 20,000 points, worst order", chain(20_000)),
        ("200,000 clauses of one literal", units(1_000, 200_000)),
        ("100,000 clauses, the first literal holds", pairs(1_000, 100_000)),
        ("30,000 pairs in one of two orders", orders(30_000)),
        ("1,000,000 opening parentheses", nested(1_000_000)),
        ("10,000 levels over 1,000 assertions", levels(1_000, 10_000)),
        ("260,000 formulas, 50,000 different", formulas(20_000, 50_000, 260_000)),
        ("100,000 nested lets", chained_lets(100_000)),
        ("a sum of 60,000 names", long_sum(60_000)),
        ("100,000 nested not", deep("not", 100_000)),
        ("300,000 nested and", deep("and", 300_000)),
        ("100,000 nested ite", deep("ite p p", 100_000)),
        ("100,000 nested +", deep("+ 1", 100_000, "x", "(< {} 0)")),
        ("1,000 nested ite of Int", choices(1_000)),
        ("2,000 nested ite of Int", choices(2_000)),
        ("4,095 nested ite of Int", choices(4_095)),
        ("4,095 nested lets of such ite", chained_choices(4_095)),
        ("2,000 nested ite and sums", stepped_choices(2_000)),
        ("1,000 summands behind twelve ite", long_choice(1_000)),
        ("20,000 summands behind twelve ite", long_choice(20_000)),
        ("16,000 nested sums of names", nested_sums(16_000)),
        ("8,000 nested lets of such sums", chained_sums(8_000)),
    ]
    certified = [
        ("8 jobs on one machine, 1 too little", machine(8, 35)),
        ("a cycle of 20,000, 80 check-sats", cycles(20_000, 80)),
    ]
    print(f"{'script':40} {'MB in':>6} {'solver':>6} {'seconds':>8} {'MB':>7}  answer")
    with tempfile.TemporaryDirectory() as folder:
        for title, lines in scripts:
            path = os.path.join(folder, "script.smt2")
            with open(path, "w") as script:
                script.writelines(lines)
            size = os.path.getsize(path) / 1e6
            for name, command in solvers:
                seconds, memory, answer = run(command, path)
                print(f"{title:40} {size:6.1f} {name:>6} {seconds:8.2f} {memory:7.0f}  {answer}", flush=True)
        for title, lines in certified:
            path = os.path.join(folder, "script.smt2")
            with open(path, "w") as script:
                script.writelines(lines)
            certificate, both = os.path.join(folder, "certificate"), os.path.join(folder, "both")
            for word, source, kept in (("certify", path, certificate), ("check", both, None)):
                if word == "check":
                    with open(both, "wb") as out:
                        for part in (path, certificate):
                            with open(part, "rb") as text:
                                shutil.copyfileobj(text, out)
                size = os.path.getsize(source) / 1e6
                seconds, memory, answer = run([dtp, word], source, kept)
                print(f"{title:40} {size:6.1f} {word:>7} {seconds:7.2f} {memory:7.0f}  {answer}", flush=True)


if __name__ == "__main__":
    main()
