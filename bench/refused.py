#!/usr/bin/env python3
"""Refuses each growth of `dtp` in turn, over a fixed list of rows, and holds each answer against what it may be.

    bench/refused.py [PATH OF dtp]

It wants a C compiler: `refused/refuse.c` stands before the program's `malloc` and `realloc`, counts them, and refuses one. A row is run whole once, and then
once for each growth that it asked for. Then the status is 5, and what went out is a front of what the whole run writes; or the program did without
what it was refused (a hint of the search, a worker whose work the others finish), and the status and the verdicts are those of the whole run. It
prints how many growths each row has and how its runs ended, and fails where one isn't as it may be.
"""
import os
import re
import subprocess
import sys
import tempfile

TOP = os.path.dirname(os.path.dirname(os.path.abspath(__file__)))
BUILT = os.path.join(TOP, "crates", "dtp_main", "out", "dtp_main")
NAMES = " ".join(f"(declare-const {name} Int)" for name in "abcdefgh")
PAIRS = " ".join(f"(assert (or (< {x} {y}) (< {y} {x})))" for x, y in ("ab", "cd", "ef", "gh"))
PIGEONS = (
    " ".join(f"(declare-const p{i} Int) (assert (<= 0 p{i})) (assert (<= p{i} 2))" for i in range(4))
    + " (assert (distinct p0 p1 p2 p3)) (check-sat)"
)
TERMS = (
    "(set-option :produce-models true) (declare-const p Bool) (declare-const x Int) (declare-const y Int) "
    "(define-fun far () Bool (or (< (+ x 3) y) (< (+ y 3) x))) "
    "(push 1) (assert (! far :named apart)) (assert (let ((z (ite p x (+ y 1)))) (=> (not p) (= z 7)))) (check-sat) "
    "(get-model) (get-value (x (ite p x y) far)) (pop 1) (get-info :name) (echo \"done\") (check-sat) (assert false) (check-sat)"
)
KEPT = b"""(declare-const p Bool) (assert p) (assert (not p)) (check-sat) (push 1) (check-sat) (pop 1)
(dtp-certificate 2)
(unsat (lemma () (input 0) (clash 1)))
(unsat (keep 1 0))
(end)
"""
AGAIN = (
    "(declare-const x Int) (declare-const y Int) (assert (or (< x y) (< x (- y 3)))) (push 1) (assert (or (< y x) (< y (- x 3)))) (check-sat) (check-sat) (pop 1) (check-sat) "
    "(assert (< x 5)) (assert (or (< y x) (< y (- x 3)))) (check-sat) (minimize x)"
)
BOOLS = (
    "(declare-const a Bool) (declare-const b Bool) (declare-const x Int) (declare-const y Int) (assert (or a b)) (assert (or (not a) b)) "
    "(assert (or (not b) (< x y)))"
)
ATOMS = BOOLS + " (assert (or (not b) (< y x))) (check-sat)"
LEAST = BOOLS + " (assert (or (not b) (<= y (+ x 5)))) (minimize (- x y))"
PROOFS = "(set-option :produce-proofs true) (declare-const x Int) (declare-const y Int) (assert (< x y)) (assert (< y x)) (check-sat) (get-proof)"


VERDICT = re.compile(rb"^(?:sat|unsat|accepted|refused.*|verdict.*|usage.*|\(sat|\(unsat|\(error.*|\(end\))", re.MULTILINE)


def rows(program):
    """The rows: a name, words and input."""
    example = os.path.join(TOP, "examples", "two_orders.smt2")
    with open(example, "rb") as text:
        orders = text.read()
    pairs = f"{NAMES} {PAIRS} (check-sat)".encode()
    pigeons = PIGEONS.encode()
    for name, script in ("terms", TERMS.encode()), ("proofs", PROOFS.encode()), ("pigeons", pigeons), ("atoms that go", ATOMS.encode()), ("least without atoms", LEAST.encode()):
        yield f"solve, {name}", ["solve", "--workers", "1"], script
    yield "solve, four workers", ["solve", "--workers", "4", "--slice", "1"], pairs
    yield "solve, pigeons by two workers", ["solve", "--workers", "2", "--slice", "1"], pigeons
    yield "solve, an error", ["solve", "--workers", "1"], b"(declare-const x Int) (check-sat) (assert (< x 9999999999999999999999)) (check-sat)"
    for version in "1", "2":
        yield f"certify, version {version}", ["certify", "--workers", "1", "--format", version], pigeons
    yield "certify, kept lemmas", ["certify", "--workers", "1", "--format", "2"], AGAIN.encode()
    for name, script in ("orders", orders), ("pigeons", pigeons):
        certificate = subprocess.run([program, "certify", "--workers", "1", "--format", "2"], input=script, capture_output=True, check=True).stdout
        behind = script + b"\n" + certificate
        yield f"check, {name}", ["check"], behind
        yield f"convert, {name}", ["convert"], behind
        yield f"check, {name} cut", ["check"], behind[: len(behind) - 30]
    for command in "check", "convert":
        yield f"{command}, a kept lemma", [command], KEPT
    yield "bench", ["bench", "2", "2", "1", "20", "--workers", "1"], b""
    yield "no command line", ["solve", "--workers"], b""


def run(program, words, source, library, at, count):
    surroundings = {**os.environ, "LD_PRELOAD": library, "REFUSE_AT": str(at), "REFUSE_COUNT": count}
    ended = subprocess.run([program, *words], input=source, capture_output=True, env=surroundings, timeout=60)
    return ended.returncode, ended.stdout


def is_front(front, output):
    """Whether it is a front of what the whole run writes, whose schedules and refutations may be others where a hint was refused before."""
    told, all_told = VERDICT.findall(front), VERDICT.findall(output)
    return output.startswith(front) or told == all_told[: len(told)]


def turn_through(program, library, folder, words, source):
    """How many growths the row has, how often each status came, and the runs that aren't as they may be."""
    count = os.path.join(folder, "count")
    status, output = run(program, words, source, library, 0, count)
    with open(count, "rb") as counted:
        growths = int.from_bytes(counted.read(), "little")
    told, bad = {}, []
    for at in range(1, growths + 1):
        got, front = run(program, words, source, library, at, count)
        told[got] = told.get(got, 0) + 1
        whole = got == status and VERDICT.findall(front) == VERDICT.findall(output)
        if not whole and not (got == 5 and is_front(front, output)):
            bad.append((at, got, front[-60:]))
    return growths, told, bad


def main():
    program = os.path.abspath(sys.argv[1]) if len(sys.argv) > 1 else BUILT
    tried, wrong = 0, 0
    with tempfile.TemporaryDirectory() as folder:
        library = os.path.join(folder, "refuse.so")
        source = os.path.join(TOP, "bench", "refused", "refuse.c")
        subprocess.run(["cc", "-O1", "-shared", "-fPIC", "-o", library, source, "-ldl"], check=True)
        for name, words, script in rows(program):
            growths, told, bad = turn_through(program, library, folder, words, script)
            tried += growths
            wrong += len(bad)
            print(f"{name}: {growths} growths; " + ", ".join(f"status {s}: {n}" for s, n in sorted(told.items())))
            for at, got, front in bad[:5]:
                print(f"  growth {at}: status {got}, the output ends with {front!r}")
    print(f"{tried} growths refused in turn, {wrong} answers that aren't as they may be")
    sys.exit(1 if wrong else 0)


main()
