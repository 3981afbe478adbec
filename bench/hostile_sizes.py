#!/usr/bin/env python3
"""Sends `dtp` inputs that are dear for their size, in three sizes each, and prints what they take.

    bench/hostile_sizes.py [--dtp PATH] [--seconds T] [FAMILY ..]

Each family is a script that doubles from size to size. For each run it prints the bytes of the input, what it counts (pairs, members, cases: the sizes
of the format's own objects), processor seconds, and the greatest memory; and behind the three the slope of the time from the second to the third, as an
exponent of what is counted: 1 is in proportion, and more than 1.2 is marked where the last run took over 0.1 s. Where a run takes more than T seconds
(60) it is ended and said.
"""
import argparse
import math
import os
import resource
import subprocess
import sys
import tempfile

TOP = os.path.dirname(os.path.dirname(os.path.abspath(__file__)))
BUILT = os.path.join(TOP, "crates", "dtp_main", "out", "dtp_main")
MARKED = 1.2


def ints(count):
    return "".join(f"(declare-const x{i} Int)" for i in range(count))


def names(count):
    return " ".join(f"x{i}" for i in range(count))


def doubled(times):
    """A term of 2^times cases."""
    return f"(+ {' '.join(['a'] * times)})"


def distinct_of_cases(n):
    times = " ".join(["b"] * n)
    return n * (n - 1) // 2, f"(declare-const p Bool)(assert (let ((a (ite p 0 1))) (let ((b {doubled(6)})) (distinct {times}))))(check-sat)"


def sums_behind_cases(n):
    bindings = "".join(f"(v{i} (+ s {i}))" for i in range(n))
    return n, f"(declare-const p Bool)(assert (let ((a (ite p 0 1))) (let ((s {doubled(12)})) (let ({bindings}) p))))(check-sat)"


def choices_of_sums(n):
    script = ints(n) + f"(declare-const p Bool)(assert (let ((s (+ {names(n)})) (t (+ {names(n)} 1))) (let ((c (ite p s t))) "
    return n, script + f"(<= (+ {' '.join(['c'] * 10)}) (+ {' '.join(['s'] * 10)})))))(check-sat)"


def cases_beside_sums(n):
    script = ints(n) + f"(declare-const p Bool)(assert (let ((a (ite p 0 1))) (let ((s {doubled(11)}) (l (+ {names(n)}))) "
    return n, script + "(and (<= (+ s l) l) (<= (+ s l) (+ 1 l)) (<= (+ s l) (+ l 2)) (<= (+ l s) (+ l 3))))))(check-sat)"


def growing_lets(n):
    opened = "(let ((v0 x0)) " + "".join(f"(let ((v{i} (+ v{i - 1} x{i}))) " for i in range(1, n))
    return n, ints(n) + f"(assert {opened} (= v{n - 1} v{n - 1})" + ")" * n + ")(check-sat)"


def growing_definitions(n):
    """Each name stands for the sum of the ones before and one more."""
    lines = "(define-fun v0 () Int x0)" + "".join(f"(define-fun v{i} () Int (+ v{i - 1} x{i}))" for i in range(1, n))
    return n, ints(n) + lines + f"(assert (<= v{n - 1} v{n - 1}))(check-sat)"


def nested_choices(n):
    declared = "(declare-const x Int)(declare-const y Int)" + "".join(f"(declare-const p{i} Bool)" for i in range(n))
    term = "".join(f"(ite p{i} x " for i in range(n)) + "y" + ")" * n
    return n * (n + 1) // 2, declared + f"(assert (<= {term} 3))(check-sat)"


def nested_choices_behind_sum(n):
    declared = "(declare-const x Int)(declare-const y Int)" + "".join(f"(declare-const p{i} Bool)" for i in range(n))
    term = "".join(f"(ite p{i} x " for i in range(n)) + "y" + ")" * n
    return n, declared + f"(assert (let ((s {term})) (let ((t (+ s 1)) (u (+ s x 2)) (v (- s))) p0)))(check-sat)"


def levels(n):
    return n, "(push 1)(pop 1)" * n + "(check-sat)"


def deep_levels(n):
    return n, "(push 1)" * n + "(pop 1)" * n + "(check-sat)"


def distinct_of_one(n):
    return n * (n - 1) // 2, f"(declare-const x Int)(assert (distinct {' '.join(['x'] * n)}))(check-sat)"


def distinct_of_names(n):
    return n * (n - 1) // 2, ints(n) + f"(declare-const p Bool)(assert (distinct {names(n)}))(assert (or p (< x0 x1)))(check-sat)"


def distinct_of_one_beside_or(n):
    return n * (n - 1) // 2, f"(declare-const p Bool)(declare-const x Int)(assert (or p (distinct {' '.join(['x'] * n)})))(check-sat)"


def equal_chains(n):
    return n, f"(declare-const x Int)(assert (= {' '.join(['x'] * n)}))(check-sat)"


def open_parentheses(n):
    return n, "(" * n


def nested_formulas(n):
    return n, "(declare-const p Bool)(assert " + "(not " * n + "p" + ")" * n + ")(check-sat)"


def nested_ites(n):
    """Formulas of choices in one another."""
    return n, "(declare-const p Bool)(declare-const q Bool)(assert " + "(ite p q " * n + "p" + ")" * n + ")(check-sat)"


def many_names(n):
    return n, ints(n) + "".join(f"(assert (<= x{i} x{i + 1}))" for i in range(n - 1)) + "(check-sat)"


def many_terms(n):
    shape = " ".join(f"(<= x{i % 97} {i})" for i in range(n))
    return n, ints(97) + f"(assert (or {shape}))(check-sat)"


def long_values(n):
    return n, ints(97) + f"(check-sat)(get-value ({' '.join(f'x{i % 97}' for i in range(n))}))"


def checked_entries(n):
    """A script of many check-sats with its certificate, for `check`."""
    shown = 500
    values = " ".join(["0"] * shown)
    script = ints(shown) + "(assert (<= x0 0))" + "(check-sat)" * n
    return n * shown, script + "\n(dtp-certificate 1)\n" + f"(sat {values})\n" * n + "(end)\n"


FAMILIES = {
    "distinct-of-cases": (distinct_of_cases, "solve", (20, 40, 80), "pairs of terms of 64 cases"),
    "sums-behind-cases": (sums_behind_cases, "solve", (500, 1000, 2000), "sums behind 4,096 cases"),
    "choices-of-sums": (choices_of_sums, "solve", (1000, 2000, 4000), "names in each of 1,024 cases"),
    "cases-beside-sums": (cases_beside_sums, "solve", (5000, 10000, 20000), "names beside 2,048 cases"),
    "growing-lets": (growing_lets, "solve", (1625, 3250, 6500), "sums, each of one name more"),
    "growing-definitions": (growing_definitions, "solve", (1625, 3250, 6500), "sums, each of one name more"),
    "nested-choices": (nested_choices, "solve", (1024, 2048, 4095), "guards of the cases"),
    "sums-of-nested": (nested_choices_behind_sum, "solve", (1024, 2048, 4095), "cases"),
    "levels": (levels, "solve", (10000, 20000, 40000), "levels opened and closed"),
    "deep-levels": (deep_levels, "solve", (16384, 32768, 65536), "levels in one another"),
    "distinct-of-one": (distinct_of_one, "solve", (5000, 10000, 20000), "members"),
    "distinct": (distinct_of_names, "solve", (125, 250, 500), "pairs of names"),
    "distinct-of-one-beside-or": (distinct_of_one_beside_or, "solve", (250, 500, 1000), "members"),
    "equal-chain": (equal_chains, "solve", (50000, 100000, 200000), "pairs"),
    "open-parentheses": (open_parentheses, "solve", (1000000, 2000000, 4000000), "parentheses"),
    "nested-nots": (nested_formulas, "solve", (100000, 200000, 400000), "formulas in one another"),
    "nested-ites": (nested_ites, "solve", (50000, 100000, 200000), "formulas in one another"),
    "many-names": (many_names, "solve", (16384, 32768, 65536), "names"),
    "many-terms": (many_terms, "solve", (100000, 200000, 400000), "comparisons"),
    "many-values": (long_values, "solve", (50000, 100000, 200000), "values"),
    "checked-entries": (checked_entries, "check", (1500, 3000, 6000), "values of entries"),
}


def run(dtp, command, text, limit):
    """The last line, processor seconds and greatest memory in bytes; None for the line where the run was ended."""
    with tempfile.TemporaryFile() as source, tempfile.TemporaryFile() as answer:
        source.write(text.encode())
        source.seek(0)
        bounded = lambda: resource.setrlimit(resource.RLIMIT_CPU, (limit, limit))
        process = subprocess.Popen([dtp, command], stdin=source, stdout=answer, stderr=subprocess.DEVNULL, preexec_fn=bounded)
        _, status, used = os.wait4(process.pid, 0)
        process.returncode = 0
        answer.seek(0)
        last = answer.read().decode().strip().rsplit("\n", 1)[-1]
        told = last if os.WIFEXITED(status) else f"ended by signal {os.WTERMSIG(status)}"
        return told, used.ru_utime + used.ru_stime, used.ru_maxrss * 1024


def main():
    words = argparse.ArgumentParser(description="Inputs that are dear for their size.")
    words.add_argument("--dtp", default=BUILT)
    words.add_argument("--seconds", type=int, default=60)
    words.add_argument("families", nargs="*", metavar="FAMILY")
    asked = words.parse_args()
    unknown = [name for name in asked.families if name not in FAMILIES]
    if unknown:
        sys.exit(f"no family {unknown[0]}; there are {', '.join(FAMILIES)}")
    print(f"{'family':20} {'bytes':>9} {'counted':>11} {'seconds':>8} {'MB':>6} {'slope':>6}  answer, and what is counted")
    for name in asked.families or FAMILIES:
        build, command, sizes, counted = FAMILIES[name]
        before = None
        for size in sizes:
            count, text = build(size)
            told, seconds, memory = run(asked.dtp, command, text, asked.seconds)
            slope = math.log(seconds / before[1]) / math.log(count / before[0]) if before and before[1] > 0.02 else None
            mark = " !" if slope and slope > MARKED and seconds > 0.1 else "  "
            shown = f"{slope:6.2f}" if slope is not None else "     -"
            print(f"{name:20} {len(text):9} {count:11} {seconds:8.2f} {memory / 1e6:6.0f} {shown}{mark}{told[:40]}, {counted}", flush=True)
            before = (count, seconds)


main()
