#!/usr/bin/env python3
"""Fischer's protocol for mutual exclusion, as a question to `dtp`: can two processes be critical at once within K steps?

    examples/fischer.py N K [safe|unsafe] [PATH OF dtp] [--script]

N processes share a lock, which names one of them or none. A process that finds the lock free asks for it; at most A later it writes its
number there; it waits for more than B, and enters its critical section where the lock still has its number, else it may turn back. On
leaving it frees the lock. The delay alone keeps them apart: where B is at least A, whoever has waited for more than B has waited for all
that had asked before it wrote. `safe` has A = B = 3: there is no such run, which a certificate shows that `dtp check` accepts. `unsafe`
has A = 5 and B = 4, a delay that is too short: from K = 8 on there is a run, and it prints who does what when. With `--script` it prints
the script alone.

The script unrolls K steps, as bounded model checking does. State i, from 0 to K, has

- the time t_i, and for each process p the time r_p_i at which its clock was last reset: the clock shows t_i - r_p_i. So the guards
  and invariants of the timed automaton are bounds on differences of two names.
- two Bool names for the location of p: asking is w_p_i alone, waiting u_p_i alone, critical both, idle neither.
- a Bool name l_p_i, which says that the lock names p.

A step from a state to the next is one of these:

- Time passes, by zero or more, and all else stays. Who is asking may be so for at most A: it is enough to look at the clock where the
  step ends, since a clock only grows.
- One process moves, and no time passes. What the others have stays (same_p_i), and so does the lock (lock_i) unless the move writes it.

Since time may pass by zero, K steps stand for K or fewer. The last assertion says that two processes are critical in state K.

Times are whole numbers, so that more than B is B + 1 or more. Who asks for finer times multiplies A and B by one number; where that is
no less than the count of times in the script, fractions would give no other answer.
"""
import argparse
import sys

from dtp import run, values

IDLE, ASKING, WAITING, CRITICAL = range(4)
DELAYS = {"safe": (3, 3), "unsafe": (5, 4)}
MOVES = {
    (IDLE, ASKING): "finds the lock free and asks",
    (ASKING, WAITING): "writes its number",
    (WAITING, CRITICAL): "enters",
    (WAITING, IDLE): "turns back",
    (CRITICAL, IDLE): "leaves",
}


def joined(operator, formulas):
    return formulas[0] if len(formulas) == 1 else f"({operator} {' '.join(formulas)})"


def at(location, p, i):
    """That process p is at this location in state i."""
    u, w = f"u_{p}_{i}", f"w_{p}_{i}"
    return f"{u if location in (WAITING, CRITICAL) else f'(not {u})'} {w if location in (ASKING, CRITICAL) else f'(not {w})'}"


def declared(n, i):
    """The names of state i."""
    yield from (f"(declare-const {name} Int)" for name in [f"t_{i}"] + [f"r_{p}_{i}" for p in range(n)])
    yield from (f"(declare-const {letter}_{p}_{i} Bool)" for p in range(n) for letter in "uwl")


def shared(n, i):
    """What several steps from state i say: process p stays as it is, the lock stays, the lock is free."""
    for p in range(n):
        kept = " ".join(f"(= {letter}_{p}_{i + 1} {letter}_{p}_{i})" for letter in "ruw")
        yield f"(define-fun same_{p}_{i} () Bool (and {kept}))"
    locks = joined("and", [f"(= l_{p}_{i + 1} l_{p}_{i})" for p in range(n)])
    yield f"(define-fun lock_{i} () Bool {locks})"
    free = joined("and", [f"(not l_{p}_{i})" for p in range(n)])
    yield f"(define-fun free_{i} () Bool {free})"


def passing(n, i, a):
    """Time passes from state i on."""
    same = " ".join(f"same_{p}_{i}" for p in range(n))
    in_time = " ".join(f"(=> (and {at(ASKING, p, i)}) (<= (- t_{i + 1} r_{p}_{i}) {a}))" for p in range(n))
    return f"(and (>= t_{i + 1} t_{i}) lock_{i} {same} {in_time})"


def moving(n, p, i, a, b):
    """Process p moves from state i on, in one of five ways."""
    others = " ".join(f"same_{q}_{i}" for q in range(n) if q != p)
    clock, reset, kept = f"(- t_{i} r_{p}_{i})", f"(= r_{p}_{i + 1} t_{i})", f"(= r_{p}_{i + 1} r_{p}_{i})"
    locked = " ".join(f"l_{q}_{i + 1}" if q == p else f"(not l_{q}_{i + 1})" for q in range(n))
    unlocked = " ".join(f"(not l_{q}_{i + 1})" for q in range(n))
    ways = [
        (IDLE, ASKING, f"free_{i} {reset} lock_{i}"),
        (ASKING, WAITING, f"(<= {clock} {a}) {reset} {locked}"),
        (WAITING, CRITICAL, f"(> {clock} {b}) l_{p}_{i} {kept} lock_{i}"),
        (WAITING, IDLE, f"(not l_{p}_{i}) {kept} lock_{i}"),
        (CRITICAL, IDLE, f"{kept} {unlocked}"),
    ]
    moves = " ".join(f"(and {at(before, p, i)} {at(after, p, i + 1)} {rest})" for before, after, rest in ways)
    return f"(and (= t_{i + 1} t_{i}) {others} (or {moves}))"


def script(n, k, a, b):
    """The commands before the question."""
    yield "(set-logic QF_IDL)"
    for i in range(k + 1):
        yield from declared(n, i)
    yield "(assert (= t_0 0))"
    yield from (f"(assert (and (= r_{p}_0 t_0) {at(IDLE, p, 0)} (not l_{p}_0)))" for p in range(n))
    for i in range(k):
        yield from shared(n, i)
        steps = [passing(n, i, a)] + [moving(n, p, i, a, b) for p in range(n)]
        yield f"(assert (or {' '.join(steps)}))"
    both = [f"(and {at(CRITICAL, p, k)} {at(CRITICAL, q, k)})" for p in range(n) for q in range(p + 1, n)]
    yield f"(assert {joined('or', both)})"


def trace(n, k, found):
    """Who does what when, a line a move."""
    place = lambda p, i: 2 * found[f"u_{p}_{i}"] + found[f"w_{p}_{i}"]
    moves = [(i, p, (place(p, i), place(p, i + 1))) for i in range(k) for p in range(n)]
    return [f"at {found[f't_{i}']}: process {p} {MOVES[move]}" for i, p, move in moves if move[0] != move[1]]


def main():
    parser = argparse.ArgumentParser(description="Fischer's protocol as a question to dtp.")
    parser.add_argument("n", type=int, metavar="N")
    parser.add_argument("k", type=int, metavar="K")
    parser.add_argument("delay", nargs="?", choices=DELAYS, default="safe")
    parser.add_argument("program", nargs="?", default="dtp", metavar="PATH OF dtp")
    parser.add_argument("--script", action="store_true")
    given = parser.parse_args()
    if given.n < 2 or given.k < 1:
        parser.error("it takes two processes and a step")
    commands = [*script(given.n, given.k, *DELAYS[given.delay]), "(check-sat)"]
    if given.script:
        print(*commands, "(exit)", sep="\n")
        return 0
    verdict, _, model = run(given.program, "solve", commands + ["(get-model)"]).partition("\n")
    if verdict == "sat":
        print(*trace(given.n, given.k, values(model)), "two processes are critical at once", sep="\n")
        return 0 if given.delay == "unsafe" else 1
    accepted = run(given.program, "check", commands, run(given.program, "certify", commands)) == "accepted\n"
    print(f"no two of {given.n} processes are critical at once within {given.k} steps")
    print("dtp check accepts the certificate" if accepted else "but dtp check refuses the certificate")
    return 0 if accepted else 1


if __name__ == "__main__":
    sys.exit(main())
