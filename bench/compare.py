#!/usr/bin/env python3
"""Compares dtp with z3 on random scripts, and puts each certificate to `dtp check`.

    bench/compare.py crates/dtp_main/out/dtp_main [FIRST LAST]

Every script of the seeds FIRST to LAST (0 to 500) uses the operators over Bool names and Int differences, chains, `let`
(an Int name hidden by a sum among them), `define-fun` and levels. Prints each difference and a last line of sums; its
status is 1 if anything differs. It needs `z3` on the path.
"""
import random
import subprocess
import sys

LOGIC = "(set-logic QF_IDL)\n"
RELATIONS = ["<", "<=", ">", ">=", "=", "distinct"]


class Script:
    """One random script."""

    def __init__(self, seed):
        self.random = random.Random(seed)
        self.ints = ["x", "y", "z", "w"][: self.random.randint(1, 4)]
        self.bools = ["p", "q", "r"][: self.random.randint(1, 3)]
        self.bound = 0

    def number(self):
        value = self.random.randint(-4, 4)
        return str(value) if value >= 0 else f"(- {-value})"

    def comparison(self):
        left, right = self.random.choice(self.ints), self.random.choice(self.ints)
        sides = self.random.choice([
            (left, right),
            (f"(- {left} {right})", self.number()),
            (left, self.number()),
            (self.number(), left),
            (f"(+ {left} {self.number()})", right),
            (f"(- {left} {right} {self.number()})", self.number()),
        ])
        return f"({self.random.choice(RELATIONS)} {sides[0]} {sides[1]})"

    def chain(self):
        names = [self.random.choice(self.ints) for _ in range(self.random.randint(2, 4))]
        return f"({self.random.choice(RELATIONS)} {' '.join(names)})"

    def bind_bool(self, depth):
        self.bound += 1
        name, value = f"v{self.bound}", self.formula(depth)
        self.bools.append(name)
        body = self.formula(depth)
        self.bools.remove(name)
        return f"(let (({name} {value})) {body})"

    def hide_int(self, depth):
        value = f"(+ {self.random.choice(self.ints)} {self.number()})"
        return f"(let (({self.random.choice(self.ints)} {value})) {self.formula(depth)})"

    def applied(self, depth):
        operator, least, most = self.random.choice([
            ("not", 1, 1), ("and", 2, 4), ("or", 2, 4), ("=>", 2, 3), ("xor", 2, 3),
            ("=", 2, 3), ("distinct", 2, 3), ("ite", 3, 3),
        ])
        members = [self.formula(depth) for _ in range(self.random.randint(least, most))]
        return f"({operator} {' '.join(members)})"

    def formula(self, depth):
        if depth == 0:
            return self.random.choice([self.random.choice(self.bools + ["true", "false"]), self.comparison()])
        kind = self.random.randrange(12)
        if kind == 0:
            return self.bind_bool(depth - 1)
        if kind == 1:
            return self.hide_int(depth - 1)
        if kind == 2:
            return self.chain()
        if kind < 5:
            return self.comparison()
        return self.applied(depth - 1)

    def text(self):
        lines = [f"(declare-fun {name} () Int)" for name in self.ints]
        lines += [f"(declare-const {name} Bool)" for name in self.bools]
        level, defined = 0, 0
        for _ in range(self.random.randint(3, 12)):
            kind = self.random.randrange(10)
            if kind < 6:
                lines.append(f"(assert {self.formula(self.random.randint(0, 3))})")
            elif kind == 6:
                lines.append("(check-sat)")
            elif kind == 7:
                level += 1
                lines.append("(push 1)")
            elif kind == 8 and level > 0:
                level -= 1
                lines.append("(pop 1)")
            elif kind == 9 and level == 0:
                defined += 1
                lines.append(f"(define-fun d{defined} () Bool {self.formula(2)})")
                self.bools.append(f"d{defined}")
        return "\n".join(lines + ["(check-sat)", ""])


def output(command, text):
    done = subprocess.run(command, input=text, stdout=subprocess.PIPE, stderr=subprocess.DEVNULL, text=True, timeout=60)
    return done.stdout


def main():
    program = sys.argv[1]
    first, last = (int(sys.argv[2]), int(sys.argv[3])) if len(sys.argv) > 3 else (0, 500)
    differences, sat, unsat = 0, 0, 0
    for seed in range(first, last):
        body = Script(seed).text()
        script = LOGIC + body
        answers = output([program, "solve"], script)
        # z3's own front for the logic leaves out what it doesn't take as a difference
        expected = output(["z3", "-in"], body)
        if answers != expected:
            differences += 1
            print(f"seed {seed}: dtp {answers.split()}, z3 {expected.split()}")
        elif output([program, "check"], script + output([program, "certify"], script)) != "accepted\n":
            differences += 1
            print(f"seed {seed}: the certificate isn't accepted")
        sat += answers.split().count("sat")
        unsat += answers.split().count("unsat")
    print(f"{last - first} scripts, {sat} sat, {unsat} unsat, {differences} differences")
    sys.exit(1 if differences else 0)


main()
