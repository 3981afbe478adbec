#!/usr/bin/env python3
"""Times the answers to questions, and says whether they grow in proportion.

    bench/answers.py [PATH OF dtp]

A model of 65,536 names, and values of 10,000 terms, Int terms and formulas, over a table of as many nodes, in one command and in a
command each; each beside a quarter of it, and beside the same script without the questions. It prints the seconds from start to end, the
greatest resident memory in MB and the bytes that were written, and fails where an answer is not as long as it must be, or where four times as much
takes more than eight times as long.
"""

import os
import subprocess
import sys
import tempfile
import time

TOP = os.path.dirname(os.path.dirname(os.path.abspath(__file__)))
BUILT = os.path.join(TOP, "crates", "dtp_main", "out", "dtp_main")


def names(count):
    for i in range(count):
        yield f"(declare-const n{i} Int)\n"
    for i in range(count - 1):
        yield f"(assert (< n{i} n{i + 1}))\n"
    yield "(check-sat)\n"


def formula(i, count):
    j = (7 * i + 3) % count
    return f"(or (< n{i} n{j}) (< n{j} (+ n{i} {i})))"


def model(count):
    yield from names(count)
    yield "(get-model)\n"


def numbers(count):
    yield from names(count)
    yield "(get-value (" + " ".join(f"(- n{i} n0)" for i in range(count)) + "))\n"


def formulas(count):
    yield from names(count)
    yield "(get-value (" + " ".join(formula(i, count) for i in range(count)) + "))\n"


def commands(count):
    yield from names(count)
    for i in range(count):
        yield f"(get-value ({formula(i, count)}))\n"


def run(program, script):
    """The seconds, the memory and the output of one run."""
    with tempfile.TemporaryFile() as source:
        for line in script:
            source.write(line.encode())
        source.seek(0)
        start = time.perf_counter()
        process = subprocess.Popen([program, "solve"], stdin=source, stdout=subprocess.PIPE)
        output = process.stdout.read()
        _, status, usage = os.wait4(process.pid, 0)
        seconds = time.perf_counter() - start
    if status != 0:
        sys.exit(f"{program} ended with {status}")
    return seconds, usage.ru_maxrss / 1024, output


def main():
    program = sys.argv[1] if len(sys.argv) > 1 else BUILT
    kinds = [
        ("get-model", model, 65_536, lambda n: n + 3),
        ("get-value of Int terms", numbers, 10_000, lambda n: 2),
        ("get-value of formulas", formulas, 10_000, lambda n: 2),
        ("a get-value for each formula", commands, 10_000, lambda n: n + 1),
    ]
    well = True
    for title, make, count, lines in kinds:
        times = []
        for n in (count // 4, count):
            without, _, _ = run(program, names(n))
            seconds, memory, output = run(program, make(n))
            well &= output.count(b"\n") == lines(n)
            times.append(max(seconds - without, 0.001))
            print(f"{title}, {n}: {seconds:.2f} s ({without:.2f} s without), {memory:.0f} MB, {len(output)} bytes")
        well &= times[1] < 8 * times[0] or times[1] < 0.05
    if not well:
        sys.exit("not in proportion, or not as long as it must be")


if __name__ == "__main__":
    main()
