#!/usr/bin/env python3
"""Times `dtp solve` with several workers beside one, and looks for runs that don't end.

    bench/workers.py times [PATH OF dtp] FILE..     wall and processor seconds with 1, 2 and 4 workers, least of 3
    bench/workers.py many [PATH OF dtp] FILE..      64 workers, once each: the verdict lines of one worker must come
    bench/workers.py hang [PATH OF dtp] [COUNT]     COUNT (1,000) runs of a small script with 8 workers and slices of 1

A run is stopped after TIME seconds and shown as such. The status is 1 where a run didn't end, or its verdict lines aren't those of one
worker.
"""
import os
import resource
import subprocess
import sys
import time

TOP = os.path.dirname(os.path.dirname(os.path.abspath(__file__)))
BUILT = os.path.join(TOP, "crates", "dtp_main", "out", "dtp_main")
TIME = 120

# x, y, z within 0 and 1 and pairwise distinct, and four pairs of which each is in some order
SMALL = """(set-logic QF_IDL)
(declare-const x Int) (declare-const y Int) (declare-const z Int)
(push) (assert (<= 0 x 1)) (assert (<= 0 y 1)) (assert (<= 0 z 1)) (assert (distinct x y z)) (check-sat) (pop)
""" + "".join(
    f"(declare-const a{k} Int) (declare-const b{k} Int) (assert (or (< a{k} b{k}) (< b{k} a{k})))\n" for k in range(1, 5)
) + "(check-sat)\n"


def run(program, script, words):
    """The output, the wall and the processor seconds; no output where the run was stopped."""
    before = resource.getrusage(resource.RUSAGE_CHILDREN)
    begun = time.monotonic()
    try:
        done = subprocess.run([program, "solve", *words], input=script, capture_output=True, timeout=TIME, check=False)
        output = done.stdout if done.returncode in (0, 1) else b"status %d" % done.returncode
    except subprocess.TimeoutExpired:
        output = None
    after = resource.getrusage(resource.RUSAGE_CHILDREN)
    busy = after.ru_utime + after.ru_stime - before.ru_utime - before.ru_stime
    return output, time.monotonic() - begun, busy


def verdicts(output):
    return None if output is None else [line for line in output.split(b"\n") if line in (b"sat", b"unsat")]


def read(path):
    with open(path, "rb") as file:
        return file.read()


def times(program, files):
    """A line for each file, and the ratios of one worker's wall time to four workers'."""
    well = True
    print("file                              wall 1   wall 2   wall 4   busy 1   busy 2   busy 4   wall 1 / wall 4")
    for path in files:
        script = read(path)
        walls, busies, found = [], [], []
        for workers in ("1", "2", "4"):
            runs = [run(program, script, ["--workers", workers]) for _ in range(3)]
            walls.append(min(wall for _, wall, _ in runs))
            busies.append(min(busy for _, _, busy in runs))
            found += [verdicts(output) for output, _, _ in runs]
        well = well and None not in found and all(lines == found[0] for lines in found)
        numbers = " ".join(f"{value:8.2f}" for value in walls + busies)
        print(f"{os.path.basename(path)[:32]:32}{numbers} {walls[0] / max(walls[2], 0.001):8.2f}", flush=True)
    return well


def many(program, files):
    well = True
    for path in files:
        script = read(path)
        one, alone, _ = run(program, script, ["--workers", "1"])
        all_, wall, busy = run(program, script, ["--workers", "64"])
        same = one is not None and verdicts(one) == verdicts(all_)
        well = well and same
        print(f"{os.path.basename(path)[:32]:32} one {alone:7.2f} s, 64: {wall:7.2f} s, busy {busy:7.2f} s, {'same' if same else 'OTHERWISE'}", flush=True)
    return well


def hang(program, count):
    for number in range(count):
        output, wall, _ = run(program, SMALL.encode(), ["--workers", "8", "--slice", "1"])
        if verdicts(output) != [b"unsat", b"sat"]:
            print(f"run {number}: {output!r} after {wall:.2f} s")
            return False
    print(f"{count} runs with 8 workers ended with the right verdicts")
    return True


def main(words):
    if not words or words[0] not in ("times", "many", "hang"):
        sys.exit(__doc__)
    kind, rest = words[0], words[1:]
    program = rest.pop(0) if rest and os.access(rest[0], os.X_OK) and not rest[0].endswith(".smt2") else BUILT
    if kind == "hang":
        return hang(program, int(rest[0]) if rest else 1000)
    return times(program, rest) if kind == "times" else many(program, rest)


if __name__ == "__main__":
    sys.exit(0 if main(sys.argv[1:]) else 1)
