#!/usr/bin/env python3
"""The greatest memory of `dtp solve` beside z3's, script by script, and the geometric mean of the ratios.

    bench/memory.py DTP FILE.. [--seconds 30] [--workers 1]

GNU time (`apt-get install time`) starts each run: what Python's own `wait4` says of a child begins with the memory of the process that
started it, 19 MB and more, however little the child takes. A script that one of the two doesn't decide in time is left out of the mean.
"""
import argparse
import math
import os
import subprocess
import tempfile


def run(command, script, seconds):
    """The greatest memory in MB, and the verdicts; None for a run that was stopped."""
    with open(script, encoding="utf-8") as text, tempfile.NamedTemporaryFile("r") as told:
        words = ["/usr/bin/time", "-f", "%M", "-o", told.name, *command]
        try:
            ended = subprocess.run(words, stdin=text, capture_output=True, text=True, timeout=seconds, check=False)
        except subprocess.TimeoutExpired:
            return None
        lines = [line for line in ended.stdout.split() if line in ("sat", "unsat")]
        return int(told.read().split()[-1]) / 1024, lines


def main():
    options = argparse.ArgumentParser(description=__doc__, formatter_class=argparse.RawDescriptionHelpFormatter)
    options.add_argument("dtp")
    options.add_argument("files", nargs="+")
    options.add_argument("--seconds", type=float, default=30)
    options.add_argument("--workers", default="1")
    given = options.parse_args()
    ratios = []
    for script in given.files:
        own = run([given.dtp, "solve", "--workers", given.workers], script, given.seconds)
        peer = run(["z3", "-in"], script, given.seconds)
        name = os.path.basename(script)
        if own is None or peer is None or own[1] != peer[1]:
            print(f"{name}: not decided by both, or not alike")
            continue
        ratios.append(own[0] / peer[0])
        print(f"{name}: {own[0]:.1f} MB, z3 {peer[0]:.1f}, {ratios[-1]:.2f}")
    if ratios:
        mean = math.exp(sum(math.log(ratio) for ratio in ratios) / len(ratios))
        print(f"{len(ratios)} scripts: {mean:.2f} in the geometric mean")


if __name__ == "__main__":
    main()
