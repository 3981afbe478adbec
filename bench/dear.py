#!/usr/bin/env python3
"""Which functions of a crate are dear to prove: each with the seconds behind the one that was proved before it, the dearest first.

    bench/dear.py CRATE --keep FOLDER [--over CLONE ..] [--most N] [FLAG ..]

It is `bench/check_over.py` with these words, by one job; FOLDER should be a new one, since what was proved before has no line. A type's proof is part of the
seconds of the function behind it. Run it with nothing beside it: the seconds are the clock's.
"""
import os
import subprocess
import sys
import time

HERE = os.path.dirname(os.path.abspath(__file__))


def main():
    words, most = sys.argv[1:], 30
    if "--most" in words:
        at = words.index("--most")
        most = int(words[at + 1])
        del words[at : at + 2]
    found, last = [], time.monotonic()
    command = [sys.executable, os.path.join(HERE, "check_over.py"), *words, "--progress"]
    run = subprocess.Popen(command, stdout=subprocess.PIPE, stderr=subprocess.STDOUT, text=True)
    for line in run.stdout:
        if line.startswith("checked "):
            now = time.monotonic()
            found.append((now - last, line.split()[1].rstrip(",")))
            last = now
        elif line.startswith("logic=") or "error" in line:
            print(line.rstrip())
    found.sort(reverse=True)
    print(f"{len(found)} functions, {sum(seconds for seconds, _ in found):.0f} s; the first of them with all that is read before it")
    for seconds, name in found[:most]:
        print(f"{seconds:7.1f}  {name}")
    return run.wait()


if __name__ == "__main__":
    sys.exit(main())
