#!/usr/bin/env python3
"""Puts certificates of both versions side by side.

    bench/versions.py FOLDER [PATH OF dtp]

For each script `FOLDER/*.smt2`, with one worker: the processor seconds of `solve`, of `certify`, `check` and `convert` by version, the bytes
of the certificates, and the greatest resident memory of `check`. It fails where a certificate isn't accepted behind its script, or what it
is converted to isn't.
"""

import glob
import os
import subprocess
import sys
import tempfile

TOP = os.path.dirname(os.path.dirname(os.path.abspath(__file__)))
BUILT = os.path.join(TOP, "crates", "dtp_main", "out", "dtp_main")


def run(dtp, words, sources, out):
    """The status, the processor seconds and the MB of a run over these files one behind the other."""
    with open(out, "wb") as sink:
        child = subprocess.Popen([dtp] + words, stdin=subprocess.PIPE, stdout=sink)
        for name in sources:
            with open(name, "rb") as source:
                while chunk := source.read(1 << 20):
                    child.stdin.write(chunk)
        child.stdin.close()
        _, status, usage = os.wait4(child.pid, 0)
    return os.waitstatus_to_exitcode(status), usage.ru_utime + usage.ru_stime, usage.ru_maxrss / 1024


def accepted(dtp, script, certificate, line):
    status, seconds, memory = run(dtp, ["check"], [script, certificate], line)
    with open(line, "rb") as text:
        if status != 0 or text.read() != b"accepted\n":
            sys.exit(f"{script}: not accepted")
    return seconds, memory


def main():
    if len(sys.argv) not in (2, 3):
        sys.exit(__doc__)
    dtp = sys.argv[2] if len(sys.argv) == 3 else BUILT
    print("| Script | solve | version | certify | bytes | check | MB | convert |\n|---|---|---|---|---|---|---|---|")
    with tempfile.TemporaryDirectory() as folder:
        line, anew = os.path.join(folder, "line"), os.path.join(folder, "anew")
        for script in sorted(glob.glob(os.path.join(sys.argv[1], "*.smt2"))):
            _, solved, _ = run(dtp, ["solve", "--workers", "1"], [script], line)
            for version in ("1", "2"):
                certificate = os.path.join(folder, version)
                _, written, _ = run(dtp, ["certify", "--workers", "1", "--format", version], [script], certificate)
                checked, memory = accepted(dtp, script, certificate, line)
                status, converted, _ = run(dtp, ["convert"], [script, certificate], anew)
                if status != 0:
                    sys.exit(f"{script}: not converted")
                accepted(dtp, script, anew, line)
                name = os.path.basename(script) if version == "1" else ""
                print(f"| {name} | {solved:.2f} | {version} | {written:.2f} | {os.path.getsize(certificate):,} | {checked:.2f} | {memory:.0f} | {converted:.2f} |", flush=True)


if __name__ == "__main__":
    main()
