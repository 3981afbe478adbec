#!/usr/bin/env python3
"""Sends `dtp` scripts, certificates and job shops that were spoiled, and holds each answer against what it may be.

    bench/hostile.py [COUNT [SEED [PATH OF dtp]]]

The scripts are the examples and those of the worked rows, the job shops one of the examples and those of the rows; `certify` makes the certificates. Each run takes one of
them, spoils it (bytes flipped, parts cut, doubled, exchanged, numbers put at the limits, parentheses opened by the thousand), and asks `solve`, `certify`, `check`, `convert` or `jobshop`. An answer is
legal where the status is one that the words may have, no signal ended the run, the last line is of the form that the status wants, and the
run stayed within TIME seconds and MEMORY bytes. It prints each answer that isn't legal, with the input in a file beside, and fails then.
"""
import os
import random
import re
import subprocess
import sys
import tempfile
import time

TOP = os.path.dirname(os.path.dirname(os.path.abspath(__file__)))
BUILT = os.path.join(TOP, "crates", "dtp_main", "out", "dtp_main")
TIME = 20
MEMORY = 400 << 20
KINDS = (
    r"bad byte|unclosed string|unclosed quoted symbol|leading zero|unclosed list|stray close|unknown command|ill-formed command|"
    r"logic not supported|already declared|too many names|too many levels|pop below the bottom|no model|no proof|no core|no assumptions|unknown symbol|ill-formed term|too many cases|"
    r"wrong count of arguments|wrong sort|not a difference|bound too large|objective too large|too large|left out: [!-~]+?"
)
ERROR = re.compile(rb'\(error "command [1-9][0-9]*: (' + KINDS.encode() + rb')"\)\n\Z')
NUMBER = re.compile(rb'\(error "number [1-9][0-9]*: (not a number|out of range|machine twice|too few numbers|too many numbers)"\)\n\Z')
PLAN = re.compile(rb"makespan [0-9]+\n(job [0-9]+:( [0-9]+)+\n)+\Z")
FLAWS = (
    r"no such point|no such clause|not assumed|not a cycle|not denied|no such kept lemma|not active|steps missing|steps left over"
)
CHECKED = re.compile(
    (
        r"accepted\n\Z|refused: (script: command [1-9][0-9]*: (" + KINDS + r")|"
        r"certificate: (no header|entry [1-9][0-9]* is ill-formed|no end|text after the end)|"
        r"entry [1-9][0-9]*: (missing|surplus|wrong kind of entry|wrong count of values|value [1-9][0-9]* has the wrong sort|"
        r"assertion [1-9][0-9]* is false|value is not attained|value is out of range|no such point|set is not of the objective|clause [0-9]+ is not kept|last lemma not empty|lemma [0-9]+: step [0-9]+: (" + FLAWS + r")))\n\Z"
    ).encode()
)
KEPT = b"""(declare-const p Bool) (assert (not p)) (push 1) (assert p) (check-sat) (pop 1) (assert p) (check-sat) (check-sat)
(dtp-certificate 2)
(unsat (lemma () (input 0) (clash 1)))
(unsat (lemma () (input 0) (clash 1)))
(unsat (keep 2 0))
(end)
"""
LIMITS = [2**k + d for k in (16, 20, 31, 32, 40, 60, 61, 62, 63, 64, 90, 128) for d in (-1, 0, 1)] + [0, 1, 4096, 65535, 65537]


def worked_sources(*commands):
    """The sources of the rows that ask for one of these commands and are written as they are."""
    script, words = [], ""
    with open(os.path.join(TOP, "crates", "worked_rows", "stdin"), encoding="utf-8") as rows:
        for line in rows:
            if line.startswith("row "):
                if words in commands and script:
                    yield "\n".join(script).encode()
                script, words = [], ""
            elif line.startswith("words "):
                words = line[6:].strip()
            elif line.startswith(("> ", ">- ")):
                script.append(line.split(" ", 1)[1].rstrip("\n"))


def scripts():
    for name in sorted(os.listdir(os.path.join(TOP, "examples"))):
        if name.endswith(".smt2"):
            with open(os.path.join(TOP, "examples", name), "rb") as text:
                yield text.read()
    yield from (s for s in worked_sources("solve", "certify") if len(s) < 4096)


def shops():
    with open(os.path.join(TOP, "examples", "jobshop", "ft06.txt"), "rb") as text:
        yield text.read()
    yield from worked_sources("jobshop", "jobshop --workers 1")


def run(program, words, source):
    """The status, the output, the seconds and the memory of one run; a run over the time is killed."""
    with tempfile.TemporaryFile() as given, tempfile.TemporaryFile() as taken:
        given.write(source)
        given.seek(0)
        start = time.monotonic()
        process = subprocess.Popen([program, *words], stdin=given, stdout=taken, stderr=subprocess.DEVNULL)
        while True:
            pid, status, usage = os.wait4(process.pid, os.WNOHANG)
            if pid:
                break
            if time.monotonic() - start > TIME:
                process.kill()
            time.sleep(0.0005)
        process.returncode = os.waitstatus_to_exitcode(status)
        taken.seek(0)
        return process.returncode, taken.read(), time.monotonic() - start, usage.ru_maxrss << 10


def cut(chance, text):
    low = chance.randrange(len(text) + 1)
    return low, min(len(text), low + chance.choice((1, 1, 2, 8, 64)))


def spoiled(chance, text):
    for _turn in range(chance.choice((1, 1, 1, 2, 4))):
        low, high = cut(chance, text)
        part = text[low:high]
        kind = chance.randrange(8)
        if kind == 0 and part:
            place = chance.randrange(len(part))
            part = part[:place] + bytes([part[place] ^ (1 << chance.randrange(8))]) + part[place + 1 :]
        elif kind == 1:
            part = b""
        elif kind == 2:
            part = part * chance.choice((2, 3, 50))
        elif kind == 3:
            first, second = cut(chance, text)
            part = text[first:second]
        elif kind == 4:
            part = b"(" * chance.choice((1, 2, 1000)) + part
        elif kind == 5:
            part = part + b")" * chance.choice((1, 2, 1000))
        elif kind == 6:
            part = bytes(chance.randrange(256) for _ in range(chance.choice((1, 3))))
        else:
            numbers = list(re.finditer(rb"[0-9]+", text))
            if numbers:
                number = chance.choice(numbers)
                low, high, part = number.start(), number.end(), str(chance.choice(LIMITS)).encode()
        text = text[:low] + part + text[high:]
    return text


def is_legal(command, status, output, seconds, memory):
    if seconds > TIME or memory > MEMORY:
        return False
    if command == "convert" and status == 0:
        return output.startswith(b"(dtp-certificate 1)\n") and output.endswith((b"(end)\n", b'")\n'))
    if command in ("check", "convert"):
        return status in (0, 6) and CHECKED.match(output) is not None and (output == b"accepted\n") == (status == 0)
    if command == "jobshop":
        return status in (0, 1) and (PLAN, NUMBER)[status].match(output) is not None
    if status == 1:
        return ERROR.search(output) is not None
    return status == 0 and (not output or output.endswith(b"\n"))


def main():
    count = int(sys.argv[1]) if len(sys.argv) > 1 else 10_000
    chance = random.Random(int(sys.argv[2]) if len(sys.argv) > 2 else 1)
    program = sys.argv[3] if len(sys.argv) > 3 else BUILT
    texts, numbers = list(scripts()), list(shops())
    pairs = []
    for text in texts:
        for version in "1", "2":
            status, certificate, _, _ = run(program, ["certify", "--format", version], text)
            if status == 0:
                pairs.append(text + b"\n" + certificate)
    pairs += [KEPT] * (len(pairs) // 8)
    told, bad, greatest, longest = {}, 0, 0, 0.0
    for number in range(count):
        command = chance.choice(("solve", "certify", "check", "check", "convert", "jobshop"))
        source = spoiled(chance, chance.choice(numbers if command == "jobshop" else pairs if command in ("check", "convert") else texts))
        status, output, seconds, memory = run(program, [command], source)
        told[command, status] = told.get((command, status), 0) + 1
        greatest, longest = max(greatest, memory), max(longest, seconds)
        if not is_legal(command, status, output, seconds, memory):
            bad += 1
            path = os.path.join(tempfile.gettempdir(), f"hostile_{number}.{command}")
            with open(path, "wb") as out:
                out.write(source)
            print(f"{path}: status {status}, {seconds:.1f} s, {memory >> 20} MB, ends with {output[-100:]!r}")
    print(f"{count} runs over {len(texts)} scripts, {len(numbers)} job shops and {len(pairs)} pairs, {bad} answers not legal; at most {greatest >> 20} MB and {longest:.2f} s")
    print(", ".join(f"{command} {status}: {times}" for (command, status), times in sorted(told.items())))
    sys.exit(1 if bad else 0)


main()
