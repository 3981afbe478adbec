#!/usr/bin/env python3
"""Holds examples/check.py against `dtp check`: examples/check_test.py [PATH OF dtp] [COUNT]

Both judge the sources of the worked rows (crates/worked_rows/stdin), with the certificates that dtp writes for them, and COUNT
sources (5,000 where it isn't given) that are made from these by small changes. The line and the status must be the same. Each
difference is printed with the file of its input, and the last line says how many sources were compared.
"""

import os
import random
import re
import subprocess
import sys
import tempfile
from concurrent.futures import ThreadPoolExecutor

HERE = os.path.dirname(os.path.abspath(__file__))
sys.dont_write_bytecode = True
sys.path.insert(0, HERE)
import check  # noqa: E402

ROWS = os.path.join(HERE, "..", "crates", "worked_rows", "stdin")
COUNT = 5000
SEED = 1
THREADS = 2
BATCH = 200
MOST_CHANGES = 2
LONGEST_CHANGED = 5000      # longer sources are judged only as they are
LONGEST_TWICE = 100000      # longer ones are certified in one version alone


# ---- The rows ----

# What a row may have besides its words and its source: what comes of it, and how it is run.
IGNORED_KEYS = ("<", "<-", "status", "fails-anywhere", "cut-anywhere")
JUDGED_WORDS = ("check", "convert")
CERTIFIED_WORDS = ("solve", "certify")
# Thousands of cases, each of which check.py lists again for each sum or condition: minutes.
LEFT_OUT = (b"conditional terms 19", b"conditional terms 21")


class Row:
    """A worked row: the words of its command line, its source, and the words with which it is certified."""

    def __init__(self, name):
        self.name = name
        self.words = []
        self.source = b""
        self.certified = None
        self.is_understood = True

    def read(self, line):
        """One line of the row."""
        key, _, text = line.partition(b" ")
        key = key.decode()
        if key == ">":
            self.source += text + b"\n"
        elif key == ">-":
            self.source += text
        elif key == ">x":
            self.source += bytes.fromhex(text.decode())
        elif key == ">*":
            count, _, text = text.partition(b" ")
            self.source += b"".join(copy_of(text, number) + b"\n" for number in range(int(count)))
        elif key == "words":
            self.words = text.decode().split()
        elif key == "certified":
            self.certified = text.decode().split()
        elif key not in IGNORED_KEYS:
            self.is_understood = False


def copy_of(text, number):
    """The copy of this number, counted from 0: @0 is the number, @1 is one more, and so on."""
    return re.sub(rb"@([0-9])", lambda match: b"%d" % (number + int(match[1])), text)


def rows():
    """The rows that are understood and have a script."""
    found = []
    with open(ROWS, "rb") as file:
        for line in file.read().split(b"\n"):
            if line.startswith(b"row "):
                found.append(Row(line[4:]))
            elif line and not line.startswith(b"#"):
                found[-1].read(line)
    understood = [row for row in found if row.is_understood and row.words and row.name not in LEFT_OUT]
    return [row for row in understood if row.words[0] in JUDGED_WORDS + CERTIFIED_WORDS]


def run(dtp, words, source):
    """What dtp writes, and its status."""
    done = subprocess.run([dtp, *words], input=source, stdout=subprocess.PIPE, check=False)
    return done.stdout, done.returncode


def sources(dtp, pool):
    """The sources of the rows, each with the certificates that there are for it."""
    found, wanted = [], []
    for row in rows():
        if row.words[0] in JUDGED_WORDS and row.certified is None:
            found.append(row.source)
        elif row.certified is not None:
            wanted.append((row.source, row.certified))
        else:
            versions = "12" if len(row.source) <= LONGEST_TWICE else "1"
            wanted.extend((row.source, ["--workers", "1", "--format", version]) for version in versions)
    written = pool.map(lambda pair: run(dtp, ["certify", *pair[1]], pair[0])[0], wanted)
    return found + [source + certificate for (source, _), certificate in zip(wanted, written)]


# ---- Changes ----

WORDS = re.compile(rb'"(?:[^"]|"")*"|\|[^|]*\||[()]|[^\s()"|;]+|;[^\n]*')
NUMBERS = re.compile(rb"[0-9]+")
MOST_DIGITS = 100
SOME_BYTES = b"()|\"; 0123456789-xy\\\n"
SOME_NUMBERS = [0, 1, 2, 3, 4, 5, 7] + [2 ** power + more for power in (20, 32, 60, 61, 62, 64, 90) for more in (-1, 0, 1)]
# Words and lists to put into a source, with two blanks between them.
SOME_TEXTS = rb"""(  )  ()  sat  unsat  best  unbounded  lemma  keep  clash  input  either  cycle  -  (- 1)  (- 0)  true  false  0  1  2
|x|  x  y  p  (push)  (pop)  (push 2)  (pop 0)  (check-sat)  (minimize x)  (minimize (- y x))  (minimize 3)  (get-model)  (get-proof)
(get-unsat-core)  (check-sat-assuming ())  (check-sat-assuming (p))  (check-sat-assuming (p (not p)))  (check-sat-assuming ((not x)))
(check-sat-assuming (3))  (check-sat-assuming (false))  (get-unsat-assumptions)
(get-value (true))  (get-value (x))  (exit)  (end)  (dtp-certificate 1)  (dtp-certificate 2)  (assert false)
(assert true)  (assert (< x 0))  (declare-const z Int)  (declare-const r Bool)  (reset)  (reset-assertions)  and  or  not  xor  =>  ite
=  distinct  <=  <  >=  >  +  let  Int  Bool  :named  !  *  1.5  01  #b1  #x1  :  "s"  "s  ;  \  declare-const  assert  minimize
define-fun  (keep 1 0)  (clash 0)  (input 0)  (lemma 0)  (either 1 0 0)  (lemma ())  (cycle (0 0 (- 1)))  (unsat)  (sat)  (sat true)
(sat 0)  (set-info :a b)  (echo "a")  (ite p 1 2)  (not p)  (and p)"""


class Changer:
    """Makes changed sources from given ones."""

    def __init__(self, given, generator):
        self.given = given
        self.generator = generator
        self.texts = re.split(rb"  |\n", SOME_TEXTS)
        self.ways = [
            self.flip, self.cut, self.double, self.drop, self.swap_lines, self.drop_line, self.double_line, self.other_version,
            self.part_of_another] + 2 * [self.exchange, self.replace] + 6 * [self.number]

    def changed(self):
        """One changed source; half of the changes are in its certificate."""
        source = self.generator.choice(self.given)
        for _ in range(self.generator.randint(1, MOST_CHANGES)):
            way = self.generator.choice(self.ways)
            start = max(0, source.rfind(b"(dtp-certificate ")) if self.generator.random() < 0.5 else 0
            source = source[:start] + way(source[start:])
        return source

    def place(self, source):
        """A place in the source."""
        return self.generator.randrange(len(source) + 1)

    def part(self, source):
        """The start and the end of a word or a list."""
        places, opened = [], []
        for match in WORDS.finditer(source):
            if match[0] == b"(":
                opened.append(match.start())
            elif match[0] != b")":
                places.append(match.span())
            elif opened:
                places.append((opened.pop(), match.end()))
        return self.generator.choice(places) if places else (0, len(source))

    def flip(self, source):
        """One byte is another."""
        at = self.place(source)
        byte = self.generator.choice(SOME_BYTES) if self.generator.random() < 0.5 else self.generator.randrange(256)
        return source[:at] + bytes([byte]) + source[at + 1:]

    def cut(self, source):
        """A few bytes are gone, or all behind a place."""
        at = self.place(source)
        return source[:at] + (source[at + self.generator.randint(1, 9):] if self.generator.random() < 0.8 else b"")

    def double(self, source):
        """A piece stands twice."""
        start, end = sorted((self.place(source), self.place(source)))
        return source[:end] + source[start:]

    def drop(self, source):
        """A word or a list is gone."""
        start, end = self.part(source)
        return source[:start] + source[end:]

    def exchange(self, source):
        """Two words or lists stand in each other's place; of two in one another the outer one is the inner."""
        first, second = sorted((self.part(source), self.part(source)))
        middle = source[first[1]:second[0]] + source[first[0]:first[1]] if first[1] <= second[0] else b""
        return source[:first[0]] + source[second[0]:second[1]] + middle + source[max(first[1], second[1]):]

    def number(self, source):
        """A number is another, often the next one."""
        places = [match.span() for match in NUMBERS.finditer(source)]
        if not places:
            return source
        start, end = self.generator.choice(places)
        near = abs(int(source[start:end][:MOST_DIGITS]) + self.generator.choice((-1, 1)))
        number = near if self.generator.random() < 0.6 else self.generator.choice(SOME_NUMBERS)
        return source[:start] + b"%d" % number + source[end:]

    def replace(self, source):
        """A word or a list is another, or one more stands before it."""
        start, end = self.part(source)
        text = self.generator.choice(self.texts)
        return source[:start] + text + (b" " + source[start:] if self.generator.random() < 0.4 else source[end:])

    def part_of_another(self, source):
        """A word or a list is one of another source."""
        other = self.generator.choice(self.given)
        start, end = self.part(source)
        other_start, other_end = self.part(other)
        return source[:start] + other[other_start:other_end] + source[end:]

    def swap_lines(self, source):
        """Two lines stand in each other's place, of a certificate two entries."""
        lines = source.split(b"\n")
        first, second = self.generator.randrange(len(lines)), self.generator.randrange(len(lines))
        lines[first], lines[second] = lines[second], lines[first]
        return b"\n".join(lines)

    def drop_line(self, source):
        """A line is gone."""
        lines = source.split(b"\n")
        del lines[self.generator.randrange(len(lines))]
        return b"\n".join(lines)

    def double_line(self, source):
        """A line stands twice."""
        lines = source.split(b"\n")
        at = self.generator.randrange(len(lines))
        return b"\n".join(lines[:at + 1] + lines[at:])

    def other_version(self, source):
        """The header says the other version."""
        old, new = self.generator.choice(((b"1", b"2"), (b"2", b"1")))
        return source.replace(b"(dtp-certificate %s)" % old, b"(dtp-certificate %s)" % new)


# ---- The comparison ----

class Comparison:
    """Counts what was compared, and tells the differences."""

    def __init__(self, dtp, pool):
        self.dtp = dtp
        self.pool = pool
        self.directory = None
        self.compared = 0
        self.differences = 0
        self.answers = {}   # how often each answer came, but for its numbers

    def compare(self, given):
        """Both judge these sources."""
        for first in range(0, len(given), BATCH):
            batch = given[first:first + BATCH]
            theirs = self.pool.map(lambda source: run(self.dtp, ["check"], source), batch)
            for source, answer in zip(batch, theirs):
                self.tell(source, answer)

    def tell(self, source, theirs):
        """Compares one answer of dtp with that of check.py."""
        line, status = check.answer_to(source)
        kind = re.sub(r"[0-9]+", "N", line)
        self.answers[kind] = self.answers.get(kind, 0) + 1
        self.compared += 1
        if (line.encode() + b"\n", status) != theirs:
            self.differences += 1
            self.directory = self.directory or tempfile.mkdtemp(prefix="check_test.")
            path = os.path.join(self.directory, f"{self.differences}.smt2")
            with open(path, "wb") as file:
                file.write(source)
            print(f"{path}: check.py {line!r}, status {status}; dtp {theirs[0]!r}, status {theirs[1]}")


def main():
    """Compares, and says how many sources were compared."""
    dtp = sys.argv[1] if len(sys.argv) > 1 else "dtp"
    count = int(sys.argv[2]) if len(sys.argv) > 2 else COUNT
    with ThreadPoolExecutor(THREADS) as pool:
        comparison = Comparison(dtp, pool)
        given = sources(dtp, pool)
        comparison.compare(given)
        changer = Changer([source for source in given if len(source) <= LONGEST_CHANGED], random.Random(SEED))
        for made in range(0, count, BATCH):
            comparison.compare([changer.changed() for _ in range(min(BATCH, count - made))])
    print(f"{comparison.compared} sources compared, {len(given)} of the rows and {count} changed ones, with "
          f"{len(comparison.answers)} kinds of answers: {comparison.differences} differences")
    return 1 if comparison.differences else 0


if __name__ == "__main__":
    sys.exit(main())
