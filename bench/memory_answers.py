#!/usr/bin/env python3
"""Finds each place where the sources answer want of memory, and compares them with the table in docs/PROOFS.md.

    bench/memory_answers.py

Every contract allows a call to answer that there is no memory. So a limit in the wrong place, which answers it with memory
at hand, is no broken contract, and each such place is to be looked at by a person. A place that only hands on what a call
answered isn't listed: a conversion (`impl From`, `AllocError::from(error)`), or an arm whose pattern is itself want of memory.

It prints the places that the table lacks, and the rows whose place is gone, and ends with 1 where there is one.
"""

import os
import re
import sys

TOP = os.path.dirname(os.path.dirname(os.path.abspath(__file__)))
TABLE = os.path.join(TOP, "docs", "PROOFS.md")
HEADING = "## Where want of memory is answered"
ANSWER = re.compile(r"\bAllocError\b(?!::from|>)|\bAllocFailed\b(?!::from|<)|\b\w+::OutOfMemory\b")
FUNCTION = re.compile(r"\bfn (\w+)")
PATTERN = re.compile(r"\blet [^=]*=(?!=)")
CLAUSE = re.compile(r"^\s*(//|ghost\b|use\b|type\b|requires\b|ensures\b|pub use\b|#\[)")


def answers(line):
    """Whether the line answers want of memory that no call on its left answered."""
    if CLAUSE.match(line) or "->" in line or line.lstrip().startswith(("impl", ") -> ")):
        return False
    pattern, arrow, value = PATTERN.sub("", line).rpartition("=>")
    if arrow and ANSWER.search(pattern):
        return False
    return bool(ANSWER.search(value))


def places_in(path):
    """The names of the functions in the file that answer it, one for each such line."""
    function, converting = None, False
    for line in open(path, encoding="utf-8"):
        line = line.rstrip("\n")
        if line.startswith("impl") and " From<" in line:
            converting = True
        elif line == "}":
            converting = False
        found = FUNCTION.search(line)
        if found and not line.lstrip().startswith("//"):
            function = found.group(1)
        if not converting and function and answers(line):
            yield function


def found_places():
    """(file, function) and how often."""
    places = {}
    crates = os.path.join(TOP, "crates")
    for folder, _, files in sorted(os.walk(crates)):
        parts = os.path.relpath(folder, crates).split(os.sep)
        if len(parts) < 2 or parts[1] != "src" or parts[0].endswith("_tests"):
            continue
        for name in sorted(files):
            if name.endswith(".rt") and not name.endswith("tests.rt"):
                path = os.path.join(folder, name)
                for function in places_in(path):
                    key = (os.path.relpath(path, crates), function)
                    places[key] = places.get(key, 0) + 1
    return places


def listed_places():
    """The same, by the table's rows: | file | function | lines | why |"""
    places, inside = {}, False
    for line in open(TABLE, encoding="utf-8"):
        if line.startswith("## "):
            inside = line.strip() == HEADING
        cells = [cell.strip().strip("`") for cell in line.strip().strip("|").split("|")]
        if inside and len(cells) == 4 and cells[2].isdigit():
            places[(cells[0], cells[1])] = int(cells[2])
    return places


def main():
    found, listed = found_places(), listed_places()
    bad = False
    for (path, function), count in sorted(found.items()):
        if listed.get((path, function)) != count:
            bad = True
            print(f"{path}: {function}: {count} lines answer want of memory, the table says {listed.get((path, function), 0)}")
    for (path, function) in sorted(listed):
        if (path, function) not in found:
            bad = True
            print(f"{path}: {function}: in the table, and no longer in the sources")
    if not bad:
        print(f"{sum(found.values())} places, each in the table")
    return 1 if bad else 0


if __name__ == "__main__":
    sys.exit(main())
