#!/usr/bin/env python3
"""Runs the blocks of docs/TUTORIAL.md, and compares what they print with what is shown: examples/tutorial_test.py [PATH OF dtp]

A block stands between lines of three backquotes, and the first of them says what it is:

    smt2 NAME                    a script
    certificate NAME of SCRIPT   a certificate for it
    python NAME                  a program, with dtp.py beside it and dtp on the path
    numbers NAME                 a job shop
    answer of NAME: WORD         what is printed, to the byte, when that block is run

WORD is solve or certify for a script, python for a program, and check for a certificate behind its script, or for a script with the
certificate that dtp writes for it. For a job shop it is jobshop, gantt for the chart of the plan that this prints, or check for its
script and its certificate. A block of another kind is a fault, and so is one without an answer. It prints each fault, and then ends
with status 1.
"""
import difflib
import os
import re
import shutil
import subprocess
import sys
import tempfile

HERE = os.path.dirname(os.path.abspath(__file__))
PAGE = os.path.join(os.path.dirname(HERE), "docs", "TUTORIAL.md")
BLOCK = re.compile(r"^```(.*)\n((?:(?!```).*\n)*)```$", re.MULTILINE)
INPUT = re.compile(r"(smt2|certificate|python|numbers) (\w+)(?: of (\w+))?")
ANSWER = re.compile(r"answer of (\w+): (solve|certify|check|python|jobshop|gantt)")
# what a block of each kind is run by
WORDS = {"smt2": ("solve", "certify", "check"), "certificate": ("check",), "python": ("python",), "numbers": ("jobshop", "gantt", "check")}


def printed(words, source, folder):
    """What the words print; dtp is first on the path, and dtp.py is found."""
    environment = dict(os.environ, PATH=folder + os.pathsep + os.environ["PATH"], PYTHONPATH=HERE, PYTHONDONTWRITEBYTECODE="1")
    return subprocess.run(words, input=source, stdout=subprocess.PIPE, text=True, env=environment).stdout


def answer(inputs, name, word, folder):
    """What is printed when the block of this name is run."""
    kind, text, script = inputs[name]
    if word not in WORDS[kind]:
        return f"a {kind} block isn't run by {word}\n"
    if kind == "python":
        return printed([sys.executable, "-c", text], "", folder)
    if kind == "numbers":
        return answer_of_shop(name, text, word, folder)
    if kind == "certificate":
        text = inputs[script][1] + text
    elif word == "check":
        text += printed(["dtp", "certify"], text, folder)
    return printed(["dtp", word], text, folder)


def answer_of_shop(name, text, word, folder):
    """The same for a job shop."""
    if word == "check":
        emitted = [printed(["dtp", "jobshop", "--emit", part], text, folder) for part in ("script", "certificate")]
        return printed(["dtp", "check"], "".join(emitted), folder)
    plan = printed(["dtp", "jobshop"], text, folder)
    if word == "jobshop":
        return plan
    path = os.path.join(folder, f"{name}.txt")
    with open(path, "w", encoding="utf-8") as file:
        file.write(text)
    return printed([sys.executable, os.path.join(HERE, "gantt.py"), "--text", path, "-"], plan, folder)


def differences(page, folder):
    """What is wrong with the page, a text each, and how many answers were compared."""
    inputs, open_inputs, wrong, compared = {}, set(), [], 0
    for info, text in BLOCK.findall(page):
        made, shown = INPUT.fullmatch(info), ANSWER.fullmatch(info)
        if made:
            inputs[made[2]] = made[1], text, made[3]
            open_inputs.add(made[2])
        elif shown and shown[1] in inputs:
            found, compared = answer(inputs, shown[1], shown[2], folder), compared + 1
            open_inputs.discard(shown[1])
            if found != text:
                lines = difflib.unified_diff(text.splitlines(), found.splitlines(), "shown", "printed", lineterm="")
                wrong.append("\n".join([info, *lines]))
        else:
            wrong.append(f"no such block, or nothing before it to run: {info}")
    wrong += [f"nothing is shown of {name}" for name in sorted(open_inputs)]
    if page.count("\n```") != 2 * len(BLOCK.findall(page)) or not compared:
        wrong.append("a block isn't closed, or there is none")
    return wrong, compared


def main():
    program = shutil.which(sys.argv[1] if len(sys.argv) > 1 else "dtp")
    if program is None:
        sys.exit("dtp isn't there")
    with open(PAGE, encoding="utf-8") as file, tempfile.TemporaryDirectory() as folder:
        os.symlink(os.path.abspath(program), os.path.join(folder, "dtp"))
        wrong, compared = differences(file.read(), folder)
    print(*wrong, f"{compared} answers of the tutorial compared, {len(wrong)} faults", sep="\n")
    return 1 if wrong else 0


if __name__ == "__main__":
    sys.exit(main())
