#!/usr/bin/env python3
"""Checks a crate, or single functions of it, over libraries that were built before, wherever they stand.

    bench/check_over.py CRATE --keep FOLDER [--over CLONE ..] [--build] [FLAG ..]

`rt check` in a clone proves all that stands below a crate anew. This takes each library from FOLDER, or else from `crates/NAME/out/rlib`
of a clone in which `rt ci` has run, or from the kit; what none of them has is read as source, so `--only` can do before the libraries below
are proved (for functions that call nothing of theirs; reading them takes a minute and more). What a check leaves for the next one goes to FOLDER too, and with
`--build` the proved library, for the crates above. Each FLAG goes to `rattle check`: `--only=PATH`, `--allow-holes`, `--fix-imports`, `--jobs=4`.
It is no verdict of the gate's.
"""
import os
import subprocess
import sys

TOP = os.path.dirname(os.path.dirname(os.path.abspath(__file__)))
KIT = "/opt/rattle"


def dependencies():
    """Of each crate of the repository the names behind its colon."""
    found = {}
    with open(os.path.join(TOP, "crates.txt"), encoding="utf-8") as lines:
        for line in lines:
            head, colon, tail = line.split("#")[0].partition(":")
            if colon:
                found[head.split()[0]] = tail.split()
    return found


def below(name, uses, seen):
    """The crates below this one, each behind those that it uses."""
    for used in uses.get(name, []):
        if used not in seen:
            below(used, uses, seen)
            seen.append(used)
    return seen


def built(name, keep, clones):
    """The folder of the built library, where there is one."""
    places = [os.path.join(keep, "rlib")] + [os.path.join(clone, "crates", name, "out", "rlib") for clone in clones] + [os.path.join(KIT, "rlibs")]
    return next((place for place in places if os.path.isdir(os.path.join(place, name + ".rlib"))), None)


def words_of(crate, keep, clones, build, flags):
    uses = dependencies()
    direct = ["std", *uses[crate]]
    libraries = below(crate, uses, [])
    places = {name: built(name, keep, clones) for name in ["std", *libraries]}
    as_source = [name for name in libraries if name in uses and places[name] is None]
    if build and as_source:
        sys.exit(f"not built yet: {', '.join(as_source)}")
    named = dict.fromkeys(direct + [used for name in as_source for used in uses[name]])
    root = "main.rt" if os.path.exists(os.path.join(TOP, "crates", crate, "src", "main.rt")) else "lib.rt"
    words = [os.path.join(KIT, "bin", "rattle"), "build" if build else "check", "--crate-name", crate, os.path.join("src", root)]
    for name in named:
        if places[name]:
            words += ["--extern", f"{name}={places[name]}/{name}.rlib"]
    for name in as_source:
        words += ["--lib", f"{name}:std,{','.join(uses[name])}={TOP}/crates/{name}/src/lib.rt"]
    for place in sorted({place for place in places.values() if place}):
        words += ["-L", f"dependency={place}"]
    words += ["--antt-project", f"{KIT}/rattle/logic/antt-project.json", "--logic-built", f"{KIT}/logic_built"]
    words += ["--incremental", os.path.join(keep, "kept", crate), "--links", f"{crate}="]
    return words + (["-o", os.path.join(keep, "rlib", crate + ".rlib")] if build else []) + flags


def main():
    crate, keep, clones, build, flags = None, None, [], False, []
    left = sys.argv[1:]
    while left:
        word = left.pop(0)
        if word == "--keep":
            keep = os.path.abspath(left.pop(0))
        elif word == "--over":
            clones.append(os.path.abspath(left.pop(0)))
        elif word == "--build":
            build = True
        elif word.startswith("--"):
            flags.append(word)
        else:
            crate = word
    if crate is None or keep is None:
        sys.exit(__doc__)
    for folder in ("rlib", os.path.join("kept", crate)):
        os.makedirs(os.path.join(keep, folder), exist_ok=True)
    return subprocess.run(words_of(crate, keep, clones, build, flags), cwd=os.path.join(TOP, "crates", crate)).returncode


if __name__ == "__main__":
    sys.exit(main())
