#!/usr/bin/env python3
"""Strips the clauses off the sources of a program and of what it stands on, and writes a cargo workspace of them, to be tried and measured before
it is proved.

    bench/native/translate.py FOLDER PROGRAM ..

What rustc builds of it is the same code as the proved program (the counts of lemmas are the same), not the proved program: its times show
which of two forms is faster, and no more. std's types that take an allocator, and the libraries, are those of shim/, some pages of stand-ins;
own/ has whole files in place of those that speak with the process or with `clap` (the command line there takes no fault but plain ones).
bench/native/build.sh calls it.
"""
import os
import re
import sys

HERE = os.path.dirname(os.path.abspath(__file__))
TOP = os.path.dirname(os.path.dirname(HERE))
WORD = re.compile(r"[A-Za-z_][A-Za-z0-9_]*")
CHARACTER = re.compile(r"'(\\.|[^\\'])'")
MODEL = re.compile(r"impl(<[^>]*>)? (Model|Drop) for")
PROFILE = 'opt-level = 3\ndebug = 1\nlto = "fat"\ncodegen-units = 1\npanic = "abort"\noverflow-checks = false\n'
# what std has with an allocator, by the stand-in
STAND_INS = [
    (r"#!?\[tactic\([^\]]*\)\]", ""),
    (r"#\[cycle\([^\]]*\)\]", ""),
    (r"#\[derive\(Drop\)\]", ""),
    (r"(#\[derive\([^\]]*), Drop\)\]", r"\1)]"),
    (r"vec!\[in ", "shim::vec_in![in "),
    (r"\bBox::new\(alloc,", "shim::box_in(alloc,"),
    (r"use std::alloc::([^;]*);", r"use shim::\1;"),
    (r"use std::collections::(HashMap|BinaryHeap);", r"use shim::\1;"),
    (r"use std::marker::(Model|Drop);", ""),
    (r"use std::sync::Arc;", "use shim::Arc;"),
    (r"use std::sync::\{Arc, Wait\};", "use shim::{Arc, sync::Wait};"),
    (r"use std::(sync::Wait|thread|thread::\w+|thread::\{[\w, ]+\}|snapshot::\w+);", r"use shim::\1;"),
    (r"use (atomic_table|crossbeam_deque)::", r"use shim::\1::"),
    (r"\batomic_table::Seat", "shim::atomic_table::Seat"),
    (r"use indexmap::(\w+);", r"use shim::\1;"),
    (r"use smallvec::(\w+);", r"use shim::\1;"),
    (r"use (bstr::ByteSlice|bstr::ByteVec|itoa::Buffer|itoa::\{Buffer, write_digits\});", r"use shim::\1;"),
    (r"\bformat!\(in alloc;", "shim::format_in!(in alloc;"),
    (r"\.to_string\(alloc\)", ".to_string_in(alloc)"),
    (r"\bfirsts\.get\(clause\.as_slice\(\)\)", "firsts.get(&clause.as_slice())"),
    (r"\.(try_)?collect\(", r".\1collect_in("),
    (r"\b(\w+): Drop\b", r"\1"),
    (r" \+ Drop\b", ""),
    (r"\b(trait \w+) {", r"\1: Sized {"),
    (r"println!\(rt;\s+", "println!("),
]
# and what a program has of its process
PROCESS = [
    (r"fn main\(rt: HostRuntime\) -> io::Result<\(\)> {", "fn main() -> Result<(), AllocError> { let rt = shim::Host;"),
    (r"(println!\([^;]*\))\?;", r"\1;"),
    (r"rt\.reader\(\)\.read_to_end\(&mut bytes\)\?", "shim::read_all(&mut bytes)"),
    (r"env::args\(&rt\)", "shim::args()"),
]


def behind_space(text, i):
    while i < len(text) and text[i].isspace():
        i += 1
    return i


def behind_braces(text, i):
    """The place behind the block that begins here."""
    depth = 0
    while True:
        depth += {"{": 1, "}": -1}.get(text[i], 0)
        i += 1
        if depth == 0:
            return i


def behind_clause(text, i):
    """The place behind a clause whose first word ends here; none where it is no clause."""
    i = behind_space(text, i)
    name = WORD.match(text, i)
    if name:
        i = behind_space(text, name.end())
    return behind_braces(text, i) if text.startswith("{", i) else None


def behind_ghost(text, i):
    """The place behind a ghost item whose first word ends here."""
    i = behind_space(text, i)
    if text.startswith("use", i):
        return text.index(";", i) + 1
    end = behind_braces(text, text.index("{", i))
    after = behind_space(text, end)
    return after + 1 if text[after : after + 1] in (",", ";") else end


def behind_text(text, i):
    """The place behind the string that begins here."""
    i += 1
    while text[i] != '"':
        i += 2 if text[i] == "\\" else 1
    return i + 1


def token(text, i):
    """What stands at the place in Rust's words, and the place behind it."""
    if text.startswith("//", i):
        end = text.find("\n", i)
        end = len(text) if end < 0 else end
        return text[i:end], end
    if text[i] == '"':
        end = behind_text(text, i)
        return text[i:end], end
    character = CHARACTER.match(text, i)
    if character:
        return character.group(0), character.end()
    word = WORD.match(text, i)
    if not word:
        return text[i], i + 1
    name, end = word.group(0), word.end()
    if name in ("requires", "ensures"):
        clause = behind_clause(text, end)
        if clause:
            return "", clause
    if name == "ghost":
        return "", behind_ghost(text, end)
    if name == "pub" and text[end:].lstrip().startswith("ghost "):
        return "", behind_ghost(text, text.index("ghost", end) + 5)
    if name == "impl" and MODEL.match(text, i):
        return "", behind_braces(text, text.index("{", i))
    return name, end


def translated(text, is_program):
    pieces, i = [], 0
    while i < len(text):
        piece, i = token(text, i)
        pieces.append(piece)
    text = "".join(pieces)
    for pattern, replacement in STAND_INS + (PROCESS if is_program else []):
        text = re.sub(pattern, replacement, text)
    lines = text.split("\n")
    head = next((k for k, line in enumerate(lines) if line.strip() and not line.startswith("//!")), len(lines))
    return lines[:head], lines[head:]


def libraries_of(name):
    with open(os.path.join(TOP, "crates.txt"), encoding="utf-8") as lines:
        for line in lines:
            crate, _, libraries = line.split("#")[0].partition(":")
            if crate.split()[:1] == [name]:
                return libraries.split()
    sys.exit(f"crates.txt has no {name}")


def write(path, text):
    os.makedirs(os.path.dirname(path), exist_ok=True)
    if not os.path.exists(path) or open(path, encoding="utf-8").read() != text:
        with open(path, "w", encoding="utf-8") as out:
            out.write(text)


def write_crate(folder, name, crates):
    libraries = "".join(f'{library} = {{ path = "../{library}" }}\n' for library in libraries_of(name) if library in crates)
    write(
        os.path.join(folder, name, "Cargo.toml"),
        f'[package]\nname = "{name}"\nversion = "0.1.0"\nedition = "2024"\n[dependencies]\nshim = {{ path = "../shim" }}\n{libraries}',
    )
    source = os.path.join(TOP, "crates", name, "src")
    for file in sorted(os.listdir(source)):
        if file == "tests.rt":
            continue
        root = file in ("lib.rt", "main.rt")
        with open(os.path.join(source, file), encoding="utf-8") as text:
            head, rest = translated(text.read(), file == "main.rt")
        allow = ["#![allow(warnings)]"] if root else []
        lines = head + allow + ["use shim::{CollectIn as _, String, ToStringIn as _, Vec};"] + rest
        text = "\n".join(lines)
        own = os.path.join(HERE, "own", name, file[:-3] + ".rs")
        if os.path.exists(own):
            with open(own, encoding="utf-8") as stand_in:
                text = stand_in.read()
        write(os.path.join(folder, name, "src", file[:-3] + ".rs"), text)


def crates_below(names):
    """The crates of the repository that these stand on, and themselves."""
    found, open_names = [], list(names)
    while open_names:
        name = open_names.pop()
        if name not in found and os.path.isdir(os.path.join(TOP, "crates", name)):
            found.append(name)
            open_names += libraries_of(name)
    return sorted(found)


def main():
    folder, crates = sys.argv[1], crates_below(sys.argv[2:])
    members = ", ".join(f'"{name}"' for name in crates + ["shim"])
    write(os.path.join(folder, "Cargo.toml"), f'[workspace]\nresolver = "2"\nmembers = [{members}]\n[profile.release]\n{PROFILE}')
    for name in crates:
        write_crate(folder, name, crates)
    for file, place in (("Cargo.toml", "Cargo.toml"), ("lib.rs", "src/lib.rs")):
        with open(os.path.join(HERE, "shim", file), encoding="utf-8") as text:
            write(os.path.join(folder, "shim", place), text.read())


main()
