#!/usr/bin/env python3
"""Puts two counters into a workspace that translate.py wrote, of the questions of least values and of the conflicts:

    bench/native/count.py FOLDER

The program built of it says `questions Q conflicts C` on its standard error when it ends. The proved program counts neither.
"""
import os
import sys

COUNTERS = """
pub mod counted {
    use std::sync::atomic::{AtomicU64, Ordering::Relaxed};
    pub static QUESTIONS: AtomicU64 = AtomicU64::new(0);
    pub static CONFLICTS: AtomicU64 = AtomicU64::new(0);
    pub fn question() {
        QUESTIONS.fetch_add(1, Relaxed);
    }
    pub fn conflict() {
        CONFLICTS.fetch_add(1, Relaxed);
    }
    pub fn told() {
        eprintln!("questions {} conflicts {}", QUESTIONS.load(Relaxed), CONFLICTS.load(Relaxed));
    }
}
"""
# a place in a file, which stands there once, and what is put behind it
PLACES = [
    ("conflict_analysis/src/analysis.rs", "    let mut marks = begin(alloc, graph, levels, tables)?;\n", "    shim::counted::conflict();\n"),
    ("best_bound/src/questions.rs", "    'questions: while let Some(question) = descent.ask(alloc, problem, x, y)? {\n", "        shim::counted::question();\n"),
    ("dtp_main/src/main.rs", "    dtp_run::start()", "; shim::counted::told(); code"),
]


def main():
    folder = sys.argv[1]
    for name, place, more in PLACES:
        path = os.path.join(folder, name)
        with open(path, encoding="utf-8") as file:
            text = file.read()
        if text.count(place) != 1:
            sys.exit(f"{name}: the place isn't there once")
        begins = "    let code = dtp_run::start()" if place.startswith("    dtp_run") else place
        with open(path, "w", encoding="utf-8") as file:
            file.write(text.replace(place, begins + more))
    with open(os.path.join(folder, "shim", "src", "lib.rs"), "a", encoding="utf-8") as file:
        file.write(COUNTERS)
    with open(os.path.join(folder, "dtp_main", "Cargo.toml"), "r+", encoding="utf-8") as file:
        if "shim" not in file.read():
            file.write('shim = { path = "../shim" }\n')


if __name__ == "__main__":
    main()
