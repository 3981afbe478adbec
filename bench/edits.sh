#!/usr/bin/env bash
# Tries the must-fail edits that stand outside of the gate, under edits/CRATE: each is put into a copy of the repository, where the
# prover must refuse it.
#
#   bench/edits.sh [--gate] CRATE ..     (--gate: those in the gate as well; no CRATE: all that have any)
#
# It prints of each edit whether it was refused, and for what, and ends with status 1 where one wasn't. The copy stands in $TMPDIR
# (/tmp), keeps what the crates' own checks proved here, and is removed. A crate takes the time of its check and up to a minute for each edit.
set -eu
top=$(cd "$(dirname "$0")/.." && pwd)
gate=no
if [ "${1:-}" = --gate ]; then
    gate=yes
    shift
fi
if [ $# -eq 0 ]; then
    set -- $(ls "$top/edits")
fi
copy=$(mktemp -d)
trap 'rm -rf "$copy"' EXIT
cp -a "$top/crates" "$top/crates.txt" "$top/HANDLES" "$copy/"
(cd "$copy" && git init -q .)
rm -rf "$copy"/crates/*/must-fail
for crate in "$@"; do
    mkdir -p "$copy/crates/$crate/must-fail"
    for edit in "$top/edits/$crate"/*.edit; do
        [ -e "$edit" ] && cp "$edit" "$copy/crates/$crate/must-fail/"
    done
    if [ "$gate" = yes ]; then
        for edit in "$top/crates/$crate/must-fail"/*.edit; do
            [ -e "$edit" ] && cp "$edit" "$copy/crates/$crate/must-fail/"
        done
    fi
done
log=$copy/log
status=0
(cd "$copy" && rt must-fail "$@") >"$log" 2>&1 || status=1
cat "$log"
exit $status
