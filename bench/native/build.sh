#!/usr/bin/env bash
# Builds dtp, or the search alone, without its clauses and proofs by cargo: bench/native/build.sh FOLDER [dtp_main | worked_rows | search_bench] [--counted]
# The program is FOLDER/target/release/dtp_main (or whichever); bench/native/translate.py says what may be read off it. With --counted it says
# how many questions of least values it asked, and how many conflicts it met (bench/native/count.py).
set -eu
here=$(cd "$(dirname "$0")" && pwd)
folder=${1:?"a folder to build in"}
python3 "$here/translate.py" "$folder" "${2:-dtp_main}"
if [ "${3:-}" = --counted ]; then
    python3 "$here/count.py" "$folder"
fi
cd "$folder" && cargo build --release --offline
