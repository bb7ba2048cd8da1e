#!/bin/sh
# A first look at the program, without a proof: it is compiled once, and then runs a trial, makes a store, and runs the script counters.txt over a store.
#
# `rt try` proves nothing and keeps no file: each run has a new folder, which is gone when the run has ended. So the store that `make` makes here can't be
# run over, and the last run gets an empty store that is written below, byte for byte as docs/ARCHITECTURE.md has it; what it writes is gone too.
# The first lines say what was compiled, `proved=no` that nothing was proved. With examples/first_run.sh the store is proved, and stays.
set -e
here=$(cd "$(dirname "$0")" && pwd)
begun=$(date +%s)
room=$(mktemp -d)
trap 'rm -rf "$room"' EXIT
mkdir "$room/cases"

python3 - "$room/empty.blsm" <<'END'
import struct, sys

half, ratio, low, quantum, length = 32768, 4, 16384, 4096, 23511040
no_run = struct.pack(">IIQQ", 2**32 - 1, 0, 0, 0)
with open(sys.argv[1], "wb") as file:
    file.truncate(length)
    file.write(b"\1BLSM0001" + struct.pack(">HIIII", 1, half, ratio, low, quantum))
    file.seek(512)
    file.write(b"\1" + struct.pack(">QBBB", 1, 0, 1, 2) + 3 * no_run)
END

# Each case is a file that the program reads, and its words.
: > "$room/cases/1_trial"
printf '%s\n' trial --seed 7 --count 2000 > "$room/cases/1_trial.args"
: > "$room/cases/2_make"
printf '%s\n' make made.blsm > "$room/cases/2_make.args"
cp "$here/counters.txt" "$room/cases/3_run"
printf '%s\n' run store.blsm > "$room/cases/3_run.args"

cd "$here/../crates/blsm"
status=0
rt try --seconds 300 --data store.blsm="$room/empty.blsm" --cases "$room/cases" || status=$?
echo "It took $(($(date +%s) - begun)) seconds, and proved nothing."
exit "$status"
