#!/bin/sh
# Proves and builds the program, shows a trial, makes a store in a file, runs two scripts over it one after the other, has two lines done as they come
# while it stays open, and checks it.
# Its one word, which may be left out, names the file, which must not be there yet.
set -e
here=$(cd "$(dirname "$0")" && pwd)
file=${1:-/tmp/first_run.blsm}
(cd "$here/../crates/blsm" && rt run -- trial --seed 7 --count 20000 2> /tmp/check.log)
blsm=$here/../crates/blsm/out/blsm
"$blsm" make "$file"
"$blsm" run "$file" < "$here/counters.txt"
"$blsm" run "$file" < "$here/merges.txt"
printf '1 add apple 1\n1 get apple\n' | "$blsm" serve "$file"
"$blsm" check "$file"
