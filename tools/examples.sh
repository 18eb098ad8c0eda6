#!/bin/sh
# Runs the scripts under examples/ and compares what `console` prints with the files beside them.
set -eu
cd "$(dirname "$0")/.."
console=crates/console/out/console
[ -x "$console" ] || (cd crates/console && rt run < /dev/null)
for script in examples/*.txt; do
    name=${script%.txt}
    "$console" < "$script" | diff "$name.out" -
    "$console" --read < "$script" | diff "$name.read.out" -
done
"$console" --frames --read < examples/pass.txt | diff examples/pass.frames.out -
echo "examples: as recorded"
