#!/bin/sh
# Checks that a normaliser takes its event: each text in must-not-compile/ is read as a crate over the repository's. Its
# first line says what the check must answer: 'proved', or the name of the one error that it must give. With
# LIBRARIES_STAND the libraries built under crates/ are taken as they stand.
set -u
root=$(cd "$(dirname "$0")/.." && pwd)
. "$root/tools/libraries.sh"
tmp=$(mktemp -d)
trap 'rm -rf "$tmp"' EXIT

if [ -z "${LIBRARIES_STAND:-}" ]; then
    (cd "$root/crates/normal" && rt lib) > "$tmp/normal.out" 2>&1 || { cat "$tmp/normal.out"; exit 1; }
fi

words=$(over input_types normal)
bad=0
for text in "$root"/tools/must-not-compile/*.txt; do
    name=case_$(basename "$text" .txt)
    want=$(sed -n '1s,^// ,,p' "$text")
    mkdir -p "$tmp/$name/src"
    cp "$text" "$tmp/$name/src/lib.rt"
    cd "$tmp/$name" || exit 1
    # the words hold no spaces of their own
    "$kit/bin/rattle" check --crate-name "$name" src/lib.rt $words --links "$name=" --jobs 1 > out 2>&1
    status=$?
    errors=$(grep -o 'error\[[a-z0-9-]*\]' out | sort -u | tr '\n' ' ')
    if [ "$want" = proved ]; then
        if [ $status = 0 ]; then echo "ok: $name is proved"; else echo "BAD: $name is not proved"; cat out; bad=1; fi
    elif [ $status != 0 ] && [ "$errors" = "error[$want] " ]; then
        echo "ok: $name is refused by $want"
    else
        echo "BAD: $name ended with status $status, and with the errors: $errors"
        cat out
        bad=1
    fi
done
exit $bad
