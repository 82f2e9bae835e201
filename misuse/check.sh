#!/bin/sh
# An entry into a tender that is only filed is turned down by the check itself.
#
# A type error reaches no proof, so it is no must-fail edit. This puts a crate that holds the misuse into a repository of its own,
# over copies of the crates of this one, and succeeds only if the check has exactly one error: a `&Filed` where `&Open` is expected.
set -eu

here=$(cd "$(dirname "$0")" && pwd)
work=$(mktemp -d)
trap 'rm -rf "$work"' EXIT

mkdir -p "$work/crates/misuse/src"
# what was proved here already, in each crate's out/, need not be proved again
cp -r "$here/../crates/ordered" "$here/../crates/stages" "$here/../crates/book" "$work/crates/"
printf 'ordered:\nstages:\nbook: ordered stages\nmisuse: book ordered stages\n' > "$work/crates.txt"
cp "$here/entry_into_filed.txt" "$work/crates/misuse/src/lib.rt"

cd "$work/crates/misuse"
status=0
rt check > "$work/said" 2>&1 || status=$?
errors=$(grep -c ': error' "$work/said" || true)
expected=$(grep -cF ': error[mismatched-types]: expected `&Open`, found `&Filed`' "$work/said" || true)

if [ "$status" -ne 0 ] && [ "$errors" -eq 1 ] && [ "$expected" -eq 1 ]; then
    echo "misuse: an entry into a filed tender is turned down, as it must be"
else
    echo "misuse: expected exactly one error, a type mismatch at the filed tender, and found:" >&2
    cat "$work/said" >&2
    exit 1
fi
