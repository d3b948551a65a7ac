#!/usr/bin/env bash
# Tries the wrong bodies that the gate does not try: crates/NAME/nightly/*.edit, of all crates or of those named, in a copy of the tree.
# Prints what each came to, and how many were refused at a clause (a line of src/). Over what the gate proved on this machine before
# nothing but the edits is proved; those in crates/NAME/must-fail/ are the gate's.
set -u
top=$(cd "$(dirname "${BASH_SOURCE[0]}")/.." && pwd)
room=$(mktemp -d "${TMPDIR:-/tmp}/nightly-XXXXXX")
trap 'rm -rf "$room"' EXIT
cd "$top" || exit 2
mkdir "$room/.git"
cp crates.txt HANDLES "$room"
tar -cf - --exclude='crates/*/out' --exclude='crates/*/must-fail' crates | tar -xf - -C "$room"
cd "$room" || exit 2
names=()
for folder in crates/*/nightly; do
    [ -d "$folder" ] || continue
    name=$(basename "$(dirname "$folder")")
    [ $# = 0 ] || [[ " $* " == *" $name "* ]] || continue
    mv "$folder" "crates/$name/must-fail"
    names+=("$name")
done
[ ${#names[@]} -gt 0 ] || { echo "no crate has such edits: $*"; exit 2; }
rt ci "${names[@]}" > ci.log 2>&1
status=$?
grep -E '^rt: must-fail ' ci.log | sed -e 's/^rt: must-fail //' | sort
awk '/^rt: must-fail / {
        all += 1
        if (/refused, as it must be: (note: )?(\.\/)?src\//) clause += 1
        else if (/refused, as it must be/) elsewhere += 1
        else other += 1
    }
    END { printf "%d edits: %d refused at a clause, %d refused elsewhere, %d not refused or not tried\n", all, clause, elsewhere, other }' ci.log
[ $status = 0 ] || { grep -E 'NOT PROVED|FAILED' ci.log; exit 1; }
