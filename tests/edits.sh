#!/usr/bin/env bash
# The edits under tests/edits: each of them the prover must refuse, as it must those of crates/CRATE/must-fail. `rt ci`
# tries the latter alone; these would double its time. Which of these were refused is written down in tests/edits/refused,
# each with a sum of its text and of the files of its crate, so that the gate can tell which crate has changed since. Where
# `landed` stands behind a sum, this script hasn't tried the edit: `rt ci` refused it with these files before it stood here.
#
# usage: tests/edits.sh CRATE ..    tries those of these crates, over what was proved and kept, and writes down what was refused
#        tests/edits.sh --all       .. those of all crates
#        tests/edits.sh --check     tries none: fails where one that is written down, or its crate, has changed since
set -euo pipefail
export LC_ALL=C
root=$(cd "$(dirname "$0")/.." && pwd)
list=$root/tests/edits/refused
cd "$root/tests/edits"

# A sum of all that the crate is proved from, apart from those below it. Its tests are no part of that.
crate_sum() {
    (cd "$root/crates/$1" && find . -type f \( -path './src/*' -o -path './specs/*' -o -path './proofs/*' \) ! -path './src/tests*' |
        sort | xargs sha256sum) | sha256sum | cut -c 1-32
}

# A line for each edit of a crate, as the list has it.
lines_of() {
    local sum edit
    sum=$(crate_sum "$1")
    for edit in "$1"/*.edit; do
        echo "$edit $( (echo "$sum"; cat "$edit") | sha256sum | cut -c 1-32)"
    done
}

room=$(mktemp -d)
trap 'rm -rf "$room"' EXIT
case ${1:-} in
--check)
    for crate in */; do
        lines_of "${crate%/}"
    done >"$room/lines"
    # Those that are on the list as they are now, those that have changed, and those that were never written down.
    awk '
        NR == FNR { is[$1] = $2; next }
        !($1 in is) { print "edits: " $1 " is written down and not there"; changed++; next }
        $3 == "landed" { landed++ }
        { was[$1] = 1; if (is[$1] == $2) same++; else { changed++; split($1, at, "/"); again[at[1]] = 1 } }
        END {
            for (crate in again) print "edits: " crate " has changed since its edits were refused: tests/edits.sh " crate
            for (edit in is) if (!(edit in was)) other++
            printf "edits: none was tried; of those on the list %d were last refused by rt ci, before they stood here\n", landed
            printf "%d passed, %d failed, %d skipped\n", same, changed, other
            exit changed > 0
        }' "$room/lines" "$list"
    exit
    ;;
--all) set -- */ ;;
'' | -*)
    sed -n 's/^# \{0,1\}//p' "$root/tests/edits.sh" | sed -n '/^usage/,$p' | head -3
    exit 2
    ;;
esac

(cd "$root" && tar -c --exclude=out --exclude=must-fail crates crates.txt HANDLES) | tar -x -C "$room"
for out in "$root"/crates/*/out/rlib; do
    crate=$(basename "${out%/out/rlib}")
    [ ! -d "$out" ] || {
        mkdir "$room/crates/$crate/out"
        # Where a second name for each file does as well, nothing is copied: rt puts a new folder in the place of an old one.
        cp -al "$out" "$room/crates/$crate/out/" 2>/dev/null || cp -a "$out" "$room/crates/$crate/out/"
    }
done
failed=0
for crate in "$@"; do
    crate=${crate%/}
    [ -d "$crate" ] || { echo "edits: tests/edits has no folder $crate"; exit 2; }
    lines_of "$crate" >"$room/lines"
    cp -a "$crate" "$room/crates/$crate/must-fail"
    (cd "$room" && rt must-fail "$crate") | tee "$room/said" || failed=$((failed + 1))
    sed -n 's/^rt: must-fail \([^ ]*\): refused, .*/\1/p' "$room/said" >"$room/names"
    {
        grep -v "^$crate/" "$list" || true
        awk 'NR == FNR { is[$1] = 1; next } $1 in is' "$room/names" "$room/lines"
    } | sort >"$room/list"
    cp "$room/list" "$list"
    rm -rf "$room/crates/$crate/must-fail"
done
[ $failed -eq 0 ] || { echo "edits: in $failed crates not every edit was refused"; exit 1; }
echo "edits: every edit was refused"
