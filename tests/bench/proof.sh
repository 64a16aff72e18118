#!/usr/bin/env bash
# Prints what the functions of a crate cost to prove, the dearest first: where the gate's time goes, and so where another
# form of the code or a lemma that is named would save most. The crate is checked from nothing by one process, which keeps
# each module as it has checked it; the seconds between two of them are the later one's. They are those of the clock, so
# nothing else should run meanwhile.
#
# usage: tests/bench/proof.sh CRATE [--test]     of a crate, or of its tests
#
# The crates below must stand built in this tree, as `rt check` in the crate's folder leaves them.
set -euo pipefail
export LC_ALL=C
top=$(cd "$(dirname "$0")/../.." && pwd)
command -v rt >/dev/null || { echo 'proof.sh: skipped, there is no rt'; exit 0; }
kit=$(dirname "$(rt doc)")
usage() {
    sed -n 's/^# usage/usage/p' "$0"
    exit 2
}
crate=${1:-}
line=$(grep "^$crate\( [^:]*\)\{0,1\}:" "$top/crates.txt") || usage
options=()
case ${2:-} in
'') ;;
--test) options+=(--test) ;;
*) usage ;;
esac
folder=$(mktemp -d)
trap 'rm -rf "$folder"' EXIT

for below in ${line#*:}; do
    own=$top/crates/$below/out/rlib/$below.rlib
    if [ -d "$top/crates/$below" ]; then
        [ -d "$own" ] || { echo "proof.sh: $below is not built here, which (cd crates/$crate && rt check) does"; exit 1; }
    else
        own=$kit/rlibs/$below.rlib
    fi
    options+=(--extern "$below=$own")
done
for own in "$kit/rlibs" "$top"/crates/*/out/rlib; do
    options+=(-L "dependency=$own")
done
root=src/lib.rt
[ -f "$top/crates/$crate/$root" ] || root=src/main.rt

cd "$top/crates/$crate"
"$kit/bin/rattle" check --crate-name "$crate" "$root" --extern std="$kit/rlibs/std.rlib" "${options[@]}" \
    --antt-project "$kit/rattle/logic/antt-project.json" --logic-built "$kit/logic_built" \
    --jobs 1 --incremental "$folder/kept" >"$folder/said" 2>&1 || {
    tail -n 20 "$folder/said"
    exit 1
}

# A module's name is that of its library, the function's path, and what of the function it holds: Code, Lts, Proof ..
find "$folder/kept" -name '*.oantt' ! -name '*.decls.oantt' -printf '%T@ %f\n' | sort -n | sed 's/\.oantt$//' | awk '
    NR > 1 {
        spent = $1 - before
        name = $2
        sub(/^Rattle-[^.]*(-specs|-proofs)?\.?(contracts\.)?/, "", name)
        while (name ~ /\.[A-Z][A-Za-z]*(-[0-9-]*)?$/ && name ~ /^[a-z].*\..*\./) {
            part = name
            sub(/^.*\./, "", part)
            if (part !~ /^(Answers|Code|Given|Goals|Invariants|Key|Kinds.*|Layout|Lts|Met|Mir|Named|Proof|Reads|Statement|Symbol|TheLink|Tie|View|Carried.*)$/) break
            sub(/\.[^.]*$/, "", name)
        }
        of[name] += spent
        all += spent
    }
    { before = $1 }
    END {
        printf "%8.1f all\n", all
        for (name in of) if (of[name] >= all / 200) printf "%8.1f %s\n", of[name], name
    }' | sort -rn
tail -n 1 "$folder/said"
