# Sourced by the benchmarks beside it: a folder of their own, with copies of the crates that the measured program stands
# on and those below them, in which `rt` builds it. What was proved and built of them before is taken along.
#
#     . "$(dirname "$0")/crates.sh"
#     copy_crates body_speed 'host_base request_reader'
#
# leaves `top`, the repository; `folder`, which is gone at the script's end; and `speed`, the folder of the crate that is
# measured, whose line in crates.txt names the crates given.
top=$(cd "$(dirname "$0")/../.." && pwd)
command -v rt >/dev/null || { echo "$(basename "$0"): skipped, there is no rt"; exit 0; }
folder=$(mktemp -d)
trap 'rm -rf "$folder"' EXIT

# Those of the repository's crates that these stand on, themselves among them.
with_those_below() {
    known=' '
    todo=$*
    while [ -n "$todo" ]; do
        next=
        for crate in $todo; do
            case $known in *" $crate "*) continue ;; esac
            [ -d "$top/crates/$crate" ] || continue
            known="$known$crate "
            next="$next $(sed -n "s/^$crate\( [^:]*\)\{0,1\}:\(.*\)/\2/p" "$top/crates.txt")"
        done
        todo=$(printf '%s\n' $next | sort -u)
    done
    printf '%s\n' $known
}

# copy_crates NAME 'CRATE ..'
copy_crates() {
    speed=$folder/crates/$1
    mkdir -p "$speed/src"
    cp "$top/HANDLES" "$folder"
    for crate in $(with_those_below $2); do
        grep "^$crate[: ]" "$top/crates.txt"
        mkdir "$folder/crates/$crate"
        (cd "$top/crates/$crate" && tar cf - --exclude=./out --exclude=./must-fail .) | (cd "$folder/crates/$crate" && tar xf -)
        [ ! -d "$top/crates/$crate/out/rlib" ] || { mkdir "$folder/crates/$crate/out" && cp -a "$top/crates/$crate/out/rlib" "$folder/crates/$crate/out/"; }
    done >"$folder/crates.txt"
    echo "$1: $2" >>"$folder/crates.txt"
}
