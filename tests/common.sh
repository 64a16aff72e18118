# What the scripts have in common that drive the built program. Each names this file before it does anything else. They
# want the program that `rt ci` leaves, or the one that CGIHOST names, and work in a temporary folder, in which the
# standard error of each server lies.
set -u
export LC_ALL=C PYTHONDONTWRITEBYTECODE=1
root=$(cd "$(dirname "${BASH_SOURCE[0]}")/.." && pwd)
program=${CGIHOST:-$root/crates/cgihost/out/cgihost}
folder=$(mktemp -d)
trap 'rm -rf "$folder"' EXIT
cd "$folder" || exit 1
passed=0
failed=0

ok() {
    passed=$((passed + 1))
}

bad() {
    failed=$((failed + 1))
    echo "failed: $1"
}

# What came is what was wanted.
same() {
    if [ "$2" = "$3" ]; then
        ok
    else
        bad "$1: $(head -c 300 <<<"$2"), where $(head -c 300 <<<"$3") was wanted"
    fi
}

# No server says in these files that an event didn't fit its tallies. A file that is written anew is looked at before.
none_dropped() {
    local line
    line=$(grep -arhm 1 -D skip '^cgihost: events dropped: [0-9]' "$@" 2>/dev/null | head -n 1)
    if [ -n "$line" ]; then bad "$line"; fi
}

# Says what was counted, and fails where anything did.
count() {
    none_dropped "$folder"
    echo "$passed passed, $failed failed"
    [ "$failed" = 0 ]
}
