#!/bin/bash
# What must be read to know what `run` promises: the files of definitions that its clauses stand on, which docs/audit.md lists.
# Says where the page is out of date, and fails. `tests/audit.sh --write` brings its list up to date.
set -u
cd "$(dirname "$0")/.." || exit 2
page=docs/audit.md
start=crates/host_run/src/top.rt

# The files of definitions that a file imports, one a line. What the kit defines, and what the code declares, has none here.
imports() {
    grep -ohE 'Rattle\.[a-z_0-9]+\.specs\.[A-Za-z_.]*[A-Za-z_]' "$1" | sed 's/^Rattle\.//; s/\.specs\./ /' |
        while read -r crate module; do
            file=crates/$crate/specs/${module//.//}.antt
            [ ! -f "$file" ] || printf '%s\n' "$file"
        done
}

# All files that one stands on.
closure() {
    local todo=("$1") file next
    declare -A seen=()
    while [ ${#todo[@]} -gt 0 ]; do
        file=${todo[-1]}
        unset 'todo[-1]'
        while read -r next; do
            [ -z "${seen[$next]:-}" ] || continue
            seen[$next]=yes
            todo+=("$next")
        done < <(imports "$file")
    done
    printf '%s\n' "${!seen[@]}" | LC_ALL=C sort
}

# The list as it stands on the page: a crate's files in one line, and what they come to.
listed() {
    local files
    files=$(closure "$start")
    printf '%s\n' "$files" | awk -F/ '
        { name = $0; sub(/^crates\/[^\/]*\/specs\//, "", name); sub(/\.antt$/, "", name)
          if ($2 != crate) { if (crate != "") print line; crate = $2; line = crate ":" }
          line = line " " name }
        END { print line }'
    # shellcheck disable=SC2086
    printf '%s files, %s lines without imports and empty ones\n' "$(wc -l <<<"$files")" \
        "$(cat $files | grep -vcE '^(use .*|[[:space:]]*)$')"
}

# The page with this list in the place of its own.
renewed() {
    listed >"$1"
    awk -v list="$1" '
        /^<!-- list -->$/ { print; print "```"; while ((getline line < list) > 0) print line; print "```"; skip = 1; next }
        /^<!-- end of the list -->$/ { skip = 0 }
        !skip' "$page"
}

work=$(mktemp -d)
trap 'rm -rf "$work"' EXIT
renewed "$work/list" >"$work/page"
if [ "${1:-}" = --write ]; then
    cp "$work/page" "$page"
elif ! diff "$page" "$work/page" >"$work/diff"; then
    cat "$work/diff"
    echo "audit.sh: $page is out of date: tests/audit.sh --write brings its list up to date"
    exit 1
else
    echo "audit.sh: 1 passed, 0 failed"
fi
