#!/usr/bin/env bash
# Tries the manual pages of docs/: they format without a warning, each site file that one shows is taken by the built
# program as the page says, and the page on the commands has those that there are, the statuses with the lines that they
# are said by, and the refusals. What its examples write is compared in examples.sh. It wants the program that `rt ci`
# leaves, and works in a temporary folder.
. "$(dirname "$0")/common.sh"

# The names are the same text.
for page in "$root"/docs/*.[15]; do
    name=$(basename "$page")
    if command -v man >/dev/null; then
        same "$name formats" "$(man --warnings -l "$page" 2>&1 >formatted)" ''
    else
        echo "skipped: man is not installed, so $name is not formatted"
    fi
done

# Each literal block of the page on site files is one, in a file of its own: 1, 2, ..
awk '/^\.Bd -literal/ { number++; shown = 1; next } /^\.Ed/ { shown = 0 } shown { print > number }' \
    "$root/docs/cgihost.toml.5"
same 'the first site' "$("$program" check 1 2>said)" 'ok: 2 scripts'
same 'the second site' "$("$program" check 2 2>said)" 'ok: 3 scripts'
same 'there are two sites' "$(ls ./*[0-9] | wc -l)" 2

# The commands and statuses: the page has each that `--help` has, and its line for words of no form is the program's.
page=$root/docs/cgihost.1
"$program" --help >help
awk '$1 == "cgihost" && $2 != "runs" { print $2 }' help | sort >helped
sed -n 's/^\.It Cm \([a-z]*\) .*/\1/p; s/^\.It Fl -/--/p' "$page" | sort >paged
same 'the commands' "$(cat paged)" "$(cat helped)"
sed -n '/^\.Sh SYNOPSIS/,/^\.Sh DESCRIPTION/s/^\.Cm //p; /^\.Sh SYNOPSIS/,/^\.Sh DESCRIPTION/s/^\.Fl -/--/p' "$page" | sort >paged
same 'the synopsis' "$(cat paged)" "$(cat helped)"
sed -n '/^\.Sh EXIT STATUS/,/^\.Sh DIAGNOSTICS/s/^\.It \([0-9]\)$/\1/p' "$page" >paged
awk '$1 ~ /^[0-9]$/ { print $1 }' help >helped
same 'the statuses' "$(cat paged)" "$(cat helped)"
same 'words of no form' "$("$program" no 2>&1)" "$(sed -n 's/^\.It Li "\(cgihost: usage.*\)"$/\1/p' "$page")"

# The page names each refusal that a client may read, apart from those of gateways, which no command serves.
sed -n '/pub fn text/,/^}/s/.* => "\(.*\)",$/\1/p' "$root/crates/host_base/src/cause.rt" |
    grep -v -e ' scgi ' -e 'bad parameters' -e 'bad record' >texts
while IFS= read -r text; do
    same "the page has: $text" "$(grep -c "[345][0-9][0-9] $text" "$page")" 1
done <texts
same 'there are refusals' "$([ "$(wc -l <texts)" -gt 30 ] && echo many)" many

# The limits of the page on site files are those that an upgraded file has, with their defaults.
"$program" upgrade /hello=/bin/cat | sed -n '/^\[limits\]/,/^$/s/ = / /p' | sort >written
sed -n '/^\.Sh LIMITS/,/^\.Sh EXAMPLES/p' "$root/docs/cgihost.toml.5" |
    awk '$1 == ".It" { key = $3 } /, default [0-9]*\.$/ { sub(/\./, "", $NF); print key, $NF }' | sort >paged
same 'the limits' "$(cat paged)" "$(cat written)"

count
