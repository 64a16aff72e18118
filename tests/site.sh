#!/usr/bin/env bash
# Drives the commands of the built program that need no loop: check, upgrade, --help and --version, over the
# site files of examples/ and over others. It wants the program that `rt ci` leaves, and works in a temporary
# folder.
. "$(dirname "$0")/common.sh"

# Runs the program with these words: what it wrote stands in `out`, what it said in `err`.
run() {
    timeout 60 "$program" "$@" </dev/null >out 2>err
    status=$?
}

# The words end with status 0, say nothing and report the text.
reports() {
    local text=$1
    shift
    run "$@"
    if [ "$status" = 0 ] && [ "$(cat out)" = "$text" ] && [ ! -s err ]; then
        ok
    else
        bad "$*: status $status, wrote $(head -c 200 out), said $(head -c 200 err)"
    fi
}

# The site is good, has so many scripts, and listens where sites of the examples do.
checks() {
    local text=$1
    shift
    run check "$1"
    if [ "$status" = 0 ] && [ "$(cat out)" = "$text" ] && [ "$(cat err)" = "cgihost: listens at ${2:-127.0.0.1:8080}" ]; then
        ok
    else
        bad "check $*: status $status, wrote $(head -c 200 out), said $(head -c 200 err)"
    fi
}

# The words end with a status and a line on standard error, and report nothing.
says() {
    local wanted=$1 line=$2
    shift 2
    run "$@"
    if [ "$status" = "$wanted" ] && [ "$(cat err)" = "cgihost: $line" ] && [ ! -s out ]; then
        ok
    else
        bad "$*: status $status, said $(head -c 300 err)"
    fi
}

# A site file with this text is refused for this, by check and by upgrade.
refused() {
    printf '%b' "$1" >site
    says 3 "site refused: $2" check site
    says 3 "site refused: $2" upgrade site
}

# ---- the examples, as they stand and once they are written in version 2
for example in small:2 site:6 live:3 hosts:3 page:3; do
    name=${example%:*}
    count=${example#*:}
    checks "ok: $count scripts" "$root/examples/$name.toml"
    run upgrade "$root/examples/$name.toml"
    if [ "$status" = 0 ] && grep -q '^version = 2$' out; then
        ok
    else
        bad "upgrade of $name: status $status"
    fi
    mv out upgraded
    checks "ok: $count scripts" upgraded
    # What is written for what was written is the same text.
    run upgrade upgraded
    if cmp -s out upgraded; then
        ok
    else
        bad "upgrade of the upgraded $name differs"
    fi
done
checks 'ok: 1 scripts' /hello=/bin/cat
printf 'version = 2\n[[host]]\nname = "a"\n[[host.documents]]\npath = "/d"\n[host.documents.types]\ntxt = "text/plain"\n' >documents
checks 'ok: 1 scripts' documents
printf 'version = 1\nlisten = "127.0.0.2"\nport = 8081\n[[script]]\npath = "/s"\nprogram = "/bin/cat"\n' >elsewhere
checks 'ok: 1 scripts' elsewhere 127.0.0.2:8081

# ---- each fault
script='\n[[script]]\npath = "/s"\nprogram = "/bin/cat"\n'
refused 'x' 'not TOML'
refused 'version = 1 # \0344' 'not TOML'
refused '' 'missing version'
refused 'version = 1' 'missing script'
refused 'version = "1"' 'wrong kind version'
refused "version = 3$script" 'out of range version'
refused "version = 1\nport = 0$script" 'out of range port'
refused "version = 1\nport = 65536$script" 'out of range port'
refused "version = 1\nlisten = \"127.0.0.256\"$script" 'out of range listen'
refused "version = 1\nlimits = 3$script" 'wrong kind limits'
refused "version = 1\n[limits]\nhead = 1023$script" 'out of range limits.head'
refused 'version = 1\nscript = [1]' 'wrong kind script'
refused "version = 1\nx = 1\n\"a\\\\nb\" = 2$script" 'unknown a\x0Ab'
refused "version = 1\n[limits]\nx = 1$script" 'unknown limits.x'
refused "version = 1${script}kind = \"perl\"\n" 'out of range script[0].kind'
refused "version = 1${script}origins = []\n" 'unknown script[0].origins'
refused "version = 1$script[[script]]\nprogram = \"/bin/cat\"\n" 'missing script[1].path'
refused "version = 1$script$script" 'double script /s'
host='\n[[host]]\nname = "a"\n[[host.script]]\npath = "/s"\nprogram = "/bin/cat"\n'
refused 'version = 2' 'missing host'
refused "version = 2\nname = \"a\"$host" 'unknown name'
refused "version = 2$host${host/\"a\"/\"A\"}" 'double host A'
refused "version = 2$host[[host]]\nname = \"b\"\n" 'missing host[1].script'

# ---- files that can't be read: each is named, with the reason
unread() {
    says 4 "$1"$'\ncgihost: site file not read' "${@:2}"
}
unread 'none: No such file or directory (os error 2)' check none
unread 'none/site: No such file or directory (os error 2)' upgrade none/site
unread '.: Is a directory (os error 21)' check .
unread "$folder: Is a directory (os error 21)" upgrade "$folder"
unread 'a\x0Ab: No such file or directory (os error 2)' check $'a\nb'
says 3 'site refused: missing version' check /dev/null
head -c 2097152 /dev/zero | tr '\0' '#' >site
unread 'site: longer than 1048576 bytes' check site
# The longest file that is read, and one byte more.
{ printf "version = 1$script#"; head -c 1048576 /dev/zero | tr '\0' '#'; } | head -c 1048576 >site
checks 'ok: 1 scripts' site
printf '#' >>site
unread 'site: longer than 1048576 bytes' check site
if [ "$(id -u)" != 0 ]; then
    chmod 0 site
    unread 'site: Permission denied (os error 13)' check site
    rm -f site
fi

# ---- reports that can't be written
for words in "check $root/examples/small.toml" "upgrade $root/examples/small.toml" --help --version; do
    # shellcheck disable=SC2086
    timeout 60 "$program" $words </dev/null >/dev/full 2>err
    status=$?
    if [ "$status" = 7 ] && [ "$(cat err)" = 'cgihost: report not written' ]; then
        ok
    else
        bad "$words to a full device: status $status, said $(head -c 200 err)"
    fi
    # shellcheck disable=SC2086
    timeout 60 "$program" $words </dev/null >&- 2>err
    status=$?
    if [ "$status" = 7 ] && [ "$(cat err)" = 'cgihost: report not written' ]; then
        ok
    else
        bad "$words to a closed output: status $status, said $(head -c 200 err)"
    fi
done
# A site that is refused is refused all the same.
timeout 60 "$program" check /dev/null </dev/null >&- 2>err
status=$?
if [ "$status" = 3 ]; then ok; else bad "a refused site and a closed output: status $status"; fi

# ---- the words
reports 'cgihost 1' --version
run --help
if [ "$status" = 0 ] && [ ! -s err ] && grep -q 'upgrade SITE' out && grep -q '  7  ' out; then
    ok
else
    bad "--help: status $status"
fi
usage='usage: once SITE, serve SITE, check SITE, explain SITE, sample SEED N, upgrade SITE'
says 2 "$usage" check
says 2 "$usage" check ''
says 2 "$usage" check s=/bin/cat
says 2 "$usage" check site more
says 2 "$usage" upgrade
says 2 "$usage" --help --version
says 2 "$usage" --hel

count
