#!/usr/bin/env bash
# What is said where something is wrong: a wrong word, a site file that is missing or broken, a port in use, a program
# that is missing or may not be run, and one that prints nonsense. Each message is compared, and stands in cgihost(1) with
# what to do. It wants the program that `rt ci` leaves, and works in a temporary folder.
. "$(dirname "$0")/common.sh"
. "$root/tests/server.sh"
command -v curl >/dev/null || {
    echo 'skipped: no curl'
    exit 0
}

# Whether the page has an entry for a message, and behind it what to do.
in_page() {
    if awk -v wanted="$1" '
        /^\.Sh/ { inside = $2 == "DIAGNOSTICS" }
        inside && /^\.It/ { entry = $0; gsub(/^\.It |Li |"/, "", entry); found = index(entry, wanted) == 1; next }
        found && !/^\./ { said = 1 }
        END { exit !said }
    ' "$root/docs/cgihost.1"; then
        ok
    else
        bad "cgihost(1) says nothing of: $1"
    fi
}

# The words end with a status, and with a line on standard error that is this one.
says() {
    local wanted=$1 line=$2
    shift 2
    timeout 60 "$program" "$@" </dev/null >out 2>err
    status=$?
    if [ "$status" = "$wanted" ] && [ ! -s out ] && [ "$(tail -n 1 err)" = "$line" ]; then
        ok
    else
        bad "$*: status $status, said $(head -c 300 err)"
    fi
}

# ---- words of no form
usage='cgihost: usage: once SITE, serve SITE, check SITE, explain SITE, sample SEED N, upgrade SITE'
in_page "$usage"
says 2 "$usage" serv /hello=/bin/cat
says 2 "$usage" serve
says 2 "$usage" serve hello=/bin/cat
says 2 "$usage" serve /hello=cat
says 2 "$usage" serve /hello=/bin/cat --turn 3
says 2 "$usage" serve /hello=/bin/cat --turns 0

# ---- a site file that is missing, and broken ones: the same for each command, before anything is listened at
in_page 'cgihost: site file not read'
in_page 'cgihost: site refused: '
broken() {
    printf '%b' "version = 1\n$1\n[[script]]\npath = \"/hello\"\nprogram = \"${2:-/bin/cat}\"\n" >broken
    for command in serve once check explain upgrade; do
        says 3 "cgihost: site refused: $3" "$command" broken
    done
}
# .. one that isn't there, a folder and one that is too long: which it is, and the system's reason, stand before the status
in_page 'cgihost: Ar file'
unread() {
    for command in serve once check explain upgrade; do
        says 4 'cgihost: site file not read' "$command" "$1"
        same "$command $1" "$(head -n 1 err)" "cgihost: $2"
        same "the lines of $command $1" "$(wc -l <err)" 2
    done
}
unread missing.toml 'missing.toml: No such file or directory (os error 2)'
unread "$folder" "$folder: Is a directory (os error 21)"
head -c 1048577 /dev/zero | tr '\0' '#' >large
unread large 'large: longer than 1048576 bytes'
if [ "$(id -u)" != 0 ]; then
    printf 'version = 1' >mine
    chmod 0 mine
    unread mine 'mine: Permission denied (os error 13)'
else
    echo 'skipped: a file that may not be read: this is the superuser'
fi
broken 'port = "http"' '' 'wrong kind port'
broken 'port = 65536' '' 'out of range port'
broken 'prot = 8080' '' 'unknown prot'
broken '[limits]\nhead = 1' '' 'out of range limits.head'
broken '' hello 'out of range script[0].program'
broken '"' '' 'not TOML'
# .. and each fault of these stands on the page on site files.
for fault in 'not TOML' 'missing' 'wrong kind' 'out of range' 'unknown' 'double host' 'double script'; do
    if grep -q "^\.It Li $fault" "$root/docs/cgihost.toml.5"; then ok; else bad "cgihost.toml(5) says nothing of: $fault"; fi
done

# ---- a port in use
in_page 'cgihost: could not begin'
port=$(free_port)
printf '#!/bin/sh\ncat "%s/output"\n' "$folder" >printer
printf 'text' >plain
printf '#!/none\n' >no_shell
chmod +x printer no_shell
cat >site <<END
version = 1
port = $port

[[script]]
path = "/printer"
program = "$folder/printer"

[[script]]
path = "/missing"
program = "$folder/missing"

[[script]]
path = "/plain"
program = "$folder/plain"

[[script]]
path = "/no_shell"
program = "$folder/no_shell"
END
start
says 5 'cgihost: could not begin' serve site
refused='cgihost: end what listens there, or set another port in the site file: '
in_page "$refused"
if [ "$(head -n 1 err)" = "${refused}127.0.0.1:$port" ]; then ok; else bad "a port in use: said $(cat err)"; fi

# .. an address that is none of this machine's (RFC 5737 section 3), and a port that only the superuser may have
in_page "cgihost: can't listen on Ar address"
sed "s/^port = .*/&\nlisten = \"192.0.2.1\"/" site >elsewhere
says 5 'cgihost: could not begin' serve elsewhere
same 'an address of another machine' "$(head -n 1 err)" "cgihost: can't listen on 192.0.2.1:$port: Cannot assign requested address (os error 99)"
same 'the lines of it' "$(wc -l <err)" 2
if [ "$(id -u)" != 0 ] && [ "$(cat /proc/sys/net/ipv4/ip_unprivileged_port_start 2>/dev/null)" = 1024 ]; then
    sed 's/^port = .*/port = 80/' site >low
    says 5 'cgihost: could not begin' serve low
    same 'a port that may not be had' "$(head -n 1 err)" "cgihost: can't listen on 127.0.0.1:80: Permission denied (os error 13)"
else
    echo 'skipped: a port that may not be had: this user may have it'
fi

# ---- help, wherever it is asked for
"$program" --help >help
same 'the help has lines' "$([ "$(wc -l <help)" -gt 20 ] && echo many)" many
helps() {
    timeout 60 "$program" "$@" </dev/null >out 2>err
    same "$*: its status" "$?" 0
    if cmp -s out help && [ ! -s err ]; then ok; else bad "$*: wrote $(head -n 1 out), said $(cat err)"; fi
}
helps -h
helps help
for command in serve once check upgrade explain sample help --help --version; do
    helps "$command" --help
    helps "$command" -h
done
helps serve site --log "$folder/log" --help
same 'a log where help is asked for' "$(ls log 2>&1 >/dev/null | wc -l)" 1
helps serve --help --loops 0

# ---- programs that can't be started, and what they print: the client is told, and explain names the program
answers() {
    local code=$1 text=$2 path=$3
    in_page "$code $text"
    if [ "$(curl -s -m 20 -o got -w '%{http_code}' "http://127.0.0.1:$port$path") $(cat got)" = "$code $text" ]; then
        ok
    else
        bad "$path: $(cat got), where $text was wanted"
    fi
}
for name in missing plain no_shell; do
    answers 502 'script could not be started' "/$name"
    printf 'GET /%s HTTP/1.0\r\n\r\n' "$name" | timeout 60 "$program" explain site >explained
    if [ "$(head -n 1 explained)" = "program $folder/$name" ]; then ok; else bad "explain of /$name: $(head -n 1 explained)"; fi
done
answers 404 'no script for this path' /none
prints() {
    printf '%b' "$2" >output
    answers 502 "$1" /printer
}
prints 'script gave no output' ''
prints 'script header incomplete' 'Content-Type: text/plain\n'
prints 'script header line refused' 'Traceback (most recent call last):\n\n'
prints 'script header line refused' '<html>\n\n</html>\n'
prints 'script header field repeated' 'Content-Type: text/plain\nContent-Type: text/plain\n\n'
prints 'script status refused' 'Status: OK\n\n'
prints 'script location refused' 'Location: /a b\n\n'
prints 'script sent no type, status or location' '\nhello\n'
prints 'script header too large' "$(printf 'x%.0s' $(seq 9000))"
end_server

# ---- each cause of the host's own replies by a script stands on the page
for text in 'host not served' 'too many local redirects' 'script output broken' 'script output too large' 'script took too long'; do
    if grep -q "$text" "$root/docs/cgihost.1"; then ok; else bad "cgihost(1) says nothing of: $text"; fi
done

count
