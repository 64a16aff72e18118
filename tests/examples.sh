#!/usr/bin/env bash
# Runs each example as its text says, and the commands of the README and of the page cgihost(1): the lines of a text
# that begin with `$` are commands, and the lines behind one are what it writes, where `..` is any text. A server that
# a text starts listens on a free port in the place of 8080. It wants the program that `rt ci` leaves, and works in a
# temporary folder.
. "$(dirname "$0")/common.sh"
. "$root/tests/server.sh"
command -v curl >/dev/null || {
    echo 'skipped: no curl'
    exit 0
}
cp -r "$root/examples" .

# The site of a word, on a port of this script's.
on_free_port() {
    "$program" upgrade "$1" | sed "s/^port = .*/port = $port/; s/:8080\"/:$port\"/g" >site
}

# The program, as a text calls it in a line that waits for its end. A server before it is waited for by its port, as this may
# run in a shell below the one whose child it is.
cgihost() {
    if [ "$1" = serve ]; then
        end_server
        for _ in $(seq 500); do
            (exec 5<>"/dev/tcp/127.0.0.1/$port") 2>/dev/null || break
            sleep 0.02
        done
        on_free_port "$2" && "$program" serve site "${@:3}"
    elif [ "$1" = check ]; then
        { "$program" "$@" 2>&1 >&3 | sed "s/:8080$/:$port/" >&2; } 3>&1
    else
        "$program" "$@"
    fi
}

# .. and as one calls it that goes on beside it.
cgihost_beside() {
    end_server
    on_free_port "$2" && start "${@:3}"
}

# Whether the lines of a file are those of another, in which `..` is any text.
are_as() {
    local line wanted
    [ "$(wc -l <"$1")" = "$(wc -l <"$2")" ] || return
    while IFS= read -r line <&5 && IFS= read -r wanted <&6; do
        wanted=$(sed 's/[][\\.^$*+?(){}|]/\\&/g; s/\\\.\\\./.*/g' <<<"$wanted")
        [[ ${line%$'\r'} =~ ^$wanted$ ]] || return
    done 5<"$1" 6<"$2"
}

# Runs the command of a text, and compares what it writes with what stands in `wanted`.
plays_text() {
    local name=$1 command=$2
    case $command in
        'cgihost serve '*) eval "${command/cgihost/cgihost_beside}" ;;
        *)
            eval "$command" >got 2>wrong </dev/null
            if are_as got wanted; then
                ok
            else
                bad "$name: $command wrote"
                { cat got; cat wrong; } | head -n 20 | sed 's/^/    /'
            fi
            ;;
    esac
}

# What a text says, line by line: the first comment of an example without its marks, and of a page the literal blocks
# that begin with a command. On a page the program is named as it lies in a clone.
text() {
    case $1 in
        *.md) sed 's|^crates/cgihost/out/cgihost |$ &|' "$1" | awk '
            /^```/ { inside = !inside; said = ""; next }
            inside && said == "" { said = /^\$ / ? "yes" : "no" }
            inside && said == "yes"' ;;
        *.1) awk '/^\.Bd -literal/ { inside = 1; next } /^\.Ed/ { inside = 0 } inside' "$1" | sed 's/\\e/\\/g' ;;
        *) sed -n '1{/^#!/d}; /^#/!q; s/^# \{0,1\}//p' "$1" ;;
    esac | sed "s|:8080|:$port|g; s|crates/cgihost/out/cgihost|cgihost|g"
}

plays_example() {
    local name=${1##*/} command='' count=0 line
    port=$(free_port)
    text "$1" >text.seen
    : >wanted
    while IFS= read -r line <&7; do
        case $line in
            '$ '*)
                [ -z "$command" ] || plays_text "$name" "$command"
                command=${line#'$ '}
                count=$((count + 1))
                : >wanted
                ;;
            *) [ -z "$command" ] || printf '%s\n' "$line" >>wanted ;;
        esac
    done 7<text.seen
    [ -z "$command" ] || plays_text "$name" "$command"
    end_server
    if [ "$count" -gt 0 ]; then ok; else bad "$name says no command"; fi
}

for example in examples/* "$root/docs/cgihost.1" "$root/README.md"; do
    # The pages are served by what lies beside them, and what wants a program of its own is played by recipes.sh.
    [ "$example" = examples/live.html ] || [ -d "$example" ] || grep -q 'docs/recipes.md' "$example" || plays_example "$example"
done

# ---- what is counted comes as it is counted
port=$(free_port)
cgihost_beside serve "/counter=$PWD/examples/counter"
times=$(curl -s -N -m 30 -o got -w '%{time_starttransfer} %{time_total}' "http://127.0.0.1:$port/counter")
if awk '{ exit !($1 < $2 - 1) }' <<<"$times"; then ok; else bad "the counter's first byte and its end came at $times s"; fi

# ---- the page is served whole, and names the two paths of live.toml
sed "s|/srv/cgi|$PWD/examples|" examples/live.toml >live.toml
port=$(free_port)
cgihost_beside serve live.toml
if curl -s -m 30 "http://127.0.0.1:$port/live" | cmp -s - examples/live.html; then ok; else bad 'the page is not the file'; fi
for path in $(sed -n 's/.* = at("\(.*\)");/\1/p' examples/live.html); do
    if [ "$(curl -s -m 30 -o got -w '%{http_code}' "http://127.0.0.1:$port$path")" = 426 ]; then ok; else bad "the page's $path"; fi
done
end_server

# ---- the page of page.toml comes whole with all that it names, each with its type, and its two programs are there
sed "s|/srv/cgi|$PWD/examples|; s|/srv/page|$PWD/examples/page|" examples/page.toml >page.toml
port=$(free_port)
cgihost_beside serve page.toml
url=http://127.0.0.1:$port
if curl -s -m 30 "$url/page/" | cmp -s - examples/page/index.html; then ok; else bad 'the page of page.toml is not the file'; fi
named=$(sed -n 's/.* \(href\|src\)="\([^"]*\)".*/\2/p' examples/page/index.html | sort -u)
same 'what the page names' "$(tr '\n' ' ' <<<"$named")" '/page/icon.svg /page/page.css /page/page.js '
for path in $named; do
    type=$(curl -s -m 30 -o got -w '%{content_type}' "$url$path")
    case $path in
        *.css) wanted=text/css ;;
        *.js) wanted=text/javascript ;;
        *) wanted=image/svg+xml ;;
    esac
    same "the type of $path" "$type" "$wanted"
    if cmp -s got "examples$path"; then ok; else bad "$path is not the file"; fi
done
for path in $(sed -n 's/.*listen("\(.*\)", .*/\1/p' examples/page/page.js); do
    if [ "$(curl -s -m 30 -o got -w '%{http_code}' "$url$path")" = 426 ]; then ok; else bad "the page's $path"; fi
done
end_server

count
