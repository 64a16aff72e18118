#!/usr/bin/env bash
# Plays what docs/recipes.md says, with the wrappers of examples/ and the programs and clients that are installed; what
# isn't there is skipped with a word. It wants the program that `rt ci` leaves, and works in a temporary folder.
. "$(dirname "$0")/common.sh"
. "$root/tests/server.sh"
for needed in curl python3; do
    command -v "$needed" >/dev/null || {
        echo "skipped: no $needed"
        exit 0
    }
done
export HOME=$folder GIT_CONFIG_NOSYSTEM=1 HGRCPATH= HGUSER=tester GIT_TERMINAL_PROMPT=0
export GIT_AUTHOR_NAME=t GIT_AUTHOR_EMAIL=t@localhost GIT_COMMITTER_NAME=t GIT_COMMITTER_EMAIL=t@localhost
mkdir -p srv/cgi srv/git srv/hg srv/fossil srv/php
port=$(free_port)
url=http://127.0.0.1:$port

# The wrappers, with the folder of this script in the place of /srv.
for example in "$root"/examples/*; do
    sed "s|/srv/|$folder/srv/|g; s|/var/log/syslog|$folder/followed|" "$example" >"srv/cgi/${example##*/}"
    [ ! -x "$example" ] || chmod +x "srv/cgi/${example##*/}"
done

# The table of limits of the page that this number has, and a site with the scripts that are named, each PATH=PROGRAM[=KIND].
limits() {
    awk -v wanted="$1" '/^```/ { inside = $0 == "```toml"; count += inside; next } inside && count == wanted' "$root/docs/recipes.md"
}
site() {
    local number=$1 word kind
    shift
    {
        printf 'version = 1\nname = "localhost"\nlisten = "127.0.0.1"\nport = %s\nroot = "%s"\n' "$port" "$folder/srv/php"
        limits "$number"
        for word in "$@"; do
            kind=${word#*=}
            printf '\n[[script]]\npath = "%s"\nprogram = "%s"\n' "${word%%=*}" "${kind%%=*}"
            case $kind in *=*) printf 'kind = "%s"\n' "${kind#*=}" ;; esac
        done
    } >site
    end_server
    start
}
has() {
    local missing='' needed
    for needed in "${@:2}"; do
        command -v "$needed" >/dev/null || missing="$missing $needed"
    done
    [ -z "$missing" ] || {
        echo "skipped: $1: no$missing"
        return 1
    }
}
# .. what is no command: a word of Python, or a module of Perl.
has_python() { /usr/bin/python3 -c "import $2" 2>/dev/null || { echo "skipped: $1: no $2"; return 1; }; }
has_perl() { perl -M"$2" -e 1 2>/dev/null || { echo "skipped: $1: no $2"; return 1; }; }

# ---- git
if has git git && [ -x "$(git --exec-path)/git-http-backend" ]; then
    git init -q --bare srv/git/a.git
    git -C srv/git/a.git config http.receivepack true
    site 1 "/git=$folder/srv/cgi/git"
    git init -q -b main work
    for number in 1 2 3; do
        echo "line $number" >>work/text
        git -C work add text
        git -C work commit -qm "$number"
    done
    git -C work push -q "$url/git/a.git" main 2>wrong || bad "git push: $(cat wrong)"
    same 'git: what was pushed' "$(git -C srv/git/a.git rev-list --count main)" 3
    git clone -q -b main "$url/git/a.git" copy 2>wrong || bad "git clone: $(cat wrong)"
    same 'git: a clone' "$(cat copy/text)" "$(cat work/text)"
    git clone -q -b main --depth 1 "$url/git/a.git" shallow 2>wrong || bad "git clone --depth: $(cat wrong)"
    same 'git: a shallow clone' "$(git -C shallow rev-list --count HEAD)" 1
    # a push in chunks, since more than the buffer of the client
    head -c 3000000 /dev/urandom >work/large
    git -C work add large
    git -C work commit -qm large
    git -C work push -q "$url/git/a.git" main 2>wrong || bad "git push of 3 MB: $(cat wrong)"
    same 'git: a push in chunks' "$(git -C srv/git/a.git rev-list --count main)" 4
    git -C copy pull -q 2>wrong || bad "git pull: $(cat wrong)"
    if cmp -s copy/large work/large; then ok; else bad 'git: the large file'; fi
    # .. and one that is more than the limit
    head -c 17500000 /dev/urandom >work/larger
    git -C work add larger
    git -C work commit -qm larger
    if git -C work push -q "$url/git/a.git" main 2>wrong; then bad 'git: a push above 16 MiB passed'; else ok; fi
    if grep -q 413 wrong; then ok; else bad "git: a push above 16 MiB: $(cat wrong)"; fi
fi

# ---- Mercurial
if has Mercurial hg && has_python Mercurial mercurial; then
    hg init srv/hg/a
    printf '[paths]\n/ = %s/srv/hg/*\n[web]\npush_ssl = false\nallow_push = *\nallow-push = *\n' "$folder" >srv/hg/hgweb.config
    site 1 "/hg=$folder/srv/cgi/hg"
    hg init hgwork
    echo one >hgwork/text
    hg -R hgwork commit -qAm one
    hg -R hgwork push -q "$url/hg/a" 2>wrong >&2 || bad "hg push: $(cat wrong)"
    hg clone -q "$url/hg/a" hgcopy 2>wrong >&2 || bad "hg clone: $(cat wrong)"
    same 'Mercurial: a clone' "$(cat hgcopy/text)" one
    if curl -s "$url/hg/a" | grep -q '<title>a:'; then ok; else bad 'Mercurial: its page'; fi
fi

# ---- Fossil
if has Fossil fossil; then
    export FOSSIL_HOME=$folder USER=tester
    fossil init srv/fossil/a.fossil >/dev/null 2>wrong || bad "fossil init: $(cat wrong)"
    printf 'directory: %s\nnotfound: %s/\n' "$folder/srv/fossil" "$url" >srv/cgi/fossil.cgi
    site 1 "/fossil=$folder/srv/cgi/fossil"
    fossil clone "$url/fossil/a" fcopy.fossil >said.fossil 2>wrong || bad "fossil clone: $(tail -n 3 said.fossil wrong)"
    if [ -s fcopy.fossil ]; then ok; else bad 'Fossil: a clone'; fi
    if curl -sL "$url/fossil/a/timeline" | grep -qi timeline; then ok; else bad 'Fossil: its page'; fi
fi

# ---- gitweb and cgit
if has gitweb git perl && has_perl gitweb CGI && [ -r /usr/share/gitweb/gitweb.cgi ]; then
    [ -d srv/git/a.git ] || git init -q --bare srv/git/a.git
    printf '$projectroot = "%s/srv/git";\n' "$folder" >srv/git/gitweb.conf
    site 1 "/gitweb=$folder/srv/cgi/gitweb"
    if curl -s "$url/gitweb" | grep -q 'a\.git'; then ok; else bad "gitweb: $(curl -s "$url/gitweb" | head -c 300)"; fi
else
    echo 'skipped: gitweb: not installed'
fi
if [ -x /usr/lib/cgit/cgit.cgi ]; then
    site 1 '/cgit=/usr/lib/cgit/cgit.cgi'
    if curl -s "$url/cgit/" | grep -q "generated by.*cgit"; then ok; else bad "cgit: $(curl -s "$url/cgit/" | head -c 300)"; fi
else
    echo 'skipped: cgit: not installed'
fi

# ---- PHP
if has PHP php-cgi; then
    echo '<?php header("Content-Type: text/plain"); echo "hello ", $_GET["name"] ?? "nobody", " ", $_POST["word"] ?? "", "\n";' >srv/php/index.php
    echo '<?php echo $_FILES["file"]["size"], "\n";' >srv/php/upload.php
    { echo '#!/usr/bin/php-cgi'; cat srv/php/index.php; } >srv/php/direct
    chmod +x srv/php/direct
    site 1 "/php=$folder/srv/cgi/php" "/direct=$folder/srv/php/direct"
    same 'PHP: the index' "$(curl -s "$url/php?name=ada")" 'hello ada '
    same 'PHP: a page by its path' "$(curl -s -d word=b "$url/php/index.php?name=ada")" 'hello ada b'
    same 'PHP: a page that is not there' "$(curl -s -o /dev/null -w '%{http_code}' "$url/php/none.php")" 404
    head -c 1500000 /dev/zero >sent
    same 'PHP: an upload' "$(curl -s -F file=@sent "$url/php/upload.php")" 1500000
    # a page that is a program of php-cgi is not run by itself
    if curl -s "$url/direct?name=ada" | grep -q '^hello ada'; then bad 'PHP: a page is run by itself'; else ok; fi
fi

# ---- Perl, and an upload of 5 MB
head -c 5000000 /dev/zero >sent
if has Perl perl && has_perl Perl CGI; then
    site 1 "/perl=$folder/srv/cgi/perl"
    same 'Perl' "$(curl -s "$url/perl?name=ada")" 'hello ada'
    same 'Perl: an upload of 5 MB' "$(curl -s -F name=ada -F file=@sent "$url/perl" | paste -sd' ')" 'hello ada sent has 5000000 bytes'
fi

# ---- Python
site 1 "/wsgi=$folder/srv/cgi/wsgi" "/flask=$folder/srv/cgi/flask" "/django=$folder/srv/cgi/django" "/form=$folder/srv/cgi/form"
if [ -x /usr/bin/python3 ]; then
    same 'Python: plain' "$(curl -s -d name=ada "$url/form" | tail -n 1)" '<p>Hello, ada.</p>'
    same 'WSGI' "$(curl -s "$url/wsgi")" 'hello from /wsgi'
    if has_python Flask flask; then
        same 'Flask' "$(curl -s -d word=yes "$url/flask/greet/ada")" 'hello ada, yes'
        same 'Flask: its root' "$(curl -s "$url/flask/")" home
        same 'Flask: what is not there' "$(curl -s -o /dev/null -w '%{http_code}' "$url/flask/none")" 404
    fi
    if has_python Django django; then
        same 'Django' "$(curl -s "$url/django/greet/ada")" 'hello ada'
    fi
else
    echo 'skipped: Python: no /usr/bin/python3'
fi

# ---- what a server in front tells by fields
script srv/cgi/program 'printf "Content-Type: text/plain\n\n%s %s %s %s %s\n" "$REMOTE_USER" "$REMOTE_ADDR" "$REQUEST_SCHEME" "$HTTPS" "$SERVER_PORT"'
site 1 "/fronted=$folder/srv/cgi/fronted"
same 'told by a server in front' \
    "$(curl -s -H 'X-Remote-User: ada' -H 'X-Forwarded-For: 203.0.113.9, 192.0.2.7' -H 'X-Forwarded-Proto: https' "$url/fronted")" \
    'ada 192.0.2.7 https on 443'

# ---- the programs of WebSockets
: >followed
site 1 "/echo=$folder/srv/cgi/echo=websocket" "/python=$folder/srv/cgi/answer.py=websocket" \
    "/node=$folder/srv/cgi/answer.js=websocket" "/follow=$folder/srv/cgi/follow=websocket"
cat >talk.py <<'PYTHON'
"""Says a text on a WebSocket, and prints the first one that comes; a file that is named gets a line meanwhile."""
import base64
import os
import socket
import sys

port, path, text = int(sys.argv[1]), sys.argv[2], sys.argv[3]
with socket.create_connection(("127.0.0.1", port), timeout=20) as it, it.makefile("rb") as file:
    key = base64.b64encode(os.urandom(16)).decode()
    it.sendall(f"GET {path} HTTP/1.1\r\nHost: a\r\nConnection: Upgrade\r\nUpgrade: websocket\r\n"
               f"Sec-WebSocket-Version: 13\r\nSec-WebSocket-Key: {key}\r\n\r\n".encode())
    while file.readline().strip():
        pass
    if len(sys.argv) > 4:
        with open(sys.argv[4], "a") as followed:
            followed.write(text + "\n")
    else:
        mask = os.urandom(4)
        data = text.encode()
        it.sendall(bytes([0x81, 0x80 | len(data)]) + mask + bytes(b ^ mask[i % 4] for i, b in enumerate(data)))
    head = file.read(2)
    print(file.read(head[1] & 127).decode())
PYTHON
talk() { timeout 30 python3 talk.py "$port" "$@" 2>&1; }
same 'a WebSocket in sh' "$(talk /echo hello)" 'you said: hello'
[ ! -x /usr/bin/python3 ] || same 'a WebSocket in Python' "$(talk /python hello)" olleh
if [ -x /usr/bin/node ]; then same 'a WebSocket in node' "$(talk /node hello)" HELLO; else echo 'skipped: a WebSocket in node: no /usr/bin/node'; fi
same 'a file as it grows' "$(talk /follow 'a line' "$folder/followed")" 'a line'
count
