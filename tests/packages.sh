#!/usr/bin/env bash
# Tries what lies in packaging/: the script that installs, there and back; the Debian package, unpacked and installed into a
# folder of its own; the configuration for logrotate; and the wrapper for supervisors and containers. What isn't installed is
# skipped with a word. It wants the program that `rt ci` leaves, and works in a temporary folder.
. "$(dirname "$0")/common.sh"
. "$root/tests/server.sh"
for needed in curl install; do
    command -v "$needed" >/dev/null || {
        echo "skipped: no $needed"
        exit 0
    }
done
export CGIHOST=$program DEBFULLNAME=tester DEBEMAIL=tester@cgihost.invalid
has() {
    command -v "$2" >/dev/null || {
        echo "skipped: $1: no $2"
        return 1
    }
}

# The files below a folder.
files() {
    (cd "$1" && find . ! -type d | sed 's|^\./||' | sort)
}

# ---- the script, there and back
prefix="$folder/a prefix"
"$root/packaging/install.sh" "$prefix" || bad 'it is not installed'
{
    printf 'bin/%s\n' cgihost cgihost-run
    (cd "$root/examples" && find . -type f | sed 's|^\.|share/doc/cgihost/examples|')
    printf 'share/man/man%s\n' 1/cgihost.1 1/cgihost-run.1 5/cgihost.toml.5
} | sort >wanted
same 'what is installed' "$(files "$prefix")" "$(cat wanted)"
same 'the installed program' "$("$prefix/bin/cgihost" --version)" 'cgihost 1'
same 'the installed wrapper' "$(CGIHOST="$prefix/bin/cgihost" "$prefix/bin/cgihost-run" --version)" 'cgihost 1'
"$root/packaging/install.sh" "$prefix" || bad 'it is not installed twice'
same 'what is installed twice' "$(files "$prefix")" "$(cat wanted)"
"$root/packaging/install.sh" --uninstall "$prefix" || bad 'it is not taken away'
same 'what is left' "$(files "$prefix")" ''
same 'the folder of the examples' "$(ls "$prefix/share/doc")" ''
"$root/packaging/install.sh" --uninstall "$prefix" || bad 'it is not taken away where it was not'
for words in '' '--uninstall' 'a b' '--uninstall a b'; do
    # shellcheck disable=SC2086
    same "install.sh $words" "$("$root/packaging/install.sh" $words 2>&1; echo $?)" $'usage: packaging/install.sh [--uninstall] PREFIX\n2'
done
same 'no program' "$(CGIHOST="$folder/none" "$root/packaging/install.sh" "$prefix" 2>&1 | cut -d ';' -f 1)" "install.sh: $folder/none is not built"

# ---- the Debian package
if has 'the Debian package' dpkg-deb && has 'the Debian package' dpkg; then
    mkdir built
    package=$(SOURCE_DATE_EPOCH=1790000000 "$root/packaging/deb.sh" built)
    same 'its name' "$package" "built/cgihost_1_$(dpkg --print-architecture).deb"
    same 'a folder is wanted' "$("$root/packaging/deb.sh" 2>&1)" 'usage: packaging/deb.sh FOLDER'
    mkdir again
    SOURCE_DATE_EPOCH=1790000000 "$root/packaging/deb.sh" again >/dev/null
    if cmp -s "$package" again/*.deb; then ok; else bad 'built twice it differs'; fi

    # .. unpacked: what is installed by hand, its pages compressed, and what is for a service
    dpkg -x "$package" x
    {
        printf 'etc/%s\n' cgihost.toml logrotate.d/cgihost
        printf 'lib/systemd/system/cgihost.%s\n' service socket
        sed 's|^|usr/|; s|\.[15]$|&.gz|' wanted
        printf 'usr/share/doc/cgihost/%s\n' changelog.gz copyright
    } | sort >packed
    same 'what is packed' "$(files x)" "$(cat packed)"
    same 'the packed program' "$(x/usr/bin/cgihost check x/etc/cgihost.toml 2>said)" 'ok: 2 scripts'
    same 'a request of it' "$(printf 'GET /hello HTTP/1.0\r\n\r\n' | x/usr/bin/cgihost once "/hello=$PWD/x/usr/share/doc/cgihost/examples/hello" | tail -n 1)" \
        'hello from /hello, asked by 127.0.0.1'
    for page in x/usr/share/man/man?/*; do
        name=${page##*/}
        if zcat "$page" | cmp -s - "$root/docs/${name%.gz}"; then ok; else bad "the page $name"; fi
    done
    if has 'the compressed pages' man; then
        same 'the pages format' "$(for page in x/usr/share/man/man?/*; do man --warnings -l "$page" 2>&1 >/dev/null; done)" ''
    fi
    same 'what stands in it of /usr/local' "$(grep -rl /usr/local x/etc x/lib)" ''
    same 'its conffiles' "$(dpkg-deb -I "$package" conffiles)" $'/etc/cgihost.toml\n/etc/logrotate.d/cgihost'
    dpkg-deb -I "$package" md5sums >sums
    if (cd x && md5sum --quiet -c ../sums); then ok; else bad 'the sums'; fi
    same 'the files with a sum' "$(wc -l <sums)" "$(($(wc -l <packed) - 2))"
    if has 'the units of the package' systemd-analyze; then
        mkdir units
        for unit in cgihost.service cgihost.socket; do
            sed "s|/usr/bin/cgihost|$folder/x&|; /^Documentation=/d" "x/lib/systemd/system/$unit" >"units/$unit"
        done
        same 'its units' "$(SYSTEMD_LOG_LEVEL=warning systemd-analyze verify units/cgihost.service units/cgihost.socket 2>&1)" ''
    fi
    if has 'what lintian says' lintian; then
        same 'what lintian says' "$(lintian --no-tag-display-limit "$package" 2>/dev/null)" ''
    fi

    # .. installed into a folder of its own, and anew, removed and purged: a site file that was changed is kept until then
    if [ "$(id -u)" = 0 ] || has 'an install into a folder' fakeroot; then
        mkdir -p own/var/lib/dpkg/info own/var/lib/dpkg/updates own/var/lib/dpkg/triggers
        touch own/var/lib/dpkg/status own/var/lib/dpkg/available
        asroot=
        [ "$(id -u)" = 0 ] || asroot=fakeroot
        in_own() {
            $asroot dpkg --root="$folder/own" --log="$folder/dpkg.log" --force-not-root --force-depends --force-script-chrootless \
                --force-bad-path --force-confold "$@" >dpkg.out 2>&1 || bad "dpkg $1: $(tail -n 3 dpkg.out)"
        }
        of_package() {
            files own | grep -v '^var/lib/dpkg/'
        }
        in_own -i "$package"
        same 'what is installed of it' "$(of_package)" "$(cat packed)"
        same 'its state' "$(dpkg-query --admindir=own/var/lib/dpkg -f '${Status} ${Version}' -W cgihost)" 'install ok installed 1'
        echo '# mine' >>own/etc/cgihost.toml
        in_own -i "$package"
        same 'a site file that was changed' "$(tail -n 1 own/etc/cgihost.toml)" '# mine'
        mkdir -p own/var/log/cgihost
        touch own/var/log/cgihost/access.log
        in_own -r cgihost
        same 'what is left where it was removed' "$(of_package)" $'etc/cgihost.toml\netc/logrotate.d/cgihost\nvar/log/cgihost/access.log'
        in_own -P cgihost
        same 'what is left where it was purged' "$(of_package)" ''
    fi
fi

# ---- the configuration for logrotate, with a folder and a FIFO of this script's
script hello 'printf "Content-Type: text/plain\n\nhi\n"'
script slow ': >slow.runs
sleep 1
printf "Content-Type: text/plain\n\nslept\n"'
script long ': >long.runs
exec sleep 20'
site() {
    port=$(free_port)
    "$program" upgrade "/hello=$folder/hello" | sed "s/^port = .*/port = $port/" >site
    printf '[[host.script]]\npath = "/%s"\nprogram = "%s"\n' slow "$folder/slow" long "$folder/long" >>site
}
asks() {
    curl -s -m 20 "http://127.0.0.1:$port/$1"
}
listens() {
    for _ in $(seq 500); do
        grep -q listening said && return
        sleep 0.02
    done
    bad "it doesn't listen: $(cat said)"
}
PATH=$PATH:/usr/sbin
if has 'the configuration for logrotate' logrotate; then
    mkdir -m 755 logs
    mkfifo fifo
    sed "s|/var/log/cgihost|$folder/logs|; s|/run/cgihost.orders|$folder/fifo|g" "$root/packaging/cgihost.logrotate" >rotate
    chmod 644 rotate
    site
    : >said
    "$program" serve site --log logs/access.log <>fifo 2>said &
    server=$!
    listens
    for number in 1 2 3; do
        same "logrotate: a request $number" "$(asks hello)" hi
        for _ in $(seq 500); do
            [ -s logs/access.log ] && break
            sleep 0.02
        done
        logrotate -f -s state rotate >rotated 2>&1 || bad "logrotate: $(tail -n 1 rotated)"
        for _ in $(seq 500); do
            [ -e logs/access.log ] && break
            sleep 0.02
        done
    done
    same 'the files of the log' "$(ls logs | tr '\n' ' ')" 'access.log access.log.1 access.log.2.gz access.log.3.gz '
    same 'the lines of each' "$(for file in logs/*; do zcat -f "$file" | wc -l; done | tr '\n' ' ')" '0 1 1 1 '
    echo stop >fifo
    ends 'a server whose log was rotated by logrotate' 0 10
    # .. and without a server nothing is waited for
    rm fifo
    echo line >logs/access.log
    timeout 20 logrotate -f -s state rotate >rotated 2>&1 || bad "logrotate without a server: $(tail -n 1 rotated)"
    same 'without a server' "$([ -e logs/access.log ] || echo moved)" moved
fi

# ---- the wrapper: a signal drains, a second one stops, and it ends with the server's status
wraps() {
    site
    : >said
    # A job in the background ignores INT, unless it is told not to.
    env --default-signal=INT "$root/packaging/cgihost-run" serve site "$@" 2>said &
    server=$!
    listens
}
# Asks for a script in the background, and waits until its program runs.
begins() {
    asks "$1" >slept &
    asked=$!
    for _ in $(seq 500); do
        [ -e "$1.runs" ] && break
        sleep 0.02
    done
}
for name in TERM INT HUP; do
    wraps
    rm -f slow.runs
    begins slow
    kill -"$name" "$server"
    wait "$asked"
    same "what runs at $name comes to its end" "$(cat slept)" slept
    ends "the wrapper, drained by $name" 0 10
done
wraps
begins long
kill -INT "$server"
sleep 0.2
kill -INT "$server"
ends 'the wrapper, stopped by a second INT' 0 10
wait "$asked"
same 'what runs at a second INT' "$(cat slept)" ''
wraps --log access
same 'a request under the wrapper' "$(asks hello)" hi
for _ in $(seq 500); do
    [ -s access ] && break
    sleep 0.02
done
mv access moved
kill -USR1 "$server"
for _ in $(seq 500); do
    [ -e access ] && break
    sleep 0.02
done
same 'the log at USR1' "$(wc -l <moved) $(wc -l <access)" '1 0'
same 'a request behind USR1' "$(asks hello)" hi
kill -TERM "$server"
ends 'the wrapper, behind USR1' 0 10
same 'status 4' "$("$root/packaging/cgihost-run" serve none 2>/dev/null; echo $?)" 4
same 'status 2' "$("$root/packaging/cgihost-run" serve 2>/dev/null; echo $?)" 2
same 'status 6' "$("$root/packaging/cgihost-run" serve site --turns 1 2>/dev/null; echo $?)" 6
same 'no program' "$(CGIHOST=$folder/none "$root/packaging/cgihost-run" serve site 2>/dev/null; echo $?)" 127
same 'what it leaves in the folder of its FIFO' "$(mkdir fifos; TMPDIR=$folder/fifos "$root/packaging/cgihost-run" --version; ls fifos)" 'cgihost 1'
same 'no folder for its FIFO' "$(TMPDIR=$folder/none "$root/packaging/cgihost-run" --version 2>/dev/null; echo $?)" 5

# .. as the first process of a namespace, as in a container: orphans are waited for, and TERM drains
if unshare -fp --mount-proc true 2>/dev/null; then
    script orphans '(sleep 0.2 &) >/dev/null 2>&1
printf "Content-Type: text/plain\n\nleft\n"'
    site
    printf '[[host.script]]\npath = "/orphans"\nprogram = "%s/orphans"\n' "$folder" >>site
    : >said
    unshare -fp --mount-proc --kill-child "$root/packaging/cgihost-run" serve site 2>said &
    server=$!
    listens
    first=$(pgrep -P "$server" | head -n 1)
    same 'a program that leaves another' "$(asks orphans)" left
    gone=
    for _ in $(seq 500); do
        gone=$(pgrep -P "$first" -f sleep) || break
        sleep 0.02
    done
    same 'orphans that are left' "$gone" ''
    kill -TERM "$first"
    ends 'the first process' 0 10
else
    echo 'skipped: the first process of a container: unshare may not'
fi

count
