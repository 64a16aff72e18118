#!/bin/sh
# Installs the program, cgihost-run, their manual pages and the examples below a prefix, and nothing else, or takes away what
# it installed:
#     packaging/install.sh /usr/local
#     packaging/install.sh --uninstall /usr/local
# The program is the one that was built, or the one that CGIHOST names.
set -eu
usage() {
    echo 'usage: packaging/install.sh [--uninstall] PREFIX' >&2
    exit 2
}
remove=no
if [ "${1:-}" = --uninstall ]; then
    remove=yes
    shift
fi
[ $# = 1 ] && [ -n "$1" ] || usage
prefix=$1
root=$(cd "$(dirname "$0")/.." && pwd)
examples=$prefix/share/doc/cgihost/examples

# What was put there is taken away, and the folders that were made for it and hold nothing else.
if [ $remove = yes ]; then
    rm -f "$prefix/bin/cgihost" "$prefix/bin/cgihost-run" "$prefix/share/man/man1/cgihost.1" \
        "$prefix/share/man/man1/cgihost-run.1" "$prefix/share/man/man5/cgihost.toml.5"
    (cd "$root/examples" && find . -type f) | while read -r example; do
        rm -f "$examples/$example"
    done
    for folder in "$examples/page" "$examples" "$prefix/share/doc/cgihost"; do
        [ ! -d "$folder" ] || rmdir "$folder" 2>/dev/null || echo "install.sh: $folder holds something else, and stays" >&2
    done
    exit 0
fi

program=${CGIHOST:-$root/crates/cgihost/out/cgihost}
[ -x "$program" ] || {
    echo "install.sh: $program is not built; (cd $root/crates/cgihost && rt run -- --version) builds it" >&2
    exit 1
}
install -d "$prefix/bin" "$prefix/share/man/man1" "$prefix/share/man/man5" "$examples"
install -m 755 "$program" "$prefix/bin/cgihost"
install -m 755 "$root/packaging/cgihost-run" "$prefix/bin/cgihost-run"
install -m 644 "$root/docs/cgihost.1" "$root/docs/cgihost-run.1" "$prefix/share/man/man1/"
install -m 644 "$root/docs/cgihost.toml.5" "$prefix/share/man/man5/cgihost.toml.5"
(cd "$root/examples" && find . -type f) | while read -r example; do
    mode=644
    [ ! -x "$root/examples/$example" ] || mode=755
    install -D -m "$mode" "$root/examples/$example" "$examples/$example"
done
