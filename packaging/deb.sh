#!/bin/sh
# Builds a Debian package of the built program, or of the one that CGIHOST names, in a folder, and says its name:
#     packaging/deb.sh /tmp
# It holds the program and cgihost-run, the manual pages, the examples, the unit and the socket, the configuration for
# logrotate, and /etc/cgihost.toml, which like that one is kept as it is where it was changed. Nothing is served until the unit
# is enabled. DEBFULLNAME and DEBEMAIL say who builds it.
set -eu
umask 022
[ $# = 1 ] && [ -d "$1" ] || {
    echo 'usage: packaging/deb.sh FOLDER' >&2
    exit 2
}
root=$(cd "$(dirname "$0")/.." && pwd)
command -v dpkg-deb >/dev/null || {
    echo 'deb.sh: dpkg-deb is not installed' >&2
    exit 1
}
stage=$(mktemp -d)
trap 'rm -rf "$stage"' EXIT
package=$stage/package
made=$(date -R -d "@${SOURCE_DATE_EPOCH:-$(date +%s)}")
who="${DEBFULLNAME:-cgihost} <${DEBEMAIL:-cgihost@$(hostname -f 2>/dev/null || hostname)}>"

# ---- the files: those that are installed by hand, where Debian has them, and those for a service
"$root/packaging/install.sh" "$package/usr"
! command -v strip >/dev/null || strip --strip-unneeded --remove-section=.comment --remove-section=.note "$package/usr/bin/cgihost"
version=$("$package/usr/bin/cgihost" --version)
version=${version##* }
for file in cgihost.service cgihost.socket cgihost.logrotate; do
    sed 's|/usr/local/|/usr/|g' "$root/packaging/$file" >"$stage/$file"
done
install -d "$package/lib/systemd/system" "$package/etc/logrotate.d" "$package/DEBIAN"
install -m 644 "$stage/cgihost.service" "$stage/cgihost.socket" "$package/lib/systemd/system/"
install -m 644 "$stage/cgihost.logrotate" "$package/etc/logrotate.d/cgihost"
{
    echo '# What cgihost.service serves: see cgihost.toml(5). These programs are yours to put into /srv/cgi.'
    sed '/^#/d' "$root/examples/small.toml"
} >"$package/etc/cgihost.toml"
cat >"$package/usr/share/doc/cgihost/copyright" <<END
This package was built from the sources of cgihost by their packaging/deb.sh.

Copyright (C) $(date -d "$made" +%Y) the authors of cgihost. Its sources name no license.
END
cat >"$package/usr/share/doc/cgihost/changelog" <<END
cgihost ($version) unstable; urgency=medium

  * Built from the sources of cgihost by packaging/deb.sh.

 -- $who  $made
END
gzip -9n "$package/usr/share/doc/cgihost/changelog" "$package"/usr/share/man/man*/*

# ---- what Debian is told. What the program is linked with is asked of dpkg-shlibdeps, where it is installed.
needs='libc6'
if command -v dpkg-shlibdeps >/dev/null; then
    mkdir -p "$stage/debian"
    printf 'Source: cgihost\n\nPackage: cgihost\nArchitecture: any\n' >"$stage/debian/control"
    needs=$(cd "$stage" && dpkg-shlibdeps -O package/usr/bin/cgihost 2>/dev/null | sed -n 's/^shlibs:Depends=//p')
fi
cat >"$package/DEBIAN/control" <<END
Package: cgihost
Version: $version
Architecture: $(dpkg --print-architecture)
Maintainer: $who
Installed-Size: $(du -sk "$package" | cut -f 1)
${needs:+Depends: $needs
}Recommends: logrotate
Section: httpd
Priority: optional
Description: CGI/1.1 and WebSocket program host
 A web server for small programs: for each HTTP request it runs a program and
 answers from that program's output, as CGI/1.1 (RFC 3875) says, and for each
 WebSocket it runs one whose lines are the messages.
END
printf '%s\n' /etc/cgihost.toml /etc/logrotate.d/cgihost >"$package/DEBIAN/conffiles"
(cd "$package" && find usr lib -type f -exec md5sum {} + | sort -k 2) >"$package/DEBIAN/md5sums"

# ---- systemd is told of the unit, a service that runs is ended before its program is taken away, and its logs go at the end
cat >"$package/DEBIAN/postinst" <<'END'
#!/bin/sh
set -e
if [ -z "${DPKG_ROOT:-}" ] && [ -d /run/systemd/system ]; then
    systemctl --system daemon-reload >/dev/null || true
fi
END
cat >"$package/DEBIAN/prerm" <<'END'
#!/bin/sh
set -e
if [ "$1" = remove ] && [ -z "${DPKG_ROOT:-}" ] && [ -d /run/systemd/system ]; then
    deb-systemd-invoke stop cgihost.service cgihost.socket >/dev/null || true
fi
END
cat >"$package/DEBIAN/postrm" <<'END'
#!/bin/sh
set -e
if [ "$1" = purge ]; then
    rm -rf "${DPKG_ROOT:-}/var/log/cgihost" "${DPKG_ROOT:-}/var/log/private/cgihost"
fi
if [ -z "${DPKG_ROOT:-}" ] && [ -d /run/systemd/system ]; then
    systemctl --system daemon-reload >/dev/null || true
fi
END
chmod 755 "$package"/DEBIAN/postinst "$package"/DEBIAN/prerm "$package"/DEBIAN/postrm

name=cgihost_${version}_$(dpkg --print-architecture).deb
dpkg-deb --root-owner-group --build "$package" "$stage/$name" >/dev/null
mv "$stage/$name" "$1/$name"
echo "${1%/}/$name"
