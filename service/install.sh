#!/bin/sh
# Installs the program, its pages, its service and its documents.
#
# usage: service/install.sh [PROGRAM]         PROGRAM is ./arrayd at the top where none is given
#
# DESTDIR stands before each name, for a package. A configuration that is there is left. Behind it, once: systemd-sysusers,
# systemctl daemon-reload. For Debian ./package.sh makes a package, which does all of this.
set -e
here=$(dirname "$0")
top=$here/..
program=${1:-$top/arrayd}
documents=$DESTDIR/usr/share/doc/arrayd

# what is written to, where a file is not there yet
configuration() {
    [ -e "$DESTDIR$2" ] || install -D -m 0644 "$here/$1" "$DESTDIR$2"
}

install -D -m 0755 "$program" "$DESTDIR/usr/sbin/arrayd"
install -D -m 0755 "$here/arrayd-reg" "$DESTDIR/usr/sbin/arrayd-reg"
for command in arrayd-run arrayd-console arrayd-status arrayd-prepare arrayd-watch; do
    install -D -m 0755 "$here/$command" "$DESTDIR/usr/libexec/arrayd/$command"
done
for unit in arrayd@.service arrayd-prepare@.service arrayd-status@.socket arrayd-status@.service arrayd-watch@.timer arrayd-watch@.service \
    arrayd-logrotate.timer arrayd-logrotate.service; do
    install -D -m 0644 "$here/$unit" "$DESTDIR/usr/lib/systemd/system/$unit"
done
install -D -m 0644 "$here/arrayd.sysusers" "$DESTDIR/usr/lib/sysusers.d/arrayd.conf"
configuration example.conf /etc/arrayd/one.conf
configuration arrayd.logrotate /etc/logrotate.d/arrayd
# the pages have their version from here
for page in arrayd.8 arrayd-reg.8; do
    install -D -m 0644 "$here/$page" "$DESTDIR/usr/share/man/man8/$page"
    sed -i "s/^\.Os\$/.Os \"arrayd $(cat "$top/VERSION")\"/" "$DESTDIR/usr/share/man/man8/$page"
done
install -d -m 0755 "$documents/docs" "$documents/examples"
install -m 0644 "$top/README.md" "$top/CHANGELOG.md" "$top/CONTRIBUTING.md" "$top/SECURITY.md" "$documents"
install -m 0644 "$top"/docs/*.* "$documents/docs"
install -m 0644 "$here/example.conf" "$documents/examples"
install -m 0755 "$here/fence_ceph_blocklist" "$documents/examples"
# a dashboard for Grafana, and rules for Prometheus with their tests, where there are any
for dashboard in "$here"/*.json "$here"/arrayd-alerts*.yml; do
    [ ! -e "$dashboard" ] || install -m 0644 "$dashboard" "$documents/examples"
done
