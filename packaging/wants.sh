#!/bin/sh
# Installs the Debian packages that the tests use, where one is missing and the caller is root: in three tries. Else it fails, and its last line names them.
set -eu
wanted='black chromium dpkg-dev etcd-server faketime fish flake8 gcc gdb groff-base iproute2 man-db mypy parallel pkg-config postgresql procps
    prometheus python3-argcomplete python3-psycopg2 python3-pytest python3-pytest-xdist python3-redis python3-rich python3-typeshed redis-server zsh'
# Sets `missing`.
look() {
    missing=
    for package in $wanted; do
        dpkg-query -W -f '${Status}\n' "$package" 2> /dev/null | grep -q ' installed$' || missing="$missing $package"
    done
}
look
for pause in 0 10 60; do
    [ -n "$missing" ] && [ "$(id -u)" = 0 ] && command -v apt-get > /dev/null || break
    sleep "$pause"
    apt-get update -q < /dev/null || true
    # shellcheck disable=SC2086 # one word a package
    DEBIAN_FRONTEND=noninteractive apt-get install -y -q --no-install-recommends -o DPkg::Lock::Timeout=300 $missing < /dev/null || true
    look
done
[ -z "$missing" ] || { echo "packaging/wants.sh: these Debian packages are missing:$missing" >&2; exit 1; }
