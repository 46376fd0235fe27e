#!/usr/bin/env bash
# Puts what C users look for where they look for it, or takes it away again. Everything is built before (make command).
#   scripts/install.sh install|uninstall DESTDIR PREFIX
set -euo pipefail
cd "$(dirname "$0")/.."

prefix=$3
root=$2$3
case $prefix in
    /*) ;;
    *) echo "PREFIX is '$prefix': a path from the root on is needed" >&2; exit 1 ;;
esac

# what is built, where it goes below the prefix, and its mode
files() {
    echo "include/canceller.h include/canceller.h 644"
    echo "target/staticlib/libcanceller.a lib/libcanceller.a 644"
    echo "target/canceller bin/canceller 755"
    echo "command/canceller.1 share/man/man1/canceller.1 644"
}
pc=lib/pkgconfig/canceller.pc

if [ "$1" = uninstall ]; then
    files | while read -r _ to _; do rm -f "$root/$to"; done
    rm -f "$root/$pc"
    exit 0
fi

while read -r from _; do
    [ -r "$from" ] || { echo "$from is not there: make command builds it" >&2; exit 1; }
done < <(files)
version=$(sed -n 's/^#define CANCELLER_VERSION "\(.*\)"$/\1/p' include/canceller.h)
[ -n "$version" ] || { echo "include/canceller.h has no version" >&2; exit 1; }
while read -r from to mode; do
    mkdir -p "$root/$(dirname "$to")"
    install -m "$mode" "$from" "$root/$to"
done < <(files)
mkdir -p "$root/$(dirname "$pc")"
{
    # blanks in a folder's name are escaped, as pkg-config asks
    echo "prefix=${prefix// /\\ }"
    sed "s/@VERSION@/$version/" command/canceller.pc.in
} >"$root/$pc.new"
chmod 644 "$root/$pc.new"
mv "$root/$pc.new" "$root/$pc"
echo "installed below $root: include/canceller.h, lib/libcanceller.a, $pc, bin/canceller, share/man/man1/canceller.1"
