#!/bin/sh
# Installs the gateway below a folder: packaging/install.sh [PREFIX]. PREFIX is /usr/local where none is given; DESTDIR stands before it, as
# packages have it. The program is built first where it has to be. Files that are there are written over; nothing else is touched.
here=$(CDPATH='' cd -- "$(dirname -- "$0")/.." && pwd) || exit 1
prefix=${1-/usr/local}
case $prefix in
    /*) ;;
    *) echo "install: PREFIX has to begin with /: $prefix" >&2; exit 2 ;;
esac
case $prefix in
    *"'"* | *'|'* | *'&'* | *\\*) echo "install: PREFIX has a character that can't stand there: $prefix" >&2; exit 2 ;;
esac
root=${DESTDIR-}$prefix
set -e
"$here/boxes" --build
install -d "$root/bin" "$root/libexec" "$root/share/boxes/examples" "$root/share/man/man1" "$root/lib/systemd/system"
install -m 755 "$here/crates/boxes/out/boxes" "$root/libexec/boxes"
sed "s|@PREFIX@|$prefix|g" "$here/packaging/boxes.sh" > "$root/bin/boxes"
chmod 755 "$root/bin/boxes"
install -m 644 "$here/packaging/usage.txt" "$here/VERSION" "$root/share/boxes/"
install -m 644 "$here"/examples/*.conf "$root/share/boxes/examples/"
install -m 644 "$here/docs/boxes.1" "$root/share/man/man1/boxes.1"
for unit in "$here"/packaging/*.service "$here"/packaging/*.socket "$here"/packaging/*.timer; do
    sed "s|@PREFIX@|$prefix|g" "$unit" > "$root/lib/systemd/system/${unit##*/}"
done
echo "install: $prefix/bin/boxes, its man page, examples and units are in place"
