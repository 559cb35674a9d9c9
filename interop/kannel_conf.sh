#!/bin/sh
# Reads the sample configurations of Debian's packages kannel and kannel-docs with `boxes show`, and prints what it says of each: as it
# stands, and with a store put into its core group (or a core group with a store in front of it, where it has none).
# It is outside the gate: it needs apt-get and dpkg-deb and a Debian archive, installs nothing, and skips with a word where one is missing.
#
#   interop/kannel_conf.sh [FOLDER]      FOLDER holds the two packages' .deb files, where they were fetched before
here=$(CDPATH= cd -- "$(dirname -- "$0")/.." && pwd) || exit 1
command -v dpkg-deb > /dev/null 2>&1 || { echo "skipped: dpkg-deb isn't installed (Debian's package dpkg)"; exit 0; }
room=$(mktemp -d) || exit 1
trap 'rm -rf "$room"' EXIT
mkdir "$room/packages" "$room/files" "$room/samples"

for package in kannel kannel-docs; do
    if [ $# -gt 0 ]; then
        cp "$1/${package}_"*.deb "$room/packages/" 2> /dev/null
    elif command -v apt-get > /dev/null 2>&1; then
        (cd "$room/packages" && apt-get download "$package") > /dev/null 2>&1
    fi
    ls "$room/packages/${package}_"*.deb > /dev/null 2>&1 || { echo "skipped: no archive gives Debian's package $package"; exit 0; }
    dpkg-deb -x "$room/packages/${package}_"*.deb "$room/files" || exit 1
done
echo "packages: $(cd "$room/packages" && echo *)"

# The files, and the examples of the user guide: what it shows in a box that begins a group.
(cd "$room/files" && find . -name '*.conf' | LC_ALL=C sort) | while read -r file; do
    cp "$room/files/$file" "$room/samples/$(echo "${file#./}" | tr / _)"
done
find "$room/files" -name userguide.html | while read -r guide; do
    awk -v room="$room/samples" '
        toupper($0) ~ /<PRE/ { on = 1; text = ""; next }
        on && toupper($0) ~ /<\/PRE/ {
            if (text ~ /(^|\n)group *=/) { n++; file = sprintf("%s/userguide_%02d", room, n); printf "%s", text > file; close(file) }
            on = 0
            next
        }
        on {
            sub(/^CLASS="[^"]*"$/, ""); sub(/^>/, ""); gsub(/&#13;/, "")
            gsub(/&lt;|&#60;/, "<"); gsub(/&gt;|&#62;/, ">"); gsub(/&quot;|&#34;/, "\""); gsub(/&amp;|&#38;/, "\\&")
            text = text $0 "\n"
        }' "$guide"
done

# (the first run builds the program)
"$here/boxes" > /dev/null 2>&1

# What `show` says of a configuration: that it is read, or why not.
says() {
    rm -f "$room"/gate.store.* "$room"/*.store.*
    told=$(cd "$room" && "$here/boxes" show "$1" 2>&1 > "$room/out")
    case $? in
        0) echo "read, $(wc -l < "$room/out") lines" ;;
        *) echo "$told" | sed 's/^boxes: configuration: //' ;;
    esac
}

for sample in "$room"/samples/*; do
    if grep -q '^group *= *core *$' "$sample"; then
        sed 's/^group *= *core *$/&\nstore-file = gate.store/' "$sample" > "$room/with"
        how="with a store-file behind 'group = core'"
    else
        { printf 'group = core\nstore-file = gate.store\n\n'; cat "$sample"; } > "$room/with"
        how="behind 3 lines of a core group"
    fi
    echo "${sample##*/} ($(wc -l < "$sample") lines): $(says "$sample"); $how: $(says "$room/with")"
done
