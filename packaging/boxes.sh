#!/bin/sh
# The installed command: answers --help and --version, and else is the program.
case ${1-} in
    --help) exec cat '@PREFIX@/share/boxes/usage.txt' ;;
    --version) echo "boxes $(cat '@PREFIX@/share/boxes/VERSION')"; exit ;;
esac
exec '@PREFIX@/libexec/boxes' "$@"
