#!/bin/sh
# Prints the file of the library for C for pkg-config: pkg-config.sh PREFIX LIBRARIES HEADERS [WORDS]
# LIBRARIES and HEADERS are the folders below PREFIX, each with a slash before it; WORDS are more words for the linker.
set -eu
unset CDPATH
cd "$(dirname "$0")/.."
# pkg-config wants spaces and the like escaped, and sed its own signs
prefix=$(printf '%s\n' "$1" | sed 's|[^[:alnum:]${}/._+-]|\\&|g' | sed 's/[\\&|]/\\&/g')
version=$(sh scripts/version.sh)
sed "s|@prefix@|$prefix|; s|@libraries@|$2|; s|@headers@|$3|; s|@words@|${4-}|; s|@version@|$version|" include/syslogbox.pc.in
