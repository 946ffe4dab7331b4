#!/bin/sh
# Puts the header, the libraries and the pkg-config file below a folder: install-library.sh FOLDER PREFIX [LIB].
# PREFIX is where the folder will be when it is used, as the pkg-config file says.
set -eu
umask 022
unset CDPATH
cd "$(dirname "$0")/.."
to=$1 prefix=$2 lib=${3-lib}
install -D -m 644 include/syslogbox.h "$to/include/syslogbox.h"
install -D -m 644 build/libsyslogbox.a "$to/$lib/libsyslogbox.a"
install -D -m 644 build/libsyslogbox.so.0 "$to/$lib/libsyslogbox.so.0"
ln -sf libsyslogbox.so.0 "$to/$lib/libsyslogbox.so"
sh scripts/pkg-config.sh "$prefix" "/$lib" /include |
    install -D -m 644 /dev/stdin "$to/$lib/pkgconfig/syslogbox.pc"
