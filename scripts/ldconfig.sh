#!/bin/sh
# Lets the system's loader find the shared library in a folder, or says how programs find it: ldconfig.sh FOLDER
set -eu
PATH=$PATH:/usr/sbin:/sbin
library=$1/libsyslogbox.so.0
todo="Run 'ldconfig' as root"
if [ "$(id -u)" -eq 0 ] && ldconfig; then
    todo="Name the folder in a file in /etc/ld.so.conf.d and run 'ldconfig'"
fi
ldconfig -p | sed -n 's/.*libsyslogbox\.so\.0 .*=> //p' | {
    while IFS= read -r found; do
        [ "$(realpath "$found")" != "$(realpath "$library")" ] || exit 0
    done
    echo "The system does not find $library yet."
    echo "$todo, or call programs with LD_LIBRARY_PATH=$1."
}
