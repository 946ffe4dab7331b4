#!/bin/sh
# Puts a program, its manual pages, completions and units below a folder: install.sh PROGRAM FOLDER PREFIX [ZSH_FOLDER].
# PREFIX is where the folder will be when it is used; the units call the program there.
set -eu
umask 022
unset CDPATH
cd "$(dirname "$0")/.."
program=$1 to=$2 prefix=$3 zsh=${4:-site-functions}
install -D -m 755 "$program" "$to/bin/syslogbox"
for page in man/*.[1-8]; do
    install -D -m 644 "$page" "$to/share/man/man${page##*.}/${page##*/}"
done
install -D -m 644 completions/syslogbox.bash "$to/share/bash-completion/completions/syslogbox"
install -D -m 644 completions/_syslogbox "$to/share/zsh/$zsh/_syslogbox"
install -D -m 644 completions/syslogbox.fish "$to/share/fish/vendor_completions.d/syslogbox.fish"
# systemd splits a line at spaces, and reads quotes, %, $ and \ as its own; then come the signs of sed
called=$(printf '%s\n' "$prefix" |
    sed 's/\\/\\x5c/g; s/ /\\x20/g; s/'"'"'/\\x27/g; s/"/\\x22/g; s/%/%%/g; s/\$/$$/g' | sed 's/[\\&|]/\\&/g')
for script in until-stopped two-way; do
    install -D -m 755 "contrib/$script" "$to/lib/syslogbox/$script"
done
for unit in contrib/*.service contrib/*.socket contrib/*.timer; do
    [ -f "$unit" ] || continue
    sed "s|/usr/bin/syslogbox|$called/bin/syslogbox|; s|/usr/lib/syslogbox/|$called/lib/syslogbox/|" "$unit" | install -D -m 644 /dev/stdin "$to/lib/systemd/system/${unit##*/}"
done
