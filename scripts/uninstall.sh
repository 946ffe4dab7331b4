#!/bin/sh
# Removes what install.sh and install-library.sh put below a folder, and nothing else: uninstall.sh FOLDER PREFIX.
# Folders stay, as others have files there too.
set -eu
unset CDPATH
cd "$(dirname "$0")/.."
from=$1 prefix=$2
staged=$(mktemp -d)
trap 'rm -rf "$staged"' EXIT
sh scripts/install.sh build/syslogbox "$staged" "$prefix"
sh scripts/install-library.sh "$staged" "$prefix"
(cd "$staged" && find . ! -type d) | while IFS= read -r file; do
    rm -f "$from/$file"
done
