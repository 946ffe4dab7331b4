#!/bin/sh
# Prints the version, as `syslogbox --version` tells it.
set -eu
unset CDPATH
cd "$(dirname "$0")/.."
sed -n 's/^pub const VERSION: &str = "\(.*\)";$/\1/p' crates/command_line/src/line.rt
