#!/bin/sh
# Linters for what is not Rattle: pyflakes, shellcheck, warnings of gcc, go vet; whether the lists of options are those of the
# table, and docs/CONTRACTS.md that of the sources; whether what the documents promise is shown; whether crates.txt lists a
# library that its crate does not name, and whether a public call came to require something. What is not here is skipped, and
# told. Prints what each finds, and last 'N passed, M failed'; the status is 0 exactly where none found anything.
set -u
unset CDPATH
cd "$(dirname "$0")/.." || exit 1
passed=0
failed=0

# Runs a linter: lint NAME COMMAND..
lint() {
    name=$1
    shift
    if "$@" 2>&1; then
        passed=$((passed + 1))
    else
        failed=$((failed + 1))
        echo "FAILED $name"
    fi
}

# Whether a linter is here, by a command that says so; where it is not, that is told: here NAME COMMAND..
here() {
    name=$1
    shift
    "$@" > /dev/null 2>&1 || {
        echo "SKIPPED $name: there is no $1"
        false
    }
}

# The files of the repository, without those that were built: files TEST.., as find takes them
files() {
    find . \( -name .git -o -name build -o -name out -o -name __pycache__ \) -prune -o -type f \( "$@" \) -print0
}

# pyflakes under the name that it has with Debian, or else with pip
pyflakes=$(command -v pyflakes3 || echo pyflakes)

# A script has a name that ends so, or is called and says in its first line what it is.
python() {
    files -name '*.py' -o -perm -u+x ! -name '*.*' -exec grep -aqE '^#!.*[ /]python3$' {} \; | xargs -0 "$pyflakes"
}

shells() {
    files -name '*.sh' -o -perm -u+x ! -name '*.*' -exec grep -aqE '^#!.*[ /](ba)?sh$' {} \; |
        xargs -0 shellcheck -x -P SCRIPTDIR/..
}

# Programs are compiled and not linked; what one wants beside POSIX it says itself.
c() {
    found=0
    for file in c/*.c examples/*.c tests/*/*.c; do
        gcc -O1 -Wall -Wextra -pedantic -Werror -Iinclude -c -o /dev/null "$file" || found=1
    done
    return $found
}

# The module in C for Python, with the headers of a Python that it is for, 3.10 or later.
headers=$(python3 -c 'import sys, sysconfig; print(sysconfig.get_config_var("INCLUDEPY") if sys.version_info >= (3, 10) else "")')
module() {
    gcc -O1 -Wall -Wextra -pedantic -Werror -Iinclude -isystem "$headers" -fPIC -c -o /dev/null python/_calls.c
}

# go asks pkg-config for the library for C, and keeps what it was told of another folder, but for other flags of its own.
go_code() {
    build=$PWD/build
    sh scripts/library.sh > /dev/null && (cd go && PKG_CONFIG_PATH=$build CGO_LDFLAGS=-L$build go vet ./...)
}

if here pyflakes "$pyflakes" --version; then lint pyflakes python; fi
if here shellcheck shellcheck --version; then lint shellcheck shells; fi
lint "gcc -Wall -Wextra -pedantic" c
if [ -e "$headers/Python.h" ]; then
    lint "gcc, the module in C for Python" module
else
    echo "SKIPPED gcc, the module in C for Python: there is no Python.h"
fi
lint "scripts/options.py --check" python3 scripts/options.py --check
lint "scripts/contracts.py --check" python3 scripts/contracts.py --check
lint "scripts/promises.py" python3 scripts/promises.py
lint "scripts/unused.py" python3 scripts/unused.py
lint "scripts/requires.py" python3 scripts/requires.py
if here "go vet" go version && here "go vet" pkg-config --version; then lint "go vet" go_code; fi
echo "$passed passed, $failed failed"
[ "$failed" -eq 0 ]
