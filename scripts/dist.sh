#!/bin/sh
# Makes the packages in build/dist: a tarball with a static program and the library for C; where python3 is there, a wheel and
# an sdist for Python, the wheel with its module in C where Python's headers are there; and where dpkg-deb is there, Debian
# packages of the program and the library.
# Of one release they are the same octets wherever they are made: their time is that of the version in CHANGELOG.md.
set -eu
umask 022
export LC_ALL=C TZ=UTC
unset CDPATH
cd "$(dirname "$0")/.."

die() {
    echo "$1" >&2
    exit 1
}

version=$(sh scripts/version.sh)
day=$(sed -n "s/^## $version (\(.*\))\$/\1/p" CHANGELOG.md)
[ -n "$day" ] || die "CHANGELOG.md has no entry '## $version (YEAR-MONTH-DAY)'."
[ "$(cat release/SOURCES)" = "$(sh scripts/sources.sh)" ] ||
    die "release/ was built from other sources: run 'make proved', then 'make release'."
: "${SOURCE_DATE_EPOCH:=$(date -d "$day" +%s)}"
export SOURCE_DATE_EPOCH

sh scripts/unpack.sh
rm -rf build/dist
mkdir -p build/dist
dist=$PWD/build/dist

# Links a program without symbols, with more words for gcc.
link() {
    to=$1
    shift
    if ! (cd build/release && gcc -s -Wl,-z,relro,-z,now "$@" -o "$to" syslogbox.o libos_c.a liblibc_c.a) 2> "$to.log"; then
        cat "$to.log" >&2
        die "$to does not link."
    fi
    rm "$to.log"
}

# All below a folder gets the one time.
settle() {
    find "$1" -exec touch -h -d "@$SOURCE_DATE_EPOCH" {} +
}

# Files of the repository below a folder, under the names that they have here: files FOLDER FILE..
files() {
    to=$1
    shift
    for file in "$@"; do
        if [ -x "$file" ]; then mode=755; else mode=644; fi
        install -D -m $mode "$file" "$to/$file"
    done
}

# The recipes for several machines, and the library for Python and Go, below a folder.
recipes() {
    files "$1" cluster/README.md cluster/*.sh cluster/*.py cluster/slurm/*.sh
}
bindings() {
    files "$1" python/*.py python/*.c python/pyproject.toml python/syslogbox/*.py python/syslogbox/py.typed go/*.go go/go.mod
}

# The library for C below a folder, as install-library.sh puts it there, without symbols for a debugger.
library() {
    sh scripts/install-library.sh "$@"
    strip -D --strip-debug "$1/$3/libsyslogbox.a"
    strip --strip-unneeded "$1/$3/libsyslogbox.so.0"
}

# A tree that can be used where it is, and copied to /usr/local.
tarball() {
    name=syslogbox-$version tree=$dist/syslogbox-$version
    link "$dist/static" -static
    sh scripts/install.sh "$dist/static" "$tree" /usr/local
    # shellcheck disable=SC2016  # pkg-config itself puts a folder there
    library "$tree" '${pcfiledir}/../..' lib
    files "$tree" README.md CHANGELOG.md SECURITY.md docs/*.md docs/pictures/*.svg contrib/*.conf contrib/*.yml contrib/*.json examples/*
    recipes "$tree"
    bindings "$tree"
    if command -v python3 > /dev/null; then
        python3 -B "$tree/python/backend.py" "$dist" > /dev/null
        python3 -B scripts/go_proxy.py "$tree/goproxy"
    else
        echo "There is no python3 here, so neither a wheel nor the module of Go was made."
    fi
    (cd "$tree" && find . -type f | sort | xargs sha256sum) > "$dist/sums"
    mv "$dist/sums" "$tree/SHA256SUMS"
    settle "$tree"
    (cd "$dist" && tar --format=ustar --sort=name --owner=0 --group=0 --numeric-owner -cf - "$name") |
        gzip -9n > "$dist/$name-linux-x86_64.tar.gz"
    rm -r "$dist/static" "$tree"
}

maintainer="Cupolachive maintainers <maintainers@users.noreply.cupolachive.example>"

# CHANGELOG.md in the form of Debian, without what is not released.
changelog() {
    of=""
    sed '/^## Unreleased$/,/^## [0-9]/{/^## [0-9]/!d}' CHANGELOG.md > "$dist/changes"
    while IFS= read -r line; do
        case $line in
            "## "*)
                [ -z "$of" ] || printf '\n -- %s  %s\n\n' "$maintainer" "$of"
                of=$(echo "$line" | sed 's/.*(\(.*\))$/\1/')
                of=$(date -R -d "$of")
                echo "$line" | sed 's/^## \(.*\) (.*/syslogbox (\1) unstable; urgency=medium/'
                echo
                ;;
            "- "*) echo "  * ${line#- }" ;;
            "  "*) echo "  $line" ;;
        esac
    done < "$dist/changes"
    rm "$dist/changes"
    printf '\n -- %s  %s\n' "$maintainer" "$of"
}

# The libc that a file needs, as a package depends on it.
libc_of() {
    echo "libc6 (>= $(objdump -T "$1" | sed -n 's/.*GLIBC_\([0-9.]*\).*/\1/p' | sort -V | tail -n 1))"
}

# The file control of a package below a folder: control FOLDER DEPENDS SECTION; standard input has its description.
control() {
    octets=$(find "$1/usr" -type f -exec cat {} + | wc -c)
    cat << END
Package: $package
Version: $version
Architecture: amd64
Maintainer: $maintainer
Installed-Size: $(((octets + 1023) / 1024))
Depends: $2
Section: $3
Priority: optional
END
    cat
}

# What each Debian package has, and the package itself: pack DEPENDS SECTION, as `control` takes them.
pack() {
    doc=$root/usr/share/doc/$package
    mkdir -p "$doc" "$root/DEBIAN"
    changelog | gzip -9n > "$doc/changelog.gz"
    printf 'syslogbox\n\nCopyright 2026 the Cupolachive maintainers\n' > "$doc/copyright"
    control "$root" "$@" > "$root/DEBIAN/control"
    (cd "$root" && find usr -type f | sort | xargs md5sum) > "$root/DEBIAN/md5sums"
    settle "$root"
    dpkg-deb --root-owner-group -Zxz --build "$root" "$dist/${package}_${version}_amd64.deb" > /dev/null
    rm -r "$root"
}

# The documents beside each other in the folder of a package, the recipes among its examples: documents FOLDER. Their links
# are made those to where the others are then.
documents() {
    mkdir -p "$1/pictures" "$1/examples"
    for page in README.md SECURITY.md docs/*.md; do
        sed 's#](docs/#](#g; s#](\(\.\./\)*cluster/#](examples/cluster/#g; s#](CHANGELOG\.md)#](changelog.gz)#' "$page" > "$1/${page##*/}"
    done
    install -m 644 docs/pictures/*.svg "$1/pictures"
    recipes "$1/examples"
    sed -i 's#](\.\./docs/#](../../#g' "$1/examples/cluster/README.md"
}

debian() {
    package=syslogbox root=$dist/debian
    link "$dist/dynamic" -pie
    sh scripts/install.sh "$dist/dynamic" "$root/usr" /usr vendor-completions
    gzip -9n "$root"/usr/share/man/man[1-8]/*
    documents "$root/usr/share/doc/$package"
    install -m 644 contrib/*.conf contrib/*.yml contrib/*.json "$root/usr/share/doc/$package/examples"
    rm "$dist/dynamic"
    pack "$(libc_of "$root/usr/bin/syslogbox")" admin << END
Description: proved reader and writer of syslog records
 syslogbox reads syslog records (RFC 5424) from datagrams and streams, says
 where octets stop being a record, writes records in their one canonical form,
 and keeps sets of them as archives that merge with any other. Each of its
 functions is proved to meet its contract.
END
}

# The library for C: the shared library in a package of its own, named for its version of the calls.
debian_library() {
    lib=lib/x86_64-linux-gnu development=$dist/development
    library "$development/usr" /usr $lib

    package=libsyslogbox0 root=$dist/shared
    mkdir -p "$root/usr/$lib" "$root/DEBIAN"
    mv "$development/usr/$lib/libsyslogbox.so.0" "$root/usr/$lib/"
    echo "libsyslogbox 0 libsyslogbox0 (>= $version)" > "$root/DEBIAN/shlibs"
    echo "activate-noawait ldconfig" > "$root/DEBIAN/triggers"
    pack "$(libc_of "$root/usr/$lib/libsyslogbox.so.0")" libs << END
Description: proved reader and writer of syslog records, as a shared library
 libsyslogbox has the calls of syslogbox for programs in C and in languages
 that call C: whether octets are a syslog record (RFC 5424) and where they stop
 being one, their parts, their one canonical form, frames of streams, legacy
 packets, and the union of archives. Each call is proved to meet its contract.
END

    package=libsyslogbox-dev root=$development doc=$development/usr/share/doc/libsyslogbox-dev
    mkdir -p "$doc/examples"
    sed 's#](\([A-Z]*\.md\)#](../syslogbox/\1#g' docs/LIBRARY.md > "$doc/LIBRARY.md"
    install -m 644 examples/* "$doc/examples"
    bindings "$doc/examples"
    pack "libsyslogbox0 (= $version)" libdevel << END
Description: proved reader and writer of syslog records, for programs in C
 libsyslogbox has the calls of syslogbox for programs in C and in languages
 that call C. This package has what such programs are built with: the header,
 the static library and the file for pkg-config.
END
}

sh scripts/library.sh > /dev/null
sh scripts/abi.sh || [ $? -eq 2 ] || die "The library for C has another interface than it had."
tarball
if command -v dpkg-deb > /dev/null; then
    debian
    debian_library
else
    echo "There is no dpkg-deb here, so no Debian packages were made."
fi
(cd "$dist" && sha256sum -- *)
