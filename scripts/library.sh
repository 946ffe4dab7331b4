#!/bin/sh
# Links build/libsyslogbox.a and build/libsyslogbox.so.0 from the object in release/, and writes build/syslogbox.pc, by
# which programs are built with them where they are.
set -eu
unset CDPATH
cd "$(dirname "$0")/.."
sh scripts/unpack.sh
cd build/release
# another user may have made them, as by `sudo make install`
rm -f shim.o whole.o syslogbox-calls.o ../libsyslogbox.a ../libsyslogbox.so.0 ../syslogbox.pc
gcc -g -ffile-prefix-map="$PWD"=. -O2 -fPIC -Wall -Wextra -I../../include -c ../../c/syslogbox.c -o shim.o
# one object, of which the calls of the header alone are seen
ld -r -o whole.o shim.o libsyslogbox.o libos_c.a liblibc_c.a
objcopy --wildcard --keep-global-symbol='!syslogbox_proved_*' --keep-global-symbol='syslogbox_*' whole.o syslogbox-calls.o
ar rcD ../libsyslogbox.a syslogbox-calls.o
gcc -shared -Wl,-z,relro,-z,now,-z,noexecstack -Wl,-soname,libsyslogbox.so.0 \
    -Wl,--version-script=../../c/libsyslogbox.map -o ../libsyslogbox.so.0 syslogbox-calls.o
ln -sf libsyslogbox.so.0 ../libsyslogbox.so
cd ..
sh ../scripts/pkg-config.sh "$PWD" "" /../include ' -Wl,-rpath,${libdir}' > syslogbox.pc
echo "build/libsyslogbox.a and build/libsyslogbox.so.0 are linked from release/"
