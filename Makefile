# Builds, tests, checks, packs and installs syslogbox. `make` needs gcc alone, `make test` python3 too; what proves needs the
# toolchain, its command `rt`.

PREFIX = /usr/local
DESTDIR =
# a folder of another place is never meant
unexport CDPATH

.PHONY: all lib test proved fault-injection check release dist mutants bench soak install uninstall clean

# Links build/syslogbox from the object in release/, and says of which sources that is.
all:
	@sh scripts/link.sh

# Links the libraries for C in build/ from the object in release/, with a file by which pkg-config finds them there.
lib:
	@sh scripts/library.sh

# Tries the program from release/, or the one that was built from these sources: all tests that need no toolchain.
test:
	@sh scripts/test.sh

# Proves the program, the library for C and the two programs of the tests, and the crates below them side by side, builds them,
# and compares their objects with a release of their sources.
proved:
	python3 scripts/prove.py syslogbox
	python3 scripts/prove.py c_library
	python3 scripts/prove.py fault_injection
	python3 scripts/prove.py store_trial
	sh scripts/keep.sh
	sh scripts/compare.sh || [ $$? -eq 2 ]

# Proves and builds the program that makes each allocation of the libraries fail, which tests/ and bench/ run.
fault-injection:
	@mkdir -p build
	cd crates/fault_injection && rt run > ../../build/first-trial
	@cmp -s crates/fault_injection/out/fault_injection build/fault_injection || cp crates/fault_injection/out/fault_injection build/fault_injection
	@sh scripts/sources.sh > build/fault_injection.sources

# Proves every crate from nothing, runs every test, compares release/ with what was built, and does what `make test` does.
check:
	@sh .ci/run

# Writes release/ from what `make check` or `make proved` has built of these sources.
release:
	sh scripts/release.sh

# Makes the packages in build/dist from release/: a tarball with a static program, a wheel and an sdist for Python, and Debian
# packages of the program and of the library.
dist:
	sh scripts/dist.sh

# Tries the wrong bodies in mutants/, which the prover must refuse; CRATES names the crates, all by default, and JOBS says how
# many are tried side by side.
mutants:
	python3 tests/run.py mutants --jobs $(or $(JOBS),1) $(CRATES)

# Measures check and convert beside cat and wc, archive and merge beside sort.
bench: all
	bench/run

# Runs the program on ten million hostile cases beside a second reader; SOAK=--seconds N is shorter.
soak: all
	python3 tests/run.py soak build/syslogbox $(SOAK)

# Puts the program, its manual pages, completions and units below PREFIX, and the library for C; with DESTDIR below that, as
# packages are made. Without it, the system's loader is told of the library.
install: all lib
	@case "$(PREFIX)" in /*) ;; *) echo "PREFIX has to begin with a slash." >&2; exit 1 ;; esac
	sh scripts/install.sh build/syslogbox "$(DESTDIR)$(PREFIX)" "$(PREFIX)"
	sh scripts/install-library.sh "$(DESTDIR)$(PREFIX)" "$(PREFIX)"
	@[ -n "$(DESTDIR)" ] || sh scripts/ldconfig.sh "$(PREFIX)/lib"

# Removes the files that `make install` puts below the same PREFIX, and with DESTDIR below that.
uninstall: all lib
	@case "$(PREFIX)" in /*) ;; *) echo "PREFIX has to begin with a slash." >&2; exit 1 ;; esac
	sh scripts/uninstall.sh "$(DESTDIR)$(PREFIX)" "$(PREFIX)"
	@[ -n "$(DESTDIR)" ] || [ "$$(id -u)" -ne 0 ] || PATH=$$PATH:/usr/sbin:/sbin ldconfig

# Removes what was built and what checks kept.
clean:
	rm -rf build crates/*/out
