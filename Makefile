# Commands: make run, make test (proofs, must-fail edits, tests, comparisons), make files (real HDF5
# files, which make test runs too), make lib and make install (the C library), make bench, make soak.
# HDF5_PURE names the folder of hdf5-pure to compare with, a relative name from here; unset, that
# comparison is left out. HDF5_FILES=all makes real HDF5 files more and larger, in some ten minutes.

SHELL := bash
.SHELLFLAGS := -eu -o pipefail -c
.ONESHELL:
.PHONY: test files run lib install bench soak

# The names of the archives of C functions, each with its header in include/.
EXPORTED := checksum btree_v2
HEADERS := include/checksum.h include/btree_v2.h
ARCHIVES := $(EXPORTED:%=target/staticlib/lib%.a)
CC := gcc
CARGO := cd rust && cargo

# The last line of the test is the verdict of rt ci, and stands there only where all passed.
test:
	@scripts/prove ci
	scripts/prove archives
	($(CARGO) test --release --offline)
	$(MAKE) --no-print-directory files
	tests/c.sh
	tail -n 1 target/ci.log

# The programs and the Python module of the HDF5 library, and the Debian packages that hold them.
HDF5_THERE := h5dump --version && h5diff --version && h5repack --version && \
    /usr/bin/python3 -c 'import h5py'
HDF5_PACKAGES := hdf5-tools python3-h5py

# Installs the packages where they are missing and that can be done; without them nothing is run.
files: $(ARCHIVES)
	@there() { { $(HDF5_THERE); } >/dev/null 2>&1; }
	install() { timeout 120 apt-get "$$@" </dev/null >/dev/null 2>&1; }
	export DEBIAN_FRONTEND=noninteractive
	there || { install update && install install -y $(HDF5_PACKAGES); } || true
	if ! there; then
	    echo "real HDF5 files: not run, since $(HDF5_PACKAGES) are not there and cannot be installed"
	    exit 0
	fi
	$(CARGO) run --quiet --release --offline --package hdf5_files

run: $(ARCHIVES)
	@$(CARGO) run --quiet --release --offline --package cli

# The C library, static and shared. The shared one has the functions that the headers declare.
VERSION := $(shell sed -n 's/^version = "\(.*\)"$$/\1/p' rust/Cargo.toml)
SONAME := libnuldrafon.so.0
LIBRARIES := target/libnuldrafon.a target/$(SONAME)

lib: $(LIBRARIES) target/libnuldrafon.so
	@:

target/libnuldrafon.a: $(ARCHIVES)
	@rm -f $@
	printf '%s\n' 'create $@' $(ARCHIVES:%='addlib %') save end | ar -M

target/nuldrafon.map: $(HEADERS) scripts/declared
	@mkdir -p target
	{ echo '{ global:'; scripts/declared $(HEADERS) | sed 's/$$/;/'; echo 'local: *; };'; } >$@

target/$(SONAME): target/libnuldrafon.a target/nuldrafon.map
	@$(CC) -shared -Wl,-soname,$(SONAME) -Wl,--version-script=target/nuldrafon.map -Wl,-z,defs \
	    -Wl,-z,noexecstack -Wl,--whole-archive target/libnuldrafon.a -Wl,--no-whole-archive -o $@

target/libnuldrafon.so: target/$(SONAME)
	@ln -sf $(SONAME) $@

# Below PREFIX; DESTDIR comes before it where the files are written, and stands in none of them.
PREFIX := /usr/local
PREFIX_PATH = $(abspath $(PREFIX))
install: lib
	@to='$(DESTDIR)$(PREFIX_PATH)'
	install -d "$$to/include" "$$to/lib/pkgconfig"
	install -m 644 $(HEADERS) "$$to/include"
	install -m 644 target/libnuldrafon.a "$$to/lib"
	install -m 755 target/$(SONAME) "$$to/lib"
	ln -sf $(SONAME) "$$to/lib/libnuldrafon.so"
	cat >"$$to/lib/pkgconfig/nuldrafon.pc" <<'END'
	prefix=$(PREFIX_PATH)
	libdir=$${prefix}/lib
	includedir=$${prefix}/include

	Name: nuldrafon
	Description: a proved writer and reader of HDF5 version 2 B-trees
	Version: $(VERSION)
	Cflags: -I$${includedir}
	Libs: -L$${libdir} -lnuldrafon
	END

bench: $(ARCHIVES)
	@echo "- Called from the archives: $$(nm -u $(ARCHIVES) | awk '$$1 == "U" {print $$2}' | sort -u | xargs)"
	$(CARGO) run --quiet --release --offline --package bench

# MINUTES in all: half of them for the comparisons from random seeds, half for the fuzzer.
MINUTES := 10
CORES := 2
soak: $(ARCHIVES) lib
	@seconds=$$(($(MINUTES) * 30))
	($(CARGO) run --quiet --release --offline --package differential --bin soak $$seconds $(CORES))
	fuzz/run.sh $$seconds $(CORES)

$(ARCHIVES) &: crates.txt $(shell find crates -name out -prune -o -type f -print 2>/dev/null)
	@scripts/prove archives
