# The commands of this project. They need the Rattle toolchain, with `rt` on the PATH; `make help` lists them.

# For which processor programs are built: the one that builds them. CPU=any makes programs for every x86-64 processor,
# which are fast on newer ones, and CPU=x86-64-v2 smaller ones for nearly all.
CPU = $(shell ./processor.sh)

# TARGET is what programs and library are built and installed for, x86_64 or aarch64. The library's static part is for
# every x86-64 processor, or for CPU if make is called with CPU=.. With STATIC=yes the programs need nothing of the
# system but the kernel.
TARGET = x86_64
STATIC = no
# SHA=no leaves out the SHA instructions of newer processors, which are otherwise used where a processor has them; `make bench`
# also keeps Debian's programs from them.
SHA ?=
export SHA
GIVEN_CPU = $(if $(filter command,$(origin CPU)),$(CPU))
PROGRAM_CPU = $(if $(filter x86_64,$(TARGET)),$(CPU),$(GIVEN_CPU))
LIBRARY_CPU = $(filter-out any,$(GIVEN_CPU))

# Where `make install` puts things, what it adds to the programs' names, so that they can stand beside Debian's, and
# whether what runs is stripped: yes or no.
PREFIX = /usr/local
DESTDIR =
BINDIR = $(PREFIX)/bin
SBINDIR = $(PREFIX)/sbin
MANDIR = $(PREFIX)/share/man
BASHCOMPDIR = $(PREFIX)/share/bash-completion/completions
ZSHCOMPDIR = $(PREFIX)/share/zsh/site-functions
FISHCOMPDIR = $(PREFIX)/share/fish/vendor_completions.d
LIBDIR = $(PREFIX)/lib
INCLUDEDIR = $(PREFIX)/include
SUFFIX = -proved
STRIP = no

# The interpreter for which the module is installed, and another folder than that where it looks for modules.
PYTHON = python3
PYTHONDIR =

# Where `make dist`, `make release` and `make deb` put what they make.
DIST = dist

# How many seconds `make soak` and `make search` run, and with which seed; without one they draw one and print it.
SECONDS = 1800
SEED =

.PHONY: run programs library libraries test check release-check gate wrong-bodies check-programs check-library \
    out-of-memory interop soak search kernel bench bench-feeding bench-parallel bench-bindings reproducible install \
    uninstall install-library uninstall-library install-python uninstall-python dist release deb clean help

# Proves and builds the one program that this needs, and prints the digest of a real file.
run:
	./build.sh fsverity_cli fsverity $(CPU)
	bin/fsverity digest README.md

# Proves and builds bin/fsverity and bin/veritysetup; or those for 64-bit ARM in bin/aarch64, and static ones in
# bin/static and bin/aarch64/static.
programs: export TARGET := $(TARGET)
programs: export STATIC := $(STATIC)
programs:
	./build.sh fsverity_cli fsverity $(PROGRAM_CPU)
	./build.sh veritysetup_cli veritysetup $(PROGRAM_CPU)

# Proves and builds the library for C: lib/libverity.a and lib/libverity.so.2, with both for x86-64-v3 in
# lib/glibc-hwcaps; or those for 64-bit ARM in lib/aarch64.
library:
	./library.sh $(TARGET) $(LIBRARY_CPU)

# The libraries for the tests: for both targets, and one without SHA instructions.
libraries:
	./library.sh x86_64 $(LIBRARY_CPU)
	SHA=no LIB=lib/without ./library.sh x86_64
	./library.sh aarch64

# All tests: the gate, then the programs that it built, the documents' examples, and Debian's programs beside them.
test:
	tests/all.sh

# The same without the gate: nothing is proved anew.
check: programs libraries
	tests/all.sh --without-gate

# All tests in full, as before a release: all wrong bodies anew, each kind of programs and libraries by all tests, every
# setting, all random runs, and the kernel.
release-check:
	tests/all.sh --release

# The gate: every proof from nothing, the tests of the crates, the programs' stored runs; beside it how wrong bodies are
# judged, and after it those without a verdict that holds and a sample of the others, which the prover has to refuse or a
# test has to catch.
gate:
	tests/all.sh --gate-alone

# The wrong bodies without a verdict that holds, of all crates or of one; their verdicts are written. ANEW=yes tries all.
wrong-bodies:
	tests/wrong_bodies/wrong_bodies.py $(if $(ANEW),--anew) $(CRATE)

# Runs the programs as a user would, and compares status, standard output, standard error and files with stated
# expectations. Needs no other tool.
check-programs: programs
	COMMAND='make check-programs' tests/run.sh -- tests/programs/*.sh

# Calls the library from C, compares it with Debian's programs, and runs its examples. Needs a C compiler.
check-library: libraries
	COMMAND='make check-library' tests/run.sh -- tests/library/*.sh

# Refuses each request for memory in turn, of the run functions and of the programs. Needs a C compiler.
out-of-memory: programs
	tests/memory.sh

# Compares the programs with Debian's packages cryptsetup-bin and fsverity, which have to be installed, over every
# combination of the settings; `make test` goes over fewer.
interop: programs
	COMMAND='make interop' SETTINGS=all tests/run.sh -- tests/interop/*.sh

# Random runs of both programs, compared with a second implementation of the definitions in Python and with Debian's
# programs. Needs these and python3.
soak: programs
	tests/soak.sh SECONDS=$(SECONDS) SEED=$(SEED)

# Random command lines of both programs beside Debian's, for differences of which docs/DIFFERENCES.md says nothing.
search: programs
	tests/search.sh SECONDS=$(SECONDS) SEED=$(SEED)

# The Linux kernel opens the images, in a virtual machine. KERNEL=FILE and MODULES=FOLDER take a kernel that isn't in
# /boot.
kernel: programs
	tests/kernel.sh

# Measures the programs beside bare hashing and Debian's programs, and prints the tables of docs/SPEED.md. With
# OTHER=FOLDER, another clone or a copy of its bin/ and lib/, this and the next two also measure what is built there, in
# turns, and print how many times as fast each row is here as there.
bench: programs
	./build.sh bench_bare bench_bare $(CPU)
	bench/bench.sh

# Measures the library that is fed with pieces of a file, for its digest and for a tree of dm-verity, beside
# bin/fsverity, Debian's fsverity and Debian's libfsverity.
bench-feeding: programs library
	bench/feeding.sh

# Measures a tree that is built from parts by threads beside bin/veritysetup and Debian's.
bench-parallel: programs library
	bench/parallel.sh

# Measures the bindings of the library beside calls from C, and hashlib.
bench-bindings: library
	bench/bindings.sh

# Builds both programs once more in another folder, and compares their bytes.
reproducible: programs
	tests/reproducible.sh

# Installs the programs of TARGET and STATIC, manual pages and completion, and the library if it is built; or removes
# just these. The others do the same for the library alone, and for the module of Python. Nothing is built here,
# so that no proof runs as root.
INSTALLING = install uninstall install-library uninstall-library install-python uninstall-python
$(INSTALLING): export TARGET := $(TARGET)
$(INSTALLING): export STATIC := $(STATIC)
$(INSTALLING): export CPU := $(GIVEN_CPU)
$(INSTALLING): export PREFIX := $(PREFIX)
$(INSTALLING): export DESTDIR := $(DESTDIR)
$(INSTALLING): export BINDIR := $(BINDIR)
$(INSTALLING): export SBINDIR := $(SBINDIR)
$(INSTALLING): export MANDIR := $(MANDIR)
$(INSTALLING): export BASHCOMPDIR := $(BASHCOMPDIR)
$(INSTALLING): export ZSHCOMPDIR := $(ZSHCOMPDIR)
$(INSTALLING): export FISHCOMPDIR := $(FISHCOMPDIR)
$(INSTALLING): export LIBDIR := $(LIBDIR)
$(INSTALLING): export INCLUDEDIR := $(INCLUDEDIR)
$(INSTALLING): export SUFFIX := $(SUFFIX)
$(INSTALLING): export STRIP := $(STRIP)
$(INSTALLING): export PYTHON := $(PYTHON)
$(INSTALLING): export PYTHONDIR := $(PYTHONDIR)
$(INSTALLING):
	@./install.sh $@

# Makes one archive of the sources as they were committed. The same commit gives the same bytes.
dist: export DIST := $(DIST)
dist:
	@./dist.sh

# Makes what is handed out of what is committed: an archive for each target, and that of the sources; or Debian's
# packages, for both. The same commit gives the same bytes.
release deb: export DIST := $(DIST)
release:
	@./release.sh
deb:
	@./deb.sh

# Removes what was built, and what is kept of the proofs, so that all is proved anew.
clean:
	rm -rf bin lib crates/*/out

help:
	@echo 'Times are for four cores. A + means: what it needs is built first; the programs take 11 minutes the first time.'
	@echo 'In brackets: what you can set, as in: make soak SECONDS=60'
	@echo
	@echo 'make run             7 minutes     proves and builds fsverity, and prints the digest of a file'
	@echo 'make programs        11 minutes    proves and builds bin/fsverity and bin/veritysetup [TARGET, CPU, STATIC=yes, SHA=no]'
	@echo 'make library         6 minutes     proves and builds the library for C [TARGET, CPU, SHA=no]'
	@echo 'make test            40 minutes    all tests: gate, the programs as a user runs them, documents, comparisons'
	@echo 'make check           8 minutes +   all tests but the gate'
	@echo 'make release-check   130 minutes   all tests in full, as before a release'
	@echo 'make gate            30 minutes    every proof from nothing, tests of the crates, wrong bodies to be refused'
	@echo 'make wrong-bodies    70 minutes +  sees wrong bodies refused, and writes their verdicts [CRATE, ANEW]'
	@echo 'make check-programs  1 minute +    runs the programs as a user would'
	@echo 'make check-library   6 minutes +   calls the library from C, and runs its examples'
	@echo 'make out-of-memory   1 minute +    refuses each request for memory in turn'
	@echo 'make interop         10 minutes +  compares the programs with those of Debian, over all settings'
	@echo 'make soak            30 minutes +  random runs of both programs, compared with other programs [SECONDS, SEED]'
	@echo 'make search          30 minutes +  random command lines, for differences from Debian that no row names'
	@echo '                                   [SECONDS, SEED]'
	@echo 'make kernel          10 minutes +  has the Linux kernel open the images, in a virtual machine [KERNEL, MODULES]'
	@echo 'make bench           7 minutes +   measures speed and memory beside bare hashing and Debian programs'
	@echo '                                   [SHA=no, OTHER=FOLDER]'
	@echo 'make bench-feeding   3 minutes +   measures the library that is fed with pieces [OTHER=FOLDER]'
	@echo 'make bench-parallel  2 minutes +   measures a tree that is built from parts by threads [OTHER=FOLDER]'
	@echo 'make bench-bindings  1 minute +    measures the bindings of the library beside calls from C'
	@echo 'make reproducible    5 minutes +   builds once more in another folder, and compares the programs'
	@echo 'make install         seconds       installs programs, pages and completion, and the library if it is built'
	@echo '                                   [TARGET, CPU, STATIC=yes, SHA, PREFIX, DESTDIR, SUFFIX, STRIP=yes,'
	@echo '                                   BINDIR, SBINDIR, MANDIR, BASHCOMPDIR, ZSHCOMPDIR, FISHCOMPDIR, LIBDIR, INCLUDEDIR]'
	@echo 'make uninstall       seconds       removes what make install has installed; give it the same settings'
	@echo 'make install-library seconds       installs the library alone; make uninstall-library removes it'
	@echo '                                   [TARGET, CPU, SHA, PREFIX, DESTDIR, STRIP=yes, MANDIR, LIBDIR, INCLUDEDIR]'
	@echo 'make install-python  seconds       installs the module for Python; make uninstall-python removes it'
	@echo '                                   [DESTDIR, PYTHON, PYTHONDIR]'
	@echo 'make dist            seconds       makes an archive of what is committed, with the version in its name [DIST]'
	@echo 'make release         1 minute +    makes an archive of static programs and library for each target [DIST]'
	@echo 'make deb             1 minute +    makes the packages for Debian, for amd64 and arm64 [DIST]'
	@echo 'make clean           seconds       removes what was built, and what is kept of the proofs'
