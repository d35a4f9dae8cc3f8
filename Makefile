# `make run` proves and builds the bench program and runs it on a sample (SAMPLE=.. for another recording). `make test`
# is the gate. `make lib` writes the archive and the shared library in target/staticlib. `make compare N=..` compares the
# library with the judge on N inputs of each call under each telecommand code, N / 10 of each near-Earth one, and as many of
# the others as outside/comparisons says; SEED=.. repeats a campaign. `make bench` counts the instructions of each call.
# `make alist` writes the parity matrices of codes 1 to 4 in target/alist, in a format that other programs read; `make peers`
# asks such programs about the library's words. `make install PREFIX=.. DESTDIR=..` installs header, Rust module, libraries,
# pkg-config file, programs, the Python package and its command with a man page and what shells complete, README and the
# examples, building what is missing; `make uninstall` removes just those. `make man` makes the man page and what shells
# complete again.
#
# The C file, portable/pandoricchia.c, is the same code for any machine. `make matrix N=..` compares it under every compiler and
# machine that is here, `make campaign N=..` asks the archive and it the same, `make speed` says how fast it is on this machine,
# `make dist` writes pandoricchia-VERSION.tar.gz in target, which needs a C compiler alone. Without the toolchain `make run`,
# `make lib` and `make install` take the C file, and say so; `make install` does too where the machine is not x86-64.
.PHONY: run test lib programs shared native compare matrix campaign bench speed alist peers man dist install uninstall
N ?= 20000
SAMPLE ?= samples/code5.bin
ARCHIVE = target/staticlib/libpandoricchia.a
VERSION := $(shell sed -n 's/^.define PANDORICCHIA_VERSION "\(.*\)"$$/\1/p' include/pandoricchia.h)
MAJOR := $(firstword $(subst ., ,$(VERSION)))
SHARED = target/staticlib/libpandoricchia.so.$(VERSION)
PROGRAMS = wordbench why frames unitread unitwrite fromblocks toblocks

# Where the C file takes over; its Makefile has the places of an installation, and what is said here for it on the command line.
NATIVE = $(MAKE) --no-print-directory -f portable/Makefile
TOOLCHAIN := $(shell command -v rt)
X86 := $(filter x86_64,$(shell uname -m))

ifdef TOOLCHAIN
run:
	outside/build_program wordbench
	outside/run_x86 target/bin/wordbench < $(SAMPLE)
else
run:
	@$(NATIVE) run SAMPLE=$(SAMPLE)
endif

test:
	.ci/run

# The archive is x86-64 wherever it is made; beside it, what the C file gives on this machine.
ifdef TOOLCHAIN
lib: $(if $(X86),,native)
	outside/build_library
	outside/build_shared $(VERSION)
	@$(if $(X86),,echo "target/staticlib is for x86-64; target/native has the archive and the shared library for this machine, from the C file")
else
lib: native
	@echo "no toolchain here: target/native has the archive and the shared library, from the C file"
	@portable/proved_elsewhere portable/pandoricchia.c
endif

# The archive and the shared library of the C file, by this machine's compiler, in target/native.
native:
	@$(NATIVE) library

# The shared library again, from the archive as it stands.
shared: $(ARCHIVE)
	outside/build_shared $(VERSION)

compare: lib
	outside/compare_with outside/build_c outside/run_x86 target/outside $(N) $(or $(SEED),1)

# The C file under every compiler and machine that is here, on N inputs natively and a tenth of it emulated.
matrix:
	portable/matrix -n $(N) --seed $(or $(SEED),1)

# The archive, the C file by gcc and by clang, each asked the same, and the judge.
campaign: lib
	portable/campaign $(N) $(or $(SEED),1)

bench: lib
	outside/bench

speed: native
	outside/speed

dist:
	portable/dist target/pandoricchia-$(VERSION).tar.gz

alist: target/bin/charts
	outside/alist

peers: lib target/bin/charts
	outside/peers

man: export PYTHONPATH = python
man: export PYTHONDONTWRITEBYTECODE = 1
man:
	python3 -m pandoricchia.command.manual > man/pandoricchia.1
	python3 -m pandoricchia completion bash > completion/pandoricchia.bash
	python3 -m pandoricchia completion zsh > completion/_pandoricchia

# The bench programs as they were proved, and the one whose tables the pictures and other formats come from.
programs:
	for name in $(PROGRAMS) charts; do outside/build_program $$name || exit 1; done

# What install finds missing.
$(ARCHIVE):
	outside/build_library

$(SHARED): $(ARCHIVE)
	outside/build_shared $(VERSION)

target/bin/%:
	outside/build_program $*

# On an x86-64 machine with the toolchain what was proved here is installed, on any other what the C file gives.
ifneq ($(and $(TOOLCHAIN),$(X86)),)
install: $(ARCHIVE) $(SHARED) $(PROGRAMS:%=target/bin/%)
	@$(NATIVE) install READY= LIBRARIES=target/staticlib BINARIES=target/bin
else
install:
	@portable/proved_elsewhere portable/pandoricchia.c
	@$(NATIVE) install
endif

uninstall:
	@$(NATIVE) uninstall
