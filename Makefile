# The library as an archive and as a shared library, and the command over it.
#
#   make            builds target/staticlib/libbuttresk.a, which is proved first, the shared library
#                   build/libbuttresk.so.1 and the command build/buttresk
#   make run        the same, and shows the list, the index and the fields of a sample file
#   make test       the same, and runs the command's tests
#   make check      every check and test that asks for no proof, the command's tests among them; not
#                   planted faults, the transcription, the bench
#   make install    the command, the header, both libraries and their pkg-config file, the man page
#                   and the completions of bash and zsh, to PREFIX (/usr/local)
#   make target/bin/NAME
#                   a program of Rattle alone, `gribwalk` or `replay`, which is proved first
#   make clean      removes build/ and target/; what rt keeps stays in the crates' out/
#
# The archive links only into x86-64 programs: on another processor the cross compiler builds the
# command, and an emulator runs it.

PREFIX = /usr/local
BUILD = build
CFLAGS = -O2 -g
RT = rt
# Any processor of x86-64 runs what is built: rt's default asks for more than the oldest have.
CPU = --cpu x86-64

ifneq ($(shell uname -m),x86_64)
ifeq ($(origin CC),default)
CC = x86_64-linux-gnu-gcc
endif
# static, so that the emulator needs no C library of the other processor
LDFLAGS = -static
RUN = qemu-x86_64
endif

ARCHIVE = target/staticlib/libbuttresk.a
HEADER = include/buttresk.h
SOURCES = $(wildcard cli/*.c)
HEADERS = $(wildcard cli/*.h) $(HEADER)
OBJECTS = $(SOURCES:cli/%.c=$(BUILD)/%.o)
# Tables of the Manual, which become rows of C arrays: name and first column that is text.
TABLES = parameters:4 levels:3 members:6 products:2
ROWS = $(foreach table,$(TABLES),$(BUILD)/$(firstword $(subst :, ,$(table))).rows)
STRICT = -std=c11 -D_POSIX_C_SOURCE=200809L -Wall -Wextra -Werror -pedantic -Wshadow -Wconversion \
	-pthread -Iinclude -I$(BUILD)
SANITIZE = -fsanitize=address,undefined -fno-sanitize-recover=all

# The header has the version. The number behind .so is another one: it rises when a program that was
# linked before would no longer run.
VERSION = $(shell sed -n 's/^.define BUTTRESK_VERSION *"\(.*\)"$$/\1/p' $(HEADER))
SHARED = libbuttresk.so.1

# The crates that the archive is made of: crates.txt names all of them in one line.
CRATES = buttresk_c $(shell sed -n 's/^buttresk_c staticlib: *//p' crates.txt)
SOURCES_OF = $(shell find $(1) -name out -prune -o -name '*.rt' -print -o -name '*.antt' -print)
PROVED = crates.txt $(call SOURCES_OF,$(CRATES:%=crates/%))

SETUP = CC="$(CC)" RUN="$(RUN)" RT="$(RT)" cli/setup
AGAIN = $(MAKE) --no-print-directory

.PHONY: all setup run test check install clean
.DELETE_ON_ERROR:

all: $(ARCHIVE) $(BUILD)/$(SHARED) $(BUILD)/buttresk

# What is missing is named in one line; `make run` and `make test` install it where they may.
setup:
	@$(SETUP)

# Proofs say a great deal: here only which crate is proved, and all of it if one is not.
$(ARCHIVE): $(PROVED) | setup
	@mkdir -p $(BUILD) $(@D)
	@echo '$(RT) lib $(CPU) in crates/buttresk_c (some minutes the first time;' \
	    'all that it says is in $(BUILD)/proof.log)'
	@{ (cd crates/buttresk_c && $(RT) lib $(CPU)); echo $$? >$(BUILD)/proof.status; } 2>&1 | \
	    tee $(BUILD)/proof.log | grep '^rt:'; \
	read -r status <$(BUILD)/proof.status; \
	[ "$$status" = 0 ] || { cat $(BUILD)/proof.log; exit "$$status"; }
	cp crates/buttresk_c/out/libbuttresk_c.a $@

target/bin/%: crates.txt $(call SOURCES_OF,crates)
	@mkdir -p $(BUILD) $(@D)
	cd crates/$* && $(RT) run $(CPU) <stdin >../../$(BUILD)/$*.log 2>&1 || \
	    { cat ../../$(BUILD)/$*.log; exit 1; }
	cp crates/$*/out/$* $@

# The archive's code and nothing else. No name is seen that does not begin as the header's do; no
# code has to be patched when it is loaded (-z text), and no name is left open (-z defs).
$(BUILD)/$(SHARED): $(ARCHIVE) Makefile | setup
	@mkdir -p $(BUILD)
	@echo '{ global: buttresk_*; local: *; };' >$(BUILD)/exported
	$(CC) -shared -nostartfiles $(filter-out -static,$(LDFLAGS)) -Wl,-soname,$(SHARED) \
	    -Wl,--version-script,$(BUILD)/exported -Wl,-z,text -Wl,-z,defs -o $@ \
	    -Wl,--whole-archive $(ARCHIVE) -Wl,--no-whole-archive

$(BUILD)/%.rows: tables/%.tsv tables/rows.awk Makefile
	@mkdir -p $(BUILD)
	awk -v texts=$(patsubst $*:%,%,$(filter $*:%,$(TABLES))) -f tables/rows.awk $< >$@

$(BUILD)/%.o: cli/%.c $(HEADERS) $(ROWS) Makefile | setup
	@mkdir -p $(BUILD)
	$(CC) $(STRICT) $(CFLAGS) $(CPPFLAGS) -c $< -o $@

$(BUILD)/buttresk: $(OBJECTS) $(ARCHIVE)
	$(CC) -pthread $(CFLAGS) $(LDFLAGS) -o $@ $(OBJECTS) $(ARCHIVE)

$(BUILD)/cface: tests/command/cface.c $(HEADER) $(ARCHIVE) | setup
	@mkdir -p $(BUILD)
	$(CC) $(STRICT) $(CFLAGS) $(LDFLAGS) -o $@ tests/command/cface.c $(ARCHIVE)

# For the tests alone. Where the compiler has no sanitizers, or an emulator would have to run them,
# the tests say so.
SANITIZED = $(if $(RUN),,$(BUILD)/buttresk-sanitized)
$(BUILD)/buttresk-sanitized: $(SOURCES) $(HEADERS) $(ROWS) $(ARCHIVE) | setup
	@mkdir -p $(BUILD)
	$(CC) $(STRICT) -O1 -g $(SANITIZE) -o $@ $(SOURCES) $(ARCHIVE) || rm -f $@

run:
	@$(SETUP) --install
	@$(AGAIN) all
	$(RUN) $(BUILD)/buttresk list samples/sea.grib2
	$(RUN) $(BUILD)/buttresk index samples/sea.grib2
	$(RUN) $(BUILD)/buttresk fields samples/sea.grib2

test:
	@$(SETUP) --install python3
	@$(AGAIN) all $(BUILD)/cface $(SANITIZED)
	$(RUN) $(BUILD)/cface
	CC="$(CC)" RUN="$(RUN)" tests/command/run.py $(BUILD)/buttresk

check:
	@MAKE="$(MAKE)" tests/checks/all.sh

# A text as one word of the shell, whatever stands in it.
quoted = '$(subst ','\'',$(1))'

# Where things are found once they are installed, and where they are put now: below DESTDIR. A
# PREFIX that does not begin with / is a folder here. Where an emulator has to run the command, a
# starter of two lines has its name.
FOUND = $(if $(filter-out /%,$(firstword $(PREFIX))),$(CURDIR)/)$(PREFIX)
PROGRAM = $(if $(strip $(RUN)),libexec/buttresk/buttresk,bin/buttresk)
START = exec $(RUN) $(call quoted,$(FOUND)/$(PROGRAM)) "$$@"
put = $(call quoted,$(DESTDIR)$(FOUND)/$(1))

install: all
	install -D -m 755 $(BUILD)/buttresk $(call put,$(PROGRAM))
ifneq ($(strip $(RUN)),)
	printf '%s\n' '#!/bin/sh' $(call quoted,$(START)) >$(BUILD)/starter
	install -D -m 755 $(BUILD)/starter $(call put,bin/buttresk)
endif
	install -D -m 644 $(HEADER) $(call put,include/buttresk.h)
	install -D -m 644 $(ARCHIVE) $(call put,lib/libbuttresk.a)
	install -D -m 644 $(BUILD)/$(SHARED) $(call put,lib/$(SHARED))
	ln -sf $(SHARED) $(call put,lib/libbuttresk.so)
	{ printf 'prefix=%s\n' $(call quoted,$(FOUND)); sed 's/@VERSION@/$(VERSION)/' buttresk.pc.in; } \
	    >$(BUILD)/buttresk.pc
	install -D -m 644 $(BUILD)/buttresk.pc $(call put,lib/pkgconfig/buttresk.pc)
	install -D -m 644 docs/buttresk.1 $(call put,share/man/man1/buttresk.1)
	install -D -m 644 completions/buttresk.bash \
	    $(call put,share/bash-completion/completions/buttresk)
	install -D -m 644 completions/_buttresk $(call put,share/zsh/site-functions/_buttresk)

clean:
	rm -rf $(BUILD) target
