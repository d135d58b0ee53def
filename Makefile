# Targets: all (the command, the library and the program case), demo, gate, check-shell, check-docs, clean, help.
# V=1 shows the compiler's command lines.
CC = gcc
CFLAGS = -std=c99 -D_POSIX_C_SOURCE=200809L -Wall -Wextra -Werror -pedantic -O2
V = 0
QUIET = $(if $(filter 1,$(V)),,@)

LIBRARY = target/staticlib/libdrevokas.a
PROGRAM = target/bin/case
COMMAND = target/bin/drevokas
OBJECTS = $(patsubst shell/%.c,target/shell/%.o,$(wildcard shell/*.c))
PROVED := crates.txt toolchain.txt $(shell find crates \( -name must-fail -o -name out \) -prune -o -type f -print)

all: $(COMMAND) $(PROGRAM)

$(COMMAND): $(OBJECTS) $(LIBRARY)
	@mkdir -p target/bin
	$(QUIET)$(CC) $(CFLAGS) -o $@ $(OBJECTS) $(LIBRARY)
	@echo 'Built $@.'

# After the library: where the toolchain is missing nothing is compiled.
target/shell/%.o: shell/%.c $(wildcard shell/*.h) include/drevokas.h Makefile | $(LIBRARY)
	@mkdir -p target/shell
	$(QUIET)$(CC) $(CFLAGS) -c -o $@ $<

# Every proof is checked, which takes some minutes; done only when library or program is missing or older than what is proved.
$(LIBRARY) $(PROGRAM) &: $(PROVED) | compiler
	@sh tools/group.sh sh tools/prove.sh

compiler:
	@sh tools/need.sh $(CC)

demo: all
	@sh examples/run.sh

gate:
	@sh tools/group.sh sh tests/gate.sh

check-shell: all
	sh shell/tests/run.sh

check-docs: all
	sh tests/docs/run.sh

clean:
	rm -rf $(COMMAND) target/shell

help:
	@echo 'make              builds target/bin/drevokas; proves and builds target/staticlib/libdrevokas.a and target/bin/case'
	@echo '                  when they are missing or old'
	@echo 'make demo         builds, and runs the batch guest of examples'
	@echo 'make gate         every proof, every must-fail edit and every test (tests/gate.sh)'
	@echo 'make check-shell  builds, and runs the tests of the command'
	@echo 'make check-docs   builds, and runs the examples of the documents'
	@echo 'make clean        removes the command and its object files; library and program stay'
	@echo 'V=1               shows the command lines of the compiler'

# The gate makes library and program itself: nothing is made beside it.
ifneq ($(filter gate,$(MAKECMDGOALS)),)
.NOTPARALLEL:
endif
.DELETE_ON_ERROR:
# tools/prove.sh removes the library where it does not get to its end.
.PRECIOUS: $(LIBRARY) $(PROGRAM)
.PHONY: all compiler demo gate check-shell check-docs clean help
