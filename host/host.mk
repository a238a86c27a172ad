# The host side: the tool, its tests, the demonstration and the installation. The main Makefile includes it and runs at the root.
PAT_ARCHIVE ?= target/staticlib/libpat.a
# The header has the version.
PAT_VERSION := $(shell sed -n 's/^.define PAT_VERSION "\(.*\)"$$/\1/p' host/pat.h)

PREFIX ?= /usr/local
BINDIR ?= $(PREFIX)/bin
LIBDIR ?= $(PREFIX)/lib
INCLUDEDIR ?= $(PREFIX)/include
MANDIR ?= $(PREFIX)/share/man
COMPLETIONDIR ?= $(PREFIX)/share/bash-completion/completions

HOST_OUT = target/host
HOST_CC ?= gcc
HOST_CXX ?= g++
HOST_FLAGS = -std=c11 -O2 -Wall -Wextra -Wpedantic -Werror -Wconversion -Wshadow
HOST_SYSTEM = -Ihost -D_DEFAULT_SOURCE -D_XOPEN_SOURCE=700
HOST_SANITIZE = -g -fsanitize=address,undefined -fno-sanitize-recover=all
HOST_THREADS = -g -fsanitize=thread

TOOL_SOURCES = $(wildcard host/roundcard/*.c)
TOOL_NEEDS = $(TOOL_SOURCES) $(wildcard host/roundcard/*.h) host/pat.h host/host.mk $(PAT_ARCHIVE)
TOOL_BUILD = $(HOST_CC) $(HOST_FLAGS) $(HOST_SYSTEM) -DVERSION='"$(PAT_VERSION)"'

MAN_PAGES = $(wildcard host/man/*.1) $(wildcard host/man/*.3)

TEST_SOURCES = $(wildcard host/tests/calls/*.c)
TEST_NEEDS = $(TEST_SOURCES) $(wildcard host/tests/calls/*.h) host/pat.h host/host.mk $(PAT_ARCHIVE)
TEST_BUILD = $(HOST_CC) $(HOST_FLAGS) $(HOST_SYSTEM) -g

ENGINES_NEEDS = host/engines.c host/tests/engines.c host/pat.h host/host.mk $(PAT_ARCHIVE)
ENGINES_BUILD = $(HOST_CC) $(HOST_FLAGS) -Ihost -pthread

# The parts of the test, which make check times one by one.
HOST_TESTS = host-headers host-symbols host-stack host-manual host-calls-plain host-calls-sanitized host-calls-valgrind \
    host-engines-plain host-engines-sanitized host-engines-threads host-trees host-tool-plain host-tool-sanitized host-installed demo

.PHONY: roundcard install uninstall host-test host-calls host-engines host-tool $(HOST_TESTS) FORCE

roundcard: $(HOST_OUT)/roundcard

# rt proves what goes into the archive. An archive from elsewhere is taken as it is.
ifeq ($(PAT_ARCHIVE),target/staticlib/libpat.a)
$(PAT_ARCHIVE): FORCE
	@host/staticlib.sh pat
endif

$(HOST_OUT)/roundcard: $(TOOL_NEEDS)
	@mkdir -p $(@D)
	$(TOOL_BUILD) $(TOOL_SOURCES) $(PAT_ARCHIVE) -o $@

$(HOST_OUT)/sanitized/roundcard: $(TOOL_NEEDS)
	@mkdir -p $(@D)
	$(TOOL_BUILD) $(HOST_SANITIZE) $(TOOL_SOURCES) $(PAT_ARCHIVE) -o $@

$(HOST_OUT)/calls: $(TEST_NEEDS)
	@mkdir -p $(@D)
	$(TEST_BUILD) $(TEST_SOURCES) $(PAT_ARCHIVE) -o $@

$(HOST_OUT)/sanitized/calls: $(TEST_NEEDS)
	@mkdir -p $(@D)
	$(TEST_BUILD) $(HOST_SANITIZE) $(TEST_SOURCES) $(PAT_ARCHIVE) -o $@

# The example with several engines, and the program that compares them with pat_write.
$(HOST_OUT)/engines: $(ENGINES_NEEDS)
	@mkdir -p $(@D)
	$(ENGINES_BUILD) host/engines.c $(PAT_ARCHIVE) -o $@

$(HOST_OUT)/compare: $(ENGINES_NEEDS)
	@mkdir -p $(@D)
	$(ENGINES_BUILD) host/tests/engines.c $(PAT_ARCHIVE) -o $@

$(HOST_OUT)/sanitized/engines: $(ENGINES_NEEDS)
	@mkdir -p $(@D)
	$(ENGINES_BUILD) $(HOST_SANITIZE) host/engines.c $(PAT_ARCHIVE) -o $@

$(HOST_OUT)/sanitized/compare: $(ENGINES_NEEDS)
	@mkdir -p $(@D)
	$(ENGINES_BUILD) $(HOST_SANITIZE) host/tests/engines.c $(PAT_ARCHIVE) -o $@

$(HOST_OUT)/threads/compare: $(ENGINES_NEEDS)
	@mkdir -p $(@D)
	$(ENGINES_BUILD) $(HOST_THREADS) host/tests/engines.c $(PAT_ARCHIVE) -o $@

# The tool over a library that answers anything.
$(HOST_OUT)/odd: $(TOOL_NEEDS) host/tests/tool/odd.c
	@mkdir -p $(@D)
	$(TOOL_BUILD) $(TOOL_SOURCES) host/tests/tool/odd.c -o $@

$(HOST_OUT)/faults.so: host/tests/tool/faults.c
	@mkdir -p $(@D)
	$(HOST_CC) $(HOST_FLAGS) -D_GNU_SOURCE -shared -fPIC $< -o $@

# Bound before it starts, so that no call has a dynamic linker on its stack.
$(HOST_OUT)/stack: host/tests/stack.c host/pat.h host/host.mk $(PAT_ARCHIVE)
	@mkdir -p $(@D)
	$(TEST_BUILD) $< $(PAT_ARCHIVE) -Wl,-z,now -o $@

demo: $(HOST_OUT)/roundcard $(HOST_OUT)/faults.so
	host/demo.sh $^

install: $(HOST_OUT)/roundcard
	install -d $(DESTDIR)$(BINDIR) $(DESTDIR)$(LIBDIR)/pkgconfig $(DESTDIR)$(INCLUDEDIR)
	install -m 755 $(HOST_OUT)/roundcard $(DESTDIR)$(BINDIR)/roundcard
	install -m 644 $(PAT_ARCHIVE) $(DESTDIR)$(LIBDIR)/libpat.a
	install -m 644 host/pat.h $(DESTDIR)$(INCLUDEDIR)/pat.h
	sed -e 's|@PREFIX@|$(PREFIX)|' -e 's|@LIBDIR@|$(LIBDIR)|' -e 's|@INCLUDEDIR@|$(INCLUDEDIR)|' -e 's|@VERSION@|$(PAT_VERSION)|' \
	    host/pat.pc.in > $(HOST_OUT)/pat.pc
	install -m 644 $(HOST_OUT)/pat.pc $(DESTDIR)$(LIBDIR)/pkgconfig/pat.pc
	install -d $(DESTDIR)$(COMPLETIONDIR) $(DESTDIR)$(MANDIR)/man1 $(DESTDIR)$(MANDIR)/man3
	install -m 644 host/completion/roundcard $(DESTDIR)$(COMPLETIONDIR)/roundcard
	for page in $(MAN_PAGES); do install -m 644 $$page $(DESTDIR)$(MANDIR)/man$${page##*.}/ || exit 1; done

# Folders stay: others may use them.
uninstall:
	rm -f $(DESTDIR)$(BINDIR)/roundcard $(DESTDIR)$(LIBDIR)/libpat.a $(DESTDIR)$(INCLUDEDIR)/pat.h
	rm -f $(DESTDIR)$(LIBDIR)/pkgconfig/pat.pc $(DESTDIR)$(COMPLETIONDIR)/roundcard
	for page in $(MAN_PAGES); do rm -f $(DESTDIR)$(MANDIR)/man$${page##*.}/$${page##*/} || exit 1; done

host-test: $(HOST_TESTS)

# The header in C and C++, and its attributes.
host-headers: $(PAT_ARCHIVE)
	CC='$(HOST_CC)' CXX='$(HOST_CXX)' host/tests/headers.sh $(PAT_ARCHIVE)

# What the archive offers and needs.
host-symbols: $(PAT_ARCHIVE)
	host/tests/symbols.sh $(PAT_ARCHIVE)

# The manual page of the library.
host-manual: $(PAT_ARCHIVE)
	CC='$(HOST_CC)' host/tests/manual.sh $(PAT_ARCHIVE)

# The stack that each call needs.
host-stack: $(HOST_OUT)/stack
	$(HOST_OUT)/stack

# The calls: on fenced pages, then under the sanitizers and under valgrind.
host-calls: host-calls-plain host-calls-sanitized host-calls-valgrind

host-calls-plain: $(HOST_OUT)/calls
	python3 -B host/tests/known.py | cmp - host/tests/calls/known.h
	python3 -B host/tests/known_plans.py | cmp - host/tests/calls/known_plans.h
	python3 -B host/tests/known_journals.py | cmp - host/tests/calls/known_journals.h
	$(HOST_OUT)/calls

host-calls-sanitized: $(HOST_OUT)/sanitized/calls
	PAT_TEST_EXACT=1 $(HOST_OUT)/sanitized/calls

host-calls-valgrind: $(HOST_OUT)/calls
	host/tests/valgrind.sh $(HOST_OUT)/calls

# Split writes by the engines of the example: against pat_write, and the same with memory and with threads watched.
host-engines: host-engines-plain host-engines-sanitized host-engines-threads

host-engines-plain: $(HOST_OUT)/engines $(HOST_OUT)/compare
	host/tests/engines.sh $(HOST_OUT)/engines $(HOST_OUT)/compare 2000

host-engines-sanitized: $(HOST_OUT)/sanitized/engines $(HOST_OUT)/sanitized/compare
	host/tests/engines.sh $(HOST_OUT)/sanitized/engines $(HOST_OUT)/sanitized/compare 500

host-engines-threads: $(HOST_OUT)/threads/compare
	host/tests/threads.sh $(HOST_OUT)/threads/compare 300

# The benchmark's tree in plain C, over the CMACs of other libraries, beside the calls.
host-trees: $(PAT_ARCHIVE)
	CC='$(HOST_CC)' bench/c/agree.sh $(PAT_ARCHIVE)

# The tool on files, and the same with its memory watched.
host-tool: host-tool-plain host-tool-sanitized

host-tool-plain: $(HOST_OUT)/roundcard $(HOST_OUT)/faults.so $(HOST_OUT)/odd
	ROUNDCARD=$(HOST_OUT)/roundcard FAULTS=$(HOST_OUT)/faults.so ODD=$(HOST_OUT)/odd python3 -B -m unittest discover -s host/tests/tool

host-tool-sanitized: $(HOST_OUT)/sanitized/roundcard
	ROUNDCARD=$(HOST_OUT)/sanitized/roundcard python3 -B -m unittest discover -s host/tests/tool

# What make install leaves, used as somebody else would.
host-installed: $(HOST_OUT)/roundcard
	CC='$(HOST_CC)' MAKE='$(MAKE)' host/tests/installed.sh $(PAT_ARCHIVE)
