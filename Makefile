# make                      the proved library, the route program, the command and the C example, under target/
# make test                 the gate, .ci/run: everything proved from nothing, and tried
# make install PREFIX=...   header, library, pkg-config file, route program and command (DESTDIR is put before PREFIX)
PREFIX ?= /usr/local
VERSION := $(shell sed -n 's/^.define WEXXOLIN_VERSION_TEXT "\(.*\)"/\1/p' include/wexxolin.h)
CFLAGS ?= -O2
STRICT := -std=c11 -Wall -Wextra -pedantic

PROVED := crates.txt $(shell find $(wildcard crates/*/src crates/*/specs crates/*/proofs) -name '*.rt' -o -name '*.antt')
PARTS := $(wildcard command/*.c)

all: target/wexxolin target/wexxolin-route target/libwexxolin.a target/example

.PHONY: all test install needs

# What is missing is named, with its package; nothing is installed.
needs:
	@command -v rt >/dev/null || { echo "rt is missing: it comes with the Rattle kit" >&2; exit 2; }
	@command -v $(CC) >/dev/null || { echo "$(CC) is missing: it is in Debian's package gcc" >&2; exit 2; }

target/staticlib/libwexxolin.a: $(PROVED) | needs
	cd crates/wexxolin && rt lib
	@mkdir -p $(@D)
	cp crates/wexxolin/out/libwexxolin.a $@

# One check at a time, also with make -j. rt run builds the program, and gives it an empty input here.
target/bin/route: $(PROVED) | needs target/staticlib/libwexxolin.a
	cd crates/route && rt run </dev/null >/dev/null
	@mkdir -p $(@D)
	cp crates/route/out/route $@

target/libwexxolin.a: target/staticlib/libwexxolin.a
	cp $< $@

target/wexxolin-route: target/bin/route
	cp $< $@

target/wexxolin: $(PARTS) command/command.h command/picture.h include/wexxolin.h target/libwexxolin.a
	$(CC) $(CFLAGS) $(STRICT) -I include -o $@ $(PARTS) target/libwexxolin.a $(LDFLAGS) -lm

target/example: examples/route.c include/wexxolin.h target/libwexxolin.a
	$(CC) $(CFLAGS) $(STRICT) -I include -o $@ $< target/libwexxolin.a $(LDFLAGS)

test:
	.ci/run

install: all
	install -d $(DESTDIR)$(PREFIX)/bin $(DESTDIR)$(PREFIX)/include $(DESTDIR)$(PREFIX)/lib/pkgconfig
	install -m 644 include/wexxolin.h $(DESTDIR)$(PREFIX)/include
	install -m 644 target/libwexxolin.a $(DESTDIR)$(PREFIX)/lib
	install target/wexxolin target/wexxolin-route $(DESTDIR)$(PREFIX)/bin
	printf '%s\n' 'prefix=$(PREFIX)' 'Name: wexxolin' 'Description: proved trace router for watch-module boards' \
	    'Version: $(VERSION)' 'Cflags: -I$${prefix}/include' 'Libs: -L$${prefix}/lib -lwexxolin' \
	    > $(DESTDIR)$(PREFIX)/lib/pkgconfig/wexxolin.pc
