# Makes and installs the library for C.
#     make                          libcalmizsed.a, libcalmizsed.so.0 and calmizsed.pc, in out/c
#     make install PREFIX= DESTDIR= and uninstall
#     make dist                     a tar of the programs, the library, its header, pages and checksums, which needs no toolchain
#     make pages                    the command's page for man and its completions for bash and zsh, in out/c/pages, which a tar has too
#     make check                    bindings/check, with what is made
# tools/run/build_crates.py proves what is built; PROVED= names another archive of the crate rpki_c, and PROGRAMS= the programs of a tar.

PREFIX = /usr/local
DESTDIR =
LIBDIR = $(PREFIX)/lib
INCLUDEDIR = $(PREFIX)/include
PYTHON = python3
PROGRAMS = rpkica rpkiguard rpkiarch rpkipub rpkiup rpkikeys
PROVED = crates/rpki_c/out/librpki_c.a

OUT = out/c
MADE = $(OUT)/libcalmizsed.a $(OUT)/libcalmizsed.so.0 $(OUT)/libcalmizsed.so $(OUT)/calmizsed.pc
VERSION := $(shell sed -n 's/^const VERSION.*b"\(.*\)";$$/\1/p' crates/rpki_c/src/*.rt)
SOURCES := $(shell find $$(tools/run/build_crates.py --list rpki_c | awk 'NF == 3 && NR > 1 { print "crates/" $$1 }') \
    -name out -prune -o -type f -print)
NAME = calmizsed-$(VERSION)
PAGES = README.md CHANGELOG.md CONTRIBUTING.md SECURITY.md LICENSE docs bindings/c bindings/rust bindings/python examples calmizsed
# The time of what is in the tar: so two of one commit are the same.
SOURCE_DATE_EPOCH ?= $(shell git log -1 --format=%ct 2>/dev/null || echo 0)
TAR = tar --sort=name --owner=0 --group=0 --numeric-owner --mtime=@$(SOURCE_DATE_EPOCH)

.PHONY: all always install uninstall dist pages check clean

all: $(MADE)

crates/rpki_c/out/librpki_c.a: $(SOURCES) crates.txt
	tools/run/build_crates.py rpki_c

# One object, with the toolchain's allocator in it, of which only the calls can be seen.
$(OUT)/calmizsed.o: $(PROVED)
	mkdir -p $(OUT)
	$(LD) -r -o $@ --whole-archive $(PROVED) --no-whole-archive "$$(dirname "$$(rt doc)")/c/liblibc_c.a"
	objcopy --wildcard --keep-global-symbol='calmizsed_*' $@

$(OUT)/libcalmizsed.a: $(OUT)/calmizsed.o
	rm -f $@
	$(AR) rcs $@ $(OUT)/calmizsed.o

$(OUT)/libcalmizsed.so.0: $(OUT)/calmizsed.o bindings/c/exports.map
	$(CC) $(LDFLAGS) -shared -Wl,-soname,libcalmizsed.so.0 -Wl,--version-script=bindings/c/exports.map -Wl,--no-undefined \
	    -Wl,-z,relro,-z,now,-z,noexecstack -o $@ $(OUT)/calmizsed.o

$(OUT)/libcalmizsed.so: $(OUT)/libcalmizsed.so.0
	ln -sf libcalmizsed.so.0 $@

# Each time, for another PREFIX.
$(OUT)/calmizsed.pc: always
	mkdir -p $(OUT)
	printf '%s\n' 'prefix=$(PREFIX)' 'libdir=$(patsubst $(PREFIX)/%,$${prefix}/%,$(LIBDIR))' \
	    'includedir=$(patsubst $(PREFIX)/%,$${prefix}/%,$(INCLUDEDIR))' '' \
	    'Name: calmizsed' 'Description: Signed messages of the RPKI protocols, under keys that are held elsewhere' \
	    'Version: $(VERSION)' 'Cflags: -I$${includedir}' 'Libs: -L$${libdir} -lcalmizsed' > $@

install: all
	install -d $(DESTDIR)$(LIBDIR)/pkgconfig $(DESTDIR)$(INCLUDEDIR)
	install -m 644 include/calmizsed.h $(DESTDIR)$(INCLUDEDIR)
	install -m 644 $(OUT)/libcalmizsed.a $(DESTDIR)$(LIBDIR)
	install -m 755 $(OUT)/libcalmizsed.so.0 $(DESTDIR)$(LIBDIR)
	ln -sf libcalmizsed.so.0 $(DESTDIR)$(LIBDIR)/libcalmizsed.so
	install -m 644 $(OUT)/calmizsed.pc $(DESTDIR)$(LIBDIR)/pkgconfig

uninstall:
	rm -f $(DESTDIR)$(INCLUDEDIR)/calmizsed.h $(DESTDIR)$(LIBDIR)/libcalmizsed.a $(DESTDIR)$(LIBDIR)/libcalmizsed.so \
	    $(DESTDIR)$(LIBDIR)/libcalmizsed.so.0 $(DESTDIR)$(LIBDIR)/pkgconfig/calmizsed.pc

dist: all
	rm -rf $(OUT)/$(NAME)
	mkdir -p $(OUT)/$(NAME)/bin
	$(MAKE) -o $(OUT)/calmizsed.o install DESTDIR= PREFIX=$(abspath $(OUT)/$(NAME))
	sed -i 's|^prefix=.*|prefix=$${pcfiledir}/../..|' $(OUT)/$(NAME)/lib/pkgconfig/calmizsed.pc
	$(TAR) --exclude=target --exclude=__pycache__ --exclude='*.egg-info' --exclude='.*_cache' -cf - $(PAGES) | tar -xf - -C $(OUT)/$(NAME)
	[ ! -d $(OUT)/pages ] || cp -R $(OUT)/pages $(OUT)/$(NAME)
	[ -z '$(PROGRAMS)' ] || tools/run/build_crates.py $(PROGRAMS)
	for name in $(PROGRAMS); do cp crates/$$name/out/$$name $(OUT)/$(NAME)/bin || exit 1; done
	cd $(OUT)/$(NAME) && find . -type f ! -name SHA256SUMS -print0 | LC_ALL=C sort -z | xargs -0 sha256sum > SHA256SUMS
	$(TAR) -cf - -C $(OUT) $(NAME) | gzip -n > $(OUT)/$(NAME).tar.gz

pages:
	$(PYTHON) bindings/python/pages $(OUT)/pages

check: all
	bindings/check --library $(OUT)

clean:
	rm -rf $(OUT)
