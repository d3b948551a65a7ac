# The library for programs in C and C++.
#
#     make                                  proves what has changed, by the kit's rt, and builds out/libshardcache.a
#     make install PREFIX=/usr/local        puts it with its headers and a file for pkg-config there (below DESTDIR, where that is set)
#     make uninstall PREFIX=/usr/local
#
# The program itself is built by ./shardcache.
PREFIX ?= /usr/local
KIT ?= $(shell dirname "$$(rt doc)")
ARCHIVE ?= out/libshardcache.a
VERSION = 0.1

PROVED = crates/shardcache_c/out/libshardcache_c.a
HEAP = $(KIT)/c/liblibc_c.a
HEADERS = include/shardcache.h include/shardcache.hpp
AT = $(DESTDIR)$(PREFIX)

.PHONY: library install uninstall
.DELETE_ON_ERROR:

library:
	cd crates/shardcache_c && rt lib
	$(MAKE) out/libshardcache.a

$(PROVED):
	cd crates/shardcache_c && rt lib

# The proved archive, and the kit's calls of malloc, realloc and free, in one.
out/libshardcache.a: $(PROVED)
	mkdir -p out
	rm -f $@
	printf 'create $@\naddlib $(PROVED)\naddlib $(HEAP)\nsave\nend\n' | $(AR) -M
	ranlib $@

install: $(ARCHIVE)
	install -d $(AT)/include $(AT)/lib/pkgconfig
	install -m 644 $(HEADERS) $(AT)/include
	install -m 644 $(ARCHIVE) $(AT)/lib/libshardcache.a
	sed -e 's|@PREFIX@|$(PREFIX)|' -e 's|@VERSION@|$(VERSION)|' include/shardcache.pc.in > $(AT)/lib/pkgconfig/shardcache.pc

uninstall:
	rm -f $(HEADERS:include/%=$(AT)/include/%) $(AT)/lib/libshardcache.a $(AT)/lib/pkgconfig/shardcache.pc
