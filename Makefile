# make            proves and compiles the programs and the library; needs the Rattle toolchain, whose `rt` must be on the path
# make install    copies what make built below PREFIX (/usr/local), for a package below DESTDIR, and tells the loader; needs no toolchain
# make sums       target/SHA256SUMS, the sums of what make built
# make deb        a Debian package of what make install installs
# make wheel      a wheel for pip, of the package in Python, the library, the programs and ecn
# make declarations  the modules in other languages that are made from include/flasknib.h
PREFIX ?= /usr/local
DESTDIR ?=

VERSION := $(shell cat VERSION)
# The programs are the crates over `shell`.
PROGRAMS := $(shell awk -F: '($$2 " ") ~ / shell / { print $$1 }' crates.txt)

binaries := $(PROGRAMS:%=target/bin/%)
archive := target/staticlib/libcapi.a
static := target/lib/libflasknib.a
# While the version begins with 0, its second number may change the functions: it is in the soname.
soname := libflasknib.so.$(basename $(VERSION))
shared := target/lib/libflasknib.so.$(VERSION)
manual := $(PROGRAMS:%=man/%.1) man/ecn.1
# In share/doc as in the tree, so that the links from one to the other lead on.
pages := docs/LIBRARY.md docs/PROGRAMS.md docs/TABLE.md docs/TRACE.md
examples := $(wildcard examples/*.c examples/*.cpp examples/*.py examples/*.expected)
built := $(binaries) $(static) $(shared) target/man/flasknib.3 target/SHA256SUMS
to := $(DESTDIR)$(PREFIX)

.PHONY: all built install sums deb wheel programs declarations
.DELETE_ON_ERROR:

all:
	packaging/build
	$(MAKE) built

built: $(built)

sums: target/SHA256SUMS

deb: $(built)
	packaging/deb

wheel: $(built)
	packaging/wheel $(shared) $(binaries)

programs:
	@echo $(PROGRAMS)

declarations:
	packaging/declarations python include/flasknib.h >python/flasknib/header.py
	packaging/declarations rust include/flasknib.h >rust/flasknib/src/header.rs

$(binaries) $(archive):
	@echo "$@ is not there: run make first" >&2; exit 1

$(static): $(archive)
	@mkdir -p $(@D)
	cp $< $@

# Of another version none is left, which tools/ecn could take for this one. LDFLAGS are the caller's.
$(shared): $(static) VERSION
	rm -f $(@D)/libflasknib.so*
	$(CC) -shared -nostartfiles -Wl,-soname,$(soname) -Wl,-z,defs -Wl,-z,text -Wl,-z,noexecstack -Wl,-z,relro,-z,now $(LDFLAGS) \
		-Wl,--whole-archive $(static) -Wl,--no-whole-archive -o $@

target/man/flasknib.3: man/flasknib.3 include/flasknib.h packaging/synopsis
	@mkdir -p $(@D)
	packaging/synopsis include/flasknib.h man/flasknib.3 >$@

target/SHA256SUMS: $(binaries) $(static) $(shared) packaging/sums
	cd target && ../packaging/sums $(PROGRAMS:%=bin/%) $(static:target/%=%) $(shared:target/%=%) >SHA256SUMS

install: $(built)
	install -d "$(to)/bin" "$(to)/include" "$(to)/lib/pkgconfig" "$(to)/share/man/man1" "$(to)/share/man/man3" "$(to)/share/doc/flasknib/docs" \
		"$(to)/share/doc/flasknib/examples/rust" "$(to)/share/flasknib/ecnlib" "$(to)/share/flasknib/flasknib"
	install -m 755 $(binaries) "$(to)/bin"
	install -m 644 include/flasknib.h "$(to)/include"
	install -m 644 $(static) $(shared) "$(to)/lib"
	ln -sf $(notdir $(shared)) "$(to)/lib/$(soname)"
	ln -sf $(soname) "$(to)/lib/libflasknib.so"
	sed 's|@PREFIX@|$(PREFIX)|; s|@VERSION@|$(VERSION)|' packaging/flasknib.pc.in >"$(to)/lib/pkgconfig/flasknib.pc"
	chmod 644 "$(to)/lib/pkgconfig/flasknib.pc"
	install -m 644 $(manual) "$(to)/share/man/man1"
	install -m 644 target/man/flasknib.3 "$(to)/share/man/man3"
	for name in $$(packaging/functions include/flasknib.h); do \
		echo .so man3/flasknib.3 >"$(to)/share/man/man3/$$name.3" && chmod 644 "$(to)/share/man/man3/$$name.3" || exit 1; \
	done
	install -m 644 target/SHA256SUMS README.md "$(to)/share/doc/flasknib"
	install -m 644 $(pages) "$(to)/share/doc/flasknib/docs"
	install -m 644 $(examples) "$(to)/share/doc/flasknib/examples"
	install -m 644 examples/rust/*.rs "$(to)/share/doc/flasknib/examples/rust"
	install -m 644 tools/wireshark/ecn.lua "$(to)/share/flasknib"
	install -m 644 tools/ecnlib/*.py "$(to)/share/flasknib/ecnlib"
	install -m 644 python/flasknib/*.py python/flasknib/py.typed "$(to)/share/flasknib/flasknib"
	install -m 755 tools/ecn "$(to)/share/flasknib"
	ln -sf ../share/flasknib/ecn "$(to)/bin/ecn"
	@[ -n "$(DESTDIR)" ] || packaging/loader "$(PREFIX)/lib"
