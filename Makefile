# The library for C and C++: `make install PREFIX=..` proves and builds it, and puts it there with its header.
PREFIX = /usr/local
into = $(DESTDIR)$(PREFIX)
archive = crates/api_c/out/libapi_c.a

all: $(archive)

$(archive): crates.txt $(shell find crates -name out -prune -o -type f -print)
	cd crates/api_c && rt lib
	touch $(archive)

install: $(archive)
	install -d "$(into)/include" "$(into)/lib/pkgconfig"
	install -m 644 include/merkazobi.h "$(into)/include"
	install -m 644 $(archive) "$(into)/lib/libmerkazobi.a"
	sed -e 's|@PREFIX@|$(PREFIX)|' -e "s|@VERSION@|$$(cat VERSION)|" include/merkazobi.pc.in >"$(into)/lib/pkgconfig/merkazobi.pc"

uninstall:
	rm -f "$(into)/include/merkazobi.h" "$(into)/lib/libmerkazobi.a" "$(into)/lib/pkgconfig/merkazobi.pc"

.PHONY: all install uninstall
