# make takes the program and the library for C from dist/, where the gate put them, and links libraries; make help says what else there is.
PREFIX = /usr/local
DESTDIR =

bin = $(DESTDIR)$(PREFIX)/bin
lib = $(DESTDIR)$(PREFIX)/lib
include = $(DESTDIR)$(PREFIX)/include
# The shared object is the module's alone: beside the static library, -lx509check would take it.
private = $(lib)/x509check
libexec = $(DESTDIR)$(PREFIX)/libexec/x509check
share = $(DESTDIR)$(PREFIX)/share/x509check
# The scripts of bin/, which users run.
scripts = verdicts validate to_der fetch
# The crates for Rust that stand on others' crates, and on the one beside them.
crates = rust-openssl rust-rustls

.PHONY: all build prove check packages install uninstall help

# (what was built here comes first: .ci/where)
all:
	@.ci/where program >/dev/null
	.ci/bindings --link

build:
	./x509check --build
	.ci/build capi
	.ci/bindings --link

prove:
	RT_JOBS=$$(nproc) .ci/times rt ci

check:
	tests/check

install: all
	install -d $(bin) $(lib) $(private) $(include) $(libexec) $(share)/python/x509check $(share)/rust/src/party $(share)/openssl $(share)/party
	install -d $(share)/c $(addprefix $(share)/,$(crates:%=%/src))
	install -m 755 "$$(.ci/where program)" $(bin)/x509check
	install -m 644 bindings/out/libx509check.a $(lib)
	install -m 644 crates/capi/x509check.h $(include)
	install -m 644 bindings/party/x509check_party.c bindings/party/*.h $(share)/party
	cd bin && install -m 755 $(scripts) $(libexec)
	install -m 755 bindings/out/libx509check.so $(private)
	install -m 644 bindings/python/x509check/*.py bindings/python/x509check/py.typed $(share)/python/x509check
	install -m 644 bindings/rust/Cargo.toml bindings/rust/build.rs $(share)/rust
	install -m 644 bindings/rust/src/*.rs $(share)/rust/src
	install -m 644 bindings/rust/src/party/*.rs $(share)/rust/src/party
	for crate in $(crates); do \
		install -m 644 bindings/$$crate/Cargo.toml $(share)/$$crate && \
		install -m 644 bindings/$$crate/src/*.rs $(share)/$$crate/src || exit 1; \
	done
	install -m 644 bindings/openssl/x509check_openssl*.[ch] $(share)/openssl
	install -m 644 bindings/c/x509check_common.h $(share)/c

uninstall:
	rm -f $(bin)/x509check $(lib)/libx509check.a $(include)/x509check.h
	rm -f $(scripts:%=$(libexec)/%)
	rm -f $(private)/libx509check.so
	rm -rf $(share)/python $(share)/rust $(share)/openssl $(share)/party $(share)/c $(addprefix $(share)/,$(crates))
	-rmdir $(libexec) $(share) $(private)

help:
	@echo 'make                      the program and the library for C from dist/ (or what make build made), and the shared object for Python'
	@echo 'make build                proves and builds them from the sources, by the Rattle kit: an hour'
	@echo 'make prove                proves all and tries what must be refused: from nothing some 240 minutes of a processor'
	@echo 'make check                tries the program, the library and the bindings, as users have them, in some two minutes; proves nothing'
	@echo 'make install PREFIX=/usr/local DESTDIR='
	@echo '                          bin/x509check, lib/libx509check.a, include/x509check.h, lib/x509check/libx509check.so,'
	@echo '                          libexec/x509check/verdicts, validate, to_der and fetch, share/x509check/python, openssl, rust,'
	@echo '                          rust-openssl, rust-rustls, party and c'
	@echo 'make uninstall            removes what install put there'
	@echo 'make packages             a .deb, a wheel and crates in out/, without network'

packages:
	.ci/packages
