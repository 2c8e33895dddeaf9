# The doors of this folder by the names that C and Rust users look for. Each goal calls what README.md names.
PREFIX ?= /usr/local
LIBDIR ?= lib

.PHONY: lib blink show test install uninstall dist deb bench gate

# The library: out/libblink.a, out/libblink.so and out/blink.pc. It is proved first.
lib:
	./libblink

# The programs, out/blink and out/blink-show. Each is proved first.
blink:
	./blink run </dev/null

show:
	./blink-show </dev/null >/dev/null

# What links the library, in C and in Rust.
test:
	./libblink --test
	cargo test --quiet --manifest-path rust/blink/Cargo.toml

# The headers, both libraries, blink.pc and blink.py into PREFIX, below DESTDIR where that is set: all of them, or nothing. LIBDIR is where in
# PREFIX the libraries stand.
install: lib
	sh include/install.sh "$(DESTDIR)" "$(PREFIX)" "$(LIBDIR)"

# Takes them away again.
uninstall:
	sh include/install.sh --uninstall "$(DESTDIR)" "$(PREFIX)" "$(LIBDIR)"

# A release, out/dist/blink-VERSION-linux-x86_64.tar.gz, for who has no toolchain.
dist: lib
	sh tools/dist.sh

# The same as Debian packages in out/deb: libblink0, libblink-dev and python3-blink.
deb: lib
	sh tools/deb.sh

# What index and map cost beside their peers, as tables; out/bench has all figures.
bench: lib
	sh bench/beside.sh

# Every proof, edit, test and program.
gate:
	sh .ci/run
