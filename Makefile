# make proved: has rt prove and build the program and the library for C. make dist: makes a release of them, in dist/out.
# make dist-arm: the same for aarch64-linux-gnu. make check-dist: uses what was made as its users would.
.PHONY: proved dist dist-arm check-dist

# The first line takes about 20 minutes where nothing is proved yet. The last tells .ci/build that rt has seen the sources.
proved:
	cd crates/kfifo && rt run -- --version
	cd crates/kfifo_c && rt lib
	touch crates/*/out/rlib

dist:
	dist/build

dist-arm:
	dist/build --arm

check-dist:
	dist/check dist/out/*.tar.gz $(wildcard dist/out/*.deb)
