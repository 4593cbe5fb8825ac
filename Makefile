.PHONY: run test cost bench install clean

PREFIX = /usr/local

# Proves the library and the listing program, lists the sample book and runs the crew of three.
run:
	@scripts/run

# The gate: every proof, every must-fail edit, and the tests outside Rattle.
test:
	@tests/run

# What the check of each crate costs.
cost:
	@tests/cost

# What each call of the library costs, against C by hand and a bare copy.
bench:
	@bench/run

# The header, the archive and a pkg-config file, to PREFIX under DESTDIR.
install:
	@scripts/install "$(PREFIX)" "$(DESTDIR)"

clean:
	rm -rf target
