# The commands of the README. A fresh machine has the Rattle kit, make and cargo.
.PHONY: demo test lib tool wasm dist bench soak fmt rooms

demo:
	@tests/demo

# Every crate from nothing with the edits that must fail, then each other test over what was built. `rt ci` chooses by processors and memory how many checks run at
# a time, where RT_JOBS doesn't say it.
test:
	@tests/gate 'rt ci' tests/format tests/states tests/rooms tests/belief tests/sealed tests/links tests/sha256/run tests/second/run tests/passes/run \
		tests/slow/run 'tests/looks/run &' 'tests/compare/run &' tests/proto/run tests/rust/run 'tests/wasm/run &' tests/tool/run tests/examples/run \
		wait tests/python/run tests/stale/run tests/dist/run

# The static library, proved where `make test` has made the proofs, else the same sources compiled without them; the last line says which.
lib:
	@rust/lib

# The command line tool over that library: target/bin/grants.
tool:
	@rust/tool

# The library as WebAssembly (target/wasm, js/) and the page that shows a proof (docs/inspect/inspect.html), from the same module.
wasm:
	@js/build

# Packages that need no kit, in target/dist: for C, Debian, npm, cargo, Python and Go, with their sums (docs/RELEASE.md).
dist:
	@rust/dist

# The tool for the other machine (target/cross/grants), of Debian's packages, which are fetched and not installed; `make dist` then packs it too.
.PHONY: cross
cross:
	@rust/cross

# Tool, manual page, completions, header, libraries and pkg-config file below PREFIX.
.PHONY: install uninstall
PREFIX ?= /usr/local
install:
	@rust/install '$(PREFIX)'

uninstall:
	@rust/install '$(PREFIX)' remove

bench:
	@bench/run

# The comparison with the second program, a hundred times longer than in the gate (about half an hour); SEED picks other cases.
soak:
	@tests/compare/run 400000 $${SEED:-2}

fmt:
	@for crate in crates/*; do (cd "$$crate" && rt fmt) || exit; done

# The picture of the rooms and the tables of docs/ARCHITECTURE.md, anew from crates.txt.
rooms:
	@tests/rooms --draw
