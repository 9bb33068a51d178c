# What to do with the repository: `make help` lists the targets. All but it and `docs` need the Rattle toolchain,
# whose command is `rt`.

PROGRAM := crates/d3dsim/out/d3dsim
CHECKER := crates/d3djournal/out/d3djournal
FENCES := crates/fence_costs/out/fence_costs
COMMANDS := crates/vk_costs/out/vk_costs
LOWERING := crates/lower_costs/out/lower_costs
JOURNALS := crates/journal_costs/out/journal_costs

.PHONY: help demo prove test profile bench docs toolchain

help:
	@echo "make demo      run the first example, on a quick build without proofs; under a minute"
	@echo "make prove     prove the crates and build d3dsim and d3djournal; a quarter of an hour and more"
	@echo "make test      the whole gate: every proof, edit, test, program, example and document; an hour and more"
	@echo "make profile   the gate from nothing, with its processor minutes by crate; an hour and more"
	@echo "make bench     how time grows with traces, signals and waits, commands, lists and journals, on the proved programs"
	@echo "make docs      write again what of the documents is made from the crates"
	@echo "make help      these lines"

# Runs the first example: on the proved program where it is there and up to date, else on a build without proofs.
demo: toolchain
	@if $(MAKE) -q $(PROGRAM) >/dev/null 2>&1; then tools/demo proved; else tools/demo; fi

# Proves the two programs and all crates below them, and builds them.
prove: toolchain $(PROGRAM) $(CHECKER)
	@echo "$(PROGRAM) is proved and built: try tools/d3d run examples/01-one-copy/trace"
	@echo "$(CHECKER) is proved and built: try tools/d3d check examples/09-clean-journal/journal"

# Runs the whole gate.
test: toolchain
	.ci/run

# Says what the gate costs from nothing.
profile: toolchain
	tools/profile

# Measures; time is no part of the gate.
bench: toolchain $(PROGRAM) $(CHECKER) $(FENCES) $(COMMANDS) $(LOWERING) $(JOURNALS)
	bench/run

# Writes docs/DEFINITIONS.md and the ledger of docs/TESTING.md.
docs:
	tools/write-docs

# Says what is missing where there is no `rt`.
toolchain:
	@command -v rt >/dev/null || { \
	    echo "There is no command rt. It is the Rattle toolchain, which proves and builds this repository:" \
	        "unpack the toolchain, and put its folder bin on your PATH." >&2; \
	    exit 1; \
	}

# Only a proved program is built: `rt run` proves each crate below it, lowest first.
$(PROGRAM): $(shell find crates -path '*/out' -prune -o -type f \( -name '*.rt' -o -name '*.antt' \) -print 2>/dev/null) crates.txt | toolchain
	cd crates/d3dsim && rt run < stdin > /dev/null
	@test -x $@ && touch $@

$(CHECKER): $(shell find crates -path '*/out' -prune -o -type f \( -name '*.rt' -o -name '*.antt' \) -print 2>/dev/null) crates.txt | toolchain
	cd crates/d3djournal && rt run < stdin > /dev/null
	@test -x $@ && touch $@

$(FENCES): $(shell find crates/dx_base crates/fence_timeline crates/fence_costs -path '*/out' -prune -o -type f \( -name '*.rt' -o -name '*.antt' \) -print 2>/dev/null) crates.txt | toolchain
	cd crates/fence_costs && rt run -- rise 8 > /dev/null
	@test -x $@ && touch $@

$(COMMANDS): $(shell find crates/dx_base crates/dx_flags crates/vk_types crates/routines crates/vk_sync_rules crates/vk_costs -path '*/out' -prune -o -type f \( -name '*.rt' -o -name '*.antt' \) -print 2>/dev/null) crates.txt | toolchain
	cd crates/vk_costs && rt run -- apart 40 > /dev/null
	@test -x $@ && touch $@

$(LOWERING): $(shell find crates/dx_base crates/dx_flags crates/enhanced_barriers crates/d3d_resources crates/vk_types crates/trace_words crates/lower_tables crates/barrier_lowering crates/lower_costs -path '*/out' -prune -o -type f \( -name '*.rt' -o -name '*.antt' \) -print 2>/dev/null) crates.txt | toolchain
	cd crates/lower_costs && rt run -- list 40 > /dev/null
	@test -x $@ && touch $@

$(JOURNALS): $(shell find crates -path '*/out' -prune -o -type f \( -name '*.rt' -o -name '*.antt' \) -print 2>/dev/null) crates.txt | toolchain
	cd crates/journal_costs && rt run < stdin > /dev/null
	@test -x $@ && touch $@
