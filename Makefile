# `rt` is the command of the Rattle kit.
.PHONY: demo build check mutations refused test

# Builds ipcat once, without its proofs. `ipcat demo` writes the example, byte for byte, and
# `ipcat stream` shows it.
demo:
	@cd crates/ipcat && cases=$$(mktemp -d) && touch $$cases/demo && cp data/example.arrows $$cases/demo.stdout \
	&& cp data/example.arrows $$cases/stream && echo demo > $$cases/demo.args && echo stream > $$cases/stream.args && rt try --cases $$cases; \
	status=$$?; rm -rf $$cases; exit $$status

# The check for daily work, in minutes: all programs, cases and tests, built without proofs, and
# the programs that make build built, run as a shell does. With make check WORD=flat: a crate, or
# files of cases.
check:
	tools/check $(WORD)

# Proves ipcat and ipconvert and all below them, and builds them.
build:
	@cd crates/ipcat && rt run -- demo > /dev/null
	@cd crates/ipconvert && rt run -- - stream < stdin > /dev/null
	@echo "the proved programs: crates/ipcat/out/ipcat, crates/ipconvert/out/ipconvert"

# Judges mutations: wrong bodies, which the prover must refuse. Takes the crates that differ from
# origin/main, or make mutations NAMES="lower_validation ipc_table_views".
mutations:
	tools/mutations $(NAMES)

# Proves and runs the tests of the crates lower_bench.. and ipc_bench.. with each of their allocations
# refused in turn, or make refused ONLY="WORD ..": those whose names have a word.
refused:
	tools/refused $(ONLY)

# CI: in seconds, that each mutation applies, that the README's program is the example, that the pages
# docs/api.md and docs/theorems.md are those of the sources, and that the counts of tools/house are
# those of tools/house.counts; then every proof and the mutations of must-fail/ (of what changed,
# where earlier runs are kept), every test and every program; and the tests once more, with each of
# their allocations refused in turn.
test:
	tools/mutations --applies
	tools/readme
	tools/docs --check
	tools/house
	rt ci
	tools/refused --built
