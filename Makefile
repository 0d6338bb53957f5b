.PHONY: test check

# The gate: every crate proved from nothing or kept from such a run, every must-fail edit refused, every program run; then the C tests over the same crates.
test:
	@scripts/gate

# The proofs while you work: only what changed, without the must-fail edits and without the C tests.
check:
	@rt all check

include c.mk
