# watchcache: the targets of the README.
# They need the Rattle toolchain's command `rt` on the PATH.

.PHONY: demo serve build test bench

# The program at work: a pod is created, its namespace listed and watched. Where `make build` didn't make the program, one is built
# without proofs first, in some five minutes of one processor and 3 GB of memory.
demo:
	@demo/first-session

# A server on port 8001 of the loopback address, or PORT: the proved program where it was built, and else one without proofs.
serve:
	@demo/serve $(PORT)

# The proved, optimised program, at bin/watchcache. The first time all that it stands on is proved.
build:
	@[ -x crates/watchcache/out/watchcache ] || echo "proving and building: the first time an hour or two on four processors, and 11 GB of memory"
	@cd crates/watchcache && rt run -- session </dev/null
	@mkdir -p bin && cp crates/watchcache/out/watchcache bin/watchcache
	@echo "bin/watchcache is the proved program: bin/watchcache serve listens on port 8001 of 127.0.0.1"

# The gate: every proof, must-fail edit, test and program, and then the repository's own checks.
test:
	rt ci
	.ci/check

# Times beside plain baselines in the same run, as ratios.
bench:
	@bench/run
