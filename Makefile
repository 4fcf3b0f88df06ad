# Proves the walk and all below it, builds it, and walks the worked example. (rt run also runs what it has built, here with no
# list and no tape.)
walk:
	cd crates/walk && rt run </dev/null >/dev/null
	cd crates/walk/data && ../../../tools/walk < ../stdin

# The gate, as it runs before anything lands.
test:
	.ci/run

.PHONY: walk test
