# Nothing here decides the gate: .ci/run does.
.PHONY: demo build test clean

EXAMPLE = local data/schema.graphql data/tables.json data/document.graphql - 0 7
CRATES = gql_tree gql_io gql_model gql_payload gql_multipart gql_merge gql_confluence gql_client gql_lex gql_doc gql_bench gql_tool gql_run

# The example request over the example files: its first fields, and then those that were deferred.
demo:
	@echo "Nothing is proved by this: 'make build' does that. It takes about a minute."
	@cd crates/gql_run && rt try -- $(EXAMPLE)

# Proves each crate, which takes a while the first time, and leaves the program.
build:
	@for crate in $(CRATES); do \
	    log=$$(mktemp); \
	    (cd crates/$$crate && rt check > $$log 2>&1) || { cat $$log; rm -f $$log; exit 1; }; \
	    rm -f $$log; echo "$$crate: proved"; \
	done
	@cd crates/gql_run && rt run -- $(EXAMPLE) > out.log 2>&1 || { cat out.log; rm -f out.log; exit 1; }
	@rm -f crates/gql_run/out.log
	@echo the program: crates/gql_run/out/gql_run

test:
	rt ci

clean:
	rm -rf crates/*/out
