# `make` or `make help` lists what can be made: the text after ## of each target. Words for a program go into ARGS.
.PHONY: help demo lib test compare attack bench sums server soak secrets fuzz vectors bindings install uninstall clean

help: ## this list
	@sed -n 's/^\([a-z ]*\):.*## /\1|/p' $(MAKEFILE_LIST) | while IFS='|' read -r name what; do \
		printf '  make %-18s %s\n' "$$name" "$$what"; done

demo: ## the main job on a built-in example; the library is proved and built first, once
	@sh tests/demo.sh

lib: ## the library: crates/solfadrus/out/libsolfadrus.a, proved and built where a source has changed
	@. tests/need.sh; lib=$$(library) && echo "$$lib/libsolfadrus.a"

test: ## every proof and every test; what a run here proved of the same files is kept for the next
	@sh tests/run.sh

compare: ## the library against the Rust rendering; words for the comparison in ARGS
	@. tests/need.sh; lib=$$(library) && sh tests/compare.sh "$$lib" $(ARGS)

attack: ## solves for the witness from proofs: with one mask it must succeed, against the library it must not
	@sh tests/attack.sh $(ARGS)

bench: ## times beside the same job in C and Rust, and stack; repetitions in ARGS; KEEP=1 adds to bench/history.tsv, BEFORE=ARCHIVE times that too (BEFORE_DEGREE=none: one whose calls take no degree; BEFORE_MASKS=shared: one from before own masks)
	@BEFORE="$(BEFORE)" BEFORE_DEGREE="$(BEFORE_DEGREE)" BEFORE_MASKS="$(BEFORE_MASKS)" sh bench/run.sh $(if $(KEEP),--keep) $(ARGS)

sums: ## times the leaf sums alone beside a plain walk in C; repetitions in ARGS; BEFORE=ARCHIVE times another libleaf_sums.a too
	@BEFORE="$(BEFORE)" sh bench/leaf_sums.sh $(ARGS)

server: ## the example server: 100,000 mixed calls by two threads, its answers held against the rendering's
	@sh tests/server.sh $(ARGS)

soak: ## the same with 1,000,000 calls
	@sh tests/server.sh --requests 1000000 $(ARGS)

secrets: ## no branch and no address of the built library depends on leaves or witness
	@sh tests/secrets.sh

fuzz: ## the six calls fuzzed against the rendering; seconds for each call in ARGS, else the gate's short run
	@sh tests/fuzz.sh $(ARGS)

vectors: ## the test vectors of vectors/, made again and run against the library
	@sh tests/vectors.sh

bindings: ## the Rust wrapper's tests
	@sh tests/bindings.sh

install uninstall: ## library, header, .pc file, manual pages, and mqcheck if built; PREFIX=/usr/local [DESTDIR=...]
	@PREFIX="$(PREFIX)" DESTDIR="$(DESTDIR)" MQCHECK="$(MQCHECK)" sh packaging/install.sh $@

clean: ## takes away target/ and crates/*/out/, and with them all that was proved and built
	@rm -rf target crates/*/out
