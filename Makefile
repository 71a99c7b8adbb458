# make rehearse SCRIPT=FILE         writes the report on a script
# make validate-limits LIMITS=FILE  says whether a configuration of limits is valid
# make build                        leaves psched at build/psched, proved: what CI built, where no source is newer
# make examples                     runs examples/ on build/psched
# make test                         CI: every proof and test, then the examples
# make edits                        tries the edits that must fail and that CI leaves out
# make gate-cost                    CI, and the processor seconds that each crate takes in it
# make bench                        times build/psched, the opening of journals, requests, steps of a host, kept hosts, and reports on stored results
.PHONY: rehearse validate-limits build examples test edits gate-cost bench

PROVED := crates/psched_cli/out/psched_cli
SOURCES := crates.txt $(shell find crates -type f \( -path '*/src/*' -o -path '*/specs/*' -o -path '*/proofs/*' \) -not -path '*_tests/*' -not -path '*/out/*')

rehearse:
	@bin/rehearse "$(SCRIPT)"

validate-limits:
	@bin/validate-limits "$(LIMITS)"

build: build/psched

build/psched: $(PROVED)
	mkdir -p build
	cp $(PROVED) build/psched

# Built by its first run, which tells its version.
$(PROVED): $(SOURCES)
	cd crates/psched_cli && rt run -- --version
	touch $(PROVED)

examples: build
	@bin/examples

test:
	.ci/run

edits:
	@bin/edits

gate-cost:
	@bin/gate-cost

bench: build
	python3 bench/run.py build/psched
	python3 bench/tasks.py build/psched
	python3 bench/limits.py build/psched
	-cd crates/host_journal_bench && rt run
	python3 bench/journal.py crates/host_journal_bench/out/host_journal_bench
	-cd crates/host_timeline_bench && rt run -- mixed 100 10
	python3 bench/timeline.py crates/host_timeline_bench/out/host_timeline_bench
	-cd crates/api_bench && rt run -- run 10
	python3 bench/interface.py crates/api_bench/out/api_bench
	python3 bench/host.py build/psched
	-cd crates/host_trials && rt run < /dev/null
	python3 bench/keep.py crates/host_trials/out/host_trials
	-cd crates/result_keeper_bench && rt run < /dev/null
	python3 bench/keeper.py crates/result_keeper_bench/out/result_keeper_bench
