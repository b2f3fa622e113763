# What a maintainer runs. `make help` lists it.

DRIVER := target/bin/trials
PROGRAM := target/bin/plan_judge
REPORTER := target/bin/counter_report
SEARCHER := target/bin/closest_state
SHEET := target/made.sheet
NEW := target/branched.sheet
STORED := target/stored
DIFFERENTIAL := cd tests/differential && cargo run --release --offline --quiet --

.PHONY: gate check examples reports sheet branch shortest audit allowance closest ways trials store \
	runs lines tables long texts deep count differential memory benchmark help

gate: ## prove all from nothing, try the must-fail edits, run the programs (rt ci)
	.ci/run

check: ## prove what changed since the last check, and run the programs that did
	rt all check

examples: ## judge the sheets of examples/ and others, make some anew, and compare
	tools/build plan_judge trials
	python3 tests/sheets.py check examples $(PROGRAM)
	python3 tests/sheets.py texts examples $(DRIVER)
	python3 tests/sheets.py branches examples $(DRIVER)
	python3 tests/sheets.py recordings examples $(DRIVER)
	python3 tests/sheets.py tables examples $(DRIVER)
	python3 tests/sheets.py benches examples $(DRIVER)
	python3 tests/sheets.py closest examples $(DRIVER)

reports: ## print reports on about a thousand inputs, and compare with what is right
	tools/build counter_report
	python3 tests/counter_report.py examples $(REPORTER)

sheet: ## write SHEET from the .aut file AUT and typed bodies, ACTIONS='..' RULE='..'
	tools/build trials
	python3 tests/aut_sheet.py '$(AUT)' '$(ACTIONS)' '$(RULE)' '$(SHEET)'

branch: ## write NEW, the sheet OLD with one more transition, FROM=0 ACTION=2 TO=2
	tools/build trials
	python3 tests/branch_sheet.py '$(OLD)' '$(FROM)' '$(ACTION)' '$(TO)' '$(NEW)'

shortest: ## say on which beginning of two recordings SHEET's rule fails first, FIRST=.. SECOND=..
	tools/build trials
	python3 tests/shortest_run.py '$(SHEET)' '$(FIRST)' '$(SECOND)'

audit: ## say whether the filled table TABLE is right for SHEET, and if not, why
	tools/build trials
	python3 tests/audit_table.py '$(SHEET)' '$(TABLE)'

allowance: ## deal VISITS=40 to benches on SHEET, STATES='0 2 1' (TABLES=.., LEFT=..: files)
	tools/build trials
	python3 tests/allowance_benches.py '$(SHEET)' '$(STATES)' '$(VISITS)' '$(TABLES)' '$(LEFT)'

closest: ## say at which state SHEET's rule fails, the closest to state 0 (TABLE=..: a filled table)
	tools/build trials
	python3 tests/closest_state.py '$(SHEET)' '$(TABLE)'

ways: ## print the closest states of 2,000 sheets and ways to them, and compare
	tools/build closest_state
	python3 tests/closest_program.py examples $(SEARCHER)

trials: ## say whether the stored trials are what tests/cases.py makes
	mkdir -p $(STORED)
	python3 tests/cases.py store $(STORED)
	cmp $(STORED)/stdin crates/trials/stdin
	cmp $(STORED)/stdout crates/trials/stdout
	@echo 'the stored files are what the cases make'

store: ## write the stored trials anew
	python3 tests/cases.py store crates/trials

runs: ## compare what 20,000 patterns become with what they say of runs
	python3 tests/cases.py runs 20000

lines: ## compare what 20,000 lines become with what they say of actions
	python3 tests/cases.py lines 20000

tables: ## compare what is said of 20,000 filled tables with the solutions of their rows
	python3 tests/cases.py tables 20000

long: ## read lines of a million words and parentheses on a small stack
	rt check action_line
	python3 tests/long_lines.py

texts: ## turn .aut texts of a million bytes into plans on a small stack
	rt check aut
	python3 tests/long_texts.py

deep: ## search runs, grant a bench and find closest states for the deepest rules on a small stack
	tools/build trials
	python3 tests/deep_runs.py

count: ## read the counts that some thousands of tables store, and compare with what is right
	rt check judge
	python3 tests/stored_count.py

differential: ## compare the trial driver with a program in Rust on 40,000 requests
	tools/build trials
	$(DIFFERENTIAL) vectors ../vectors
	$(DIFFERENTIAL) selfcheck
	$(DIFFERENTIAL) compare ../../$(DRIVER) --count 40000

memory: ## look for a table behind child_count, and count read-only data (BEFORE=REVISION: and before)
	rt all check
	python3 tests/read_only.py function
	python3 tests/read_only.py sizes $(BEFORE)

benchmark: ## measure it against the Rust program and write docs/BENCHMARK.md
	tools/build trials
	$(DIFFERENTIAL) bench ../../$(DRIVER)

help: ## this list
	@awk -F ':.*## ' '/^[a-z]+:.*##/ { printf "make %-13s %s\n", $$1, $$2 }' Makefile
