# `make run`   proves and builds the report, and runs it on the samples that ship with it.
# `make test`  runs the whole gate.
# Both need nothing but Rattle's `rt` on the PATH.

DATA := crates/report/data
DUMP := python3 tools/dump.py

.PHONY: run test samples

run:
	@cd crates/report && rt run -- data/stars >/dev/null
	@cd $(DATA) && ../out/report $$(cat ../args)

test:
	@./.ci/run

# Makes the sample dumps again from their JSON texts (needs Python 3).
samples:
	$(DUMP) tape tools/samples/frame.json $(DATA)/frame
	$(DUMP) tape --whole tools/samples/letters.json $(DATA)/letters
	$(DUMP) tape --set 37=10 tools/samples/frame.json $(DATA)/torn
	$(DUMP) schema tools/samples/stars.json $(DATA)/stars
	$(DUMP) schema --set 4=9 tools/samples/stars.json $(DATA)/bent
