# make test: the gate, every proof and every test. make demo: a key made, a file signed and checked.
# make soak: the programs beside the second one for longer than in the gate, with a new seed each time (SEED=.. runs one again).
test:
	bash .ci/run

demo:
	bash demo/run.sh

soak:
	bash demo/programs.sh make_key sign_file check_file
	$(MAKE) -C second second
	python3 tests/compare.py --first target/bin --second second/second --cases 2000 --damaged 10000 $(if $(SEED),--seed $(SEED))

.PHONY: test demo soak
