# make demo: prove and build bagdump, and print what it reads from a sample page.
# make test: the gate. It proves every crate, tries the edits that must fail, and runs programs and tests.
SAMPLE := samples/satchel.page
BAGDUMP := crates/bagdump/out/bagdump

.PHONY: demo test

demo:
	@mkdir -p target
	@echo "proving and building bagdump (some minutes where nothing was proved before) ..."
	@(cd crates/bagdump && rt run) > target/demo.log 2>&1 || { cat target/demo.log; exit 1; }
	@echo "bagdump < $(SAMPLE)"
	@$(BAGDUMP) < $(SAMPLE)

test:
	@.ci/run
