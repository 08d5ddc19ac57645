# make demo          proves, builds and runs document 01's demonstration: three lines, the archive after each version
# make station       proves and builds the command for the watchroom, which bin/station runs
# make station-test  runs every order of the command on document 01's record, wrong words too
# make library       proves and builds the static library for the firmware, crates/firmware/out/libfirmware.a
# make edits         tries the wrong programs of tests/edits, besides those of the gate
# make test          the gate: everything proved, must-fail edits, programs; then the tests over the library and of the command
.PHONY: demo station station-test library edits test

# (rt run builds a proved program as out/NAME and runs it, here without its files, so what that run says and its status count for nothing)
demo:
	rm -f crates/demo/out/demo
	cd crates/demo && rt check
	cd crates/demo && rt run >/dev/null 2>&1 || true
	cd crates/demo/data && ../out/demo

station:
	rm -f crates/station/out/station
	cd crates/station && rt check
	cd crates/station && rt run -- check data/keys

station-test: station
	tests/station/run

library:
	cd crates/firmware && rt lib

edits:
	tests/edits/run

test:
	.ci/run
