# What is made of the whole tree: docs/SCRIPTS.md says when. (What follows 'wrong-bodies' are the names of crates.)
names := $(filter-out test prove wrong-bodies dist bench lib deb,$(MAKECMDGOALS))

.PHONY: test prove wrong-bodies dist bench lib deb
test:
	@tools/tests/run
prove:
	@tools/gate/prove $(MINUTES)
wrong-bodies:
	@tools/gate/wrong_bodies $(names)
dist:
	@tools/dist
bench: lib
	@tools/measure/bench
	@cc -O2 -Iinclude tools/measure/c_bench.c out/libvdcp.a -o out/c_bench && out/c_bench
lib:
	@tools/lib
deb:
	@tools/deb

ifneq ($(filter wrong-bodies,$(MAKECMDGOALS)),)
.PHONY: $(names)
$(names): ; @:
endif
