# What integrators link. `make lib` puts the static library of the delivered calls, its header and its Ada binding into dist/.
# `make programs` leaves the programs that print the listing, the review sheet, all short runs, the replay and the cause of a log's last report in target/bin,
# proved and built where they are not up to date.
# `make examples` does both, builds the programs of examples/c and examples/ada with the library, runs them and compares what they print, and holds the programs
# of target/bin to the listings, runs, boxes, replays and causes of the examples.
.PHONY: lib programs examples

lib:
	tools/library rolsipay
	mkdir -p dist
	cp target/staticlib/librolsipay.a include/rolsipay.h examples/ada/rolsipay.ads dist/

programs:
	tools/program tables sheet runs replay cause

examples: lib programs
	examples/run
