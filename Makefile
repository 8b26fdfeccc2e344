# The commands of the README, and what a checkout needs from day to day.
PREFIX ?= /usr/local
JOBS ?= $(shell nproc)
PROGRAM := crates/scimlink/out/scimlink
# what the program is built of
SOURCES := crates.txt HANDLES $(shell find crates -type f -not -path '*/out/*' \
	\( -path '*/src/*' -o -path '*/specs/*' -o -path '*/proofs/*' \))

.PHONY: try loop answer map simulate build install test mutants

# the main job on the example, by a program that isn't proved, in a few minutes
try:
	@python3 -B tools/try.py

# the main job on the example: joiners, a leaver and a group, carried by connector and provider over TCP
loop: build
	$(PROGRAM) loop --users examples/tuesday.csv --groups examples/groups.csv

# one POST of a user, answered on standard output
answer: build
	$(PROGRAM) answer < examples/create-user.http

# the images of a small personnel file; one of its records is rejected, so the status is 1
map: build
	$(PROGRAM) map examples/personnel.csv || test $$? = 1

# a leaver whose messages are late and repeated: what each event reports, and what is held in the end
simulate: build
	$(PROGRAM) simulate examples/late-leaver.schedule

build: $(PROGRAM)

# proves the crates side by side, then the program, and builds it; what is printed goes to out/build.log, and
# on to standard error if something fails
$(PROGRAM): $(SOURCES)
	@mkdir -p out
	@echo "proving what isn't proved yet, $(JOBS) crates at a time: out/build.log shows how far it is" >&2
	@{ rt all check --jobs $(JOBS) && cd crates/scimlink && rt run -- --version; } > out/build.log 2>&1 || \
		{ grep -vE ': proved$$|^statements ' out/build.log >&2; exit 1; }
	@touch $@

install: build
	install -D -m755 $(PROGRAM) $(PREFIX)/bin/scimlink

# CI
test:
	python3 -B tools/gate.py

# tries the mutants of every crate, or of CRATE, which the prover must reject
mutants:
	python3 -B tools/mutants.py $(CRATE)
