# make               proves and builds the programs: bin/zxtt, bin/zxtt-view and bin/zxtt-import
# make zxtt          proves and builds bin/zxtt alone; zxtt-view and zxtt-import likewise
# make try           builds zxtt without its proofs and asks an example which call ended what; tools/try takes other words
# make check         runs the worked cases and other quick trials on programs that are built without their proofs
# make test          runs all tests: the gate, which proves everything from nothing, and then the trials on what it built
# make install       builds the programs and installs them with their man pages, completions and examples below $(PREFIX), with
#                    $(DESTDIR) in front of it; PROGRAM=PATH installs that zxtt and the programs beside it, and builds nothing
# make uninstall     removes what make install put there
# make run           builds bin/zxtt and runs it on standard input
#
# For work on zxtt itself; docs/PROVING.md says more of each:
#
# make edits         tries the edits of crates/NAME/edits, each of which the prover has to refuse
# make try-program   runs the trials on the programs of bin/
# make cases, make statuses, make tutorial, make installed, make front-door    run one of these trials
# make look          asks twenty random traces each question of `zxtt look`, and compares the answers with a slow way's
# make import-test   tries bin/zxtt-import on examples, on random, changed and hostile logs, and on one of 100,000 lines
# make view-test     tries the page of bin/zxtt-view in headless Chromium, which it installs; PICTURES=1 takes docs/view anew
# make wrong-bodies  puts bodies that no contract refuses into a copy, and says whether a trial tells each
# make soak          has clients of serve and browsers of zxtt-view ask for MINUTES=60 as fast as they are answered
# make refusals      fails each memory request in turn, in the tests that have to pass whichever fails
# make times         prints what each crate costs the gate, in processor seconds
# make bench         measures how the cost of a call grows with the calls before it
PREFIX ?= /usr/local
PROGRAM =
MINUTES = 60
# The programs to build, the one whose crates are proved first at the front.
PROGRAMS = zxtt zxtt-view zxtt-import

.PHONY: all kit $(PROGRAMS) try check test install uninstall run edits try-program cases statuses tutorial installed front-door \
	look import-test view-test soak wrong-bodies refusals times bench

all: kit
	@tools/build $(PROGRAMS)

# Every target that proves or builds stands on this one.
kit:
	@tools/kit.py

$(PROGRAMS): kit
	@tools/build $@

try: kit
	@tools/try look examples/job-dies.trace events ended

check: kit
	@tools/test --unproved

test: kit
	@tools/test

install: $(if $(PROGRAM),,all)
	tools/install "$(DESTDIR)$(PREFIX)" "$(or $(PROGRAM),bin/zxtt)"

uninstall:
	tools/install --away "$(DESTDIR)$(PREFIX)"

run: zxtt
	bin/zxtt

edits: kit
	tools/edits

try-program:
	tools/test --program bin/zxtt

cases: zxtt
	tools/cases

statuses: zxtt
	tools/statuses

tutorial: all
	tools/tutorial

installed: all
	tools/installed

front-door: kit
	tools/front-door

look: zxtt
	tools/look --whole

import-test: zxtt zxtt-import
	tools/import-trials
	tools/import-trials --large

view-test: all
	tools/view-browser $(if $(PICTURES),--pictures)

soak: all
	tools/soak --minutes $(MINUTES)

wrong-bodies: kit
	tools/wrong-bodies

refusals: kit
	tools/refuse-each-request

times: kit
	tools/times

bench: kit
	tools/bench
