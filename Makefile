# `make` lists the targets. The toolchain, a POSIX shell, make and Python 3.10 or later are needed; gcc for the
# library and what calls it, g++, cargo and valgrind for the callers' tests, openpyxl
# (Debian's python3-openpyxl) for those of workbooks.
.DEFAULT_GOAL := help
.PHONY: help test quick check list report convert practice fuzz streams samples lib install dist web targets callers bench clean test-platforms FORCE

SAMPLE := samples/one_record.book
SETTING ?= 0
START ?= 1
N ?= 2000
SEED ?= 1
PREFIX ?= /usr/local
# Of the program that times: in each the functions stand in another order.
LINKS ?= 1 2 3 4 5
# The name by which programs ask for the shared library: it changes where an old caller would break.
SHARED := libxaropinto.so.2
# The function with the loops over cells and years: a link that starts it elsewhere than at a line of the cache makes
# Totals some 14 percent slower.
HOT := .text.group_projection::group_sums
# Paths reach the shell through the environment and as they were given: quotes and dollar signs stay what they are.
export BOOK_PATH := $(if $(value BOOK),$(value BOOK),$(SAMPLE))
export OUT_PATH := $(if $(value OUT),$(value OUT),target/converted.book)
export SETTING_WORD := $(value SETTING)
export START_WORD := $(value START)

# A word that is no target would be passed over, and the sample listed in its place.
STRAY := $(filter-out $(shell sed -n 's/^\([a-z-]*\):[^=].*/\1/p' Makefile) target/bin/%,$(MAKECMDGOALS))
$(if $(STRAY),$(error $(firstword $(STRAY)) is no target; a book is named by BOOK=path))
$(foreach word,book setting out start prefix destdir,$(if $(filter command line,$(origin $(word))),$(error $(word)= is not known: these words are in capitals)))

help: ## list the targets
	@sed -n 's/^\([a-z-]*\):[^#]*## /\1: /p' Makefile

test: ## prove everything by rt ci, try every must-fail edit and run the outside tests
	@exec python3 -m tests.gate

quick: ## for daily work: prove what has changed and run the outside tests; no must-fail edits
	@exec python3 -m tests.gate quick

check: target/bin/listing_main ## print the verdict on a book in words: make check BOOK=path
	@python3 -m tools.say_verdict "$$BOOK_PATH"

list: target/bin/listing_main ## write the listing of a book: make list BOOK=path
	@$(or $(if $(value BOOK),:),echo "no BOOK=path is given: this is the sample $(SAMPLE)" >&2)
	@target/bin/listing_main < "$$BOOK_PATH" > target/listing.text
	@cat target/listing.text && ! grep -q '^refused' target/listing.text

report: target/bin/year_report_main ## write the year report of a book in a setting: make report BOOK=path SETTING=0
	@target/bin/year_report_main "$$SETTING_WORD" < "$$BOOK_PATH"

convert: target/bin/age_basis_main ## turn a book of age basis 2 into basis 1: make convert BOOK=path OUT=path
	@target/bin/age_basis_main < "$$BOOK_PATH" > "$$OUT_PATH" && test -s "$$OUT_PATH" || { rm -f "$$OUT_PATH"; exit 1; }

practice: export OUT_PATH := $(if $(value OUT),$(value OUT),target/practice.book)
practice: lib ## write the practice book of a start number: make practice START=1 OUT=path
	@PYTHONPATH=python python3 -m xaropinto practice "$$START_WORD" -o "$$OUT_PATH"

fuzz: target/bin/test_check target/bin/listing_main lib ## compare programs and calls with the reference: make fuzz N=2000 SEED=1
	@python3 -m tests.gate fuzz --number $(N) --seed $(SEED)

streams: ## write the test programs' streams anew
	@python3 -m tools.streams

samples: lib ## write the sample books anew, with their listings, reports and pages
	@python3 -m tools.sample_books write
	@python3 -m tools.sample_pages write

# Both names of the shared library are files: rt refuses a tree with links.
lib: ## prove the C boundary and put its archive and shared library under target/lib
	@rm -rf target/lib.new && mkdir -p target/lib target/lib.new
	@python3 -m tools.prove lib c_api target/lib.new/build.log
	@cp target/staticlib/libc_api.a target/lib.new/libxaropinto.a
	@objcopy --set-section-alignment '$(HOT)=64' target/lib.new/libxaropinto.a
	@objdump -h target/lib.new/libxaropinto.a | grep -q '$(HOT) .*2\*\*6$$'
	@$(CC) -shared -Wl,-soname,$(SHARED) -o target/lib.new/$(SHARED) \
		-Wl,--whole-archive target/lib.new/libxaropinto.a -Wl,--no-whole-archive
	@cp target/lib.new/$(SHARED) target/lib.new/libxaropinto.so
	@cp target/lib.new/$(SHARED) target/lib.new/beside && mv -f target/lib.new/beside python/xaropinto/libxaropinto.so
	@mv -f target/lib.new/* target/lib/

install: lib target/bin/listing_main target/bin/year_report_main target/bin/age_basis_main ## install under PREFIX, by default /usr/local, below DESTDIR
	@python3 -m tools.dist install "$(DESTDIR)$(PREFIX)"

# With the page the proved code is built for all targets.
dist: web lib target/bin/listing_main target/bin/year_report_main target/bin/age_basis_main ## archives and wheels for machines without the toolchain, under target/dist
	@python3 -m tools.dist build target/dist

web: lib ## the web page, one file with the proved code inside: target/web/xaropinto.html
	@python3 -m tools.web_page

callers: ## run the tests of the callers in C, Rust and Python
	@python3 -m tests.gate callers

bench: lib ## time the calls beside Rust and Python: make bench OPTIONS=--instructions counts instructions too
	@mkdir -p target/bench
	@cd bindings/rust && for link in $(LINKS); do \
		BENCH_LINK=$$link cargo build --quiet --offline --locked --release --package bench && \
		cp ../../target/cargo/release/bench ../../target/bench/link_$$link || exit 1; done
	@target/bench/link_$(firstword $(LINKS)) $(OPTIONS) $(LINKS:%=target/bench/link_%)

targets: lib ## the proved code for WebAssembly, Windows and arm64, under target/targets
	@python3 -m tools.targets build

test-platforms: targets web ## what needs LibreOffice, wine or qemu: spreadsheets, Windows, arm64
	@python3 -m tests.platforms.test_spreadsheet
	@python3 -m tests.platforms.test_windows
	@python3 -m tests.platforms.test_arm64
	@python3 -m tests.platforms.test_packages

clean: ## remove all that was built and what checks kept here; rt ci keeps its own elsewhere
	@rm -rf target crates/*/out differing python/build python/xaropinto.egg-info python/xaropinto/libxaropinto.so
	@find . -name __pycache__ -not -path './.git/*' -prune -exec rm -rf {} +

# A program is proved before it is built; where nothing has changed since, that takes a moment.
target/bin/test_check target/bin/listing_main target/bin/year_report_main target/bin/age_basis_main: target/bin/%: FORCE
	@[ -f $@ ] || echo "proving and building $*: the first time takes some minutes" >&2
	@python3 -m tools.prove run $* target/run-$*.log
