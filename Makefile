# On a machine that has the Rattle toolchain (`rt`), python3 and make:
#   make feed    runs the example script with the proved program if it is built, otherwise unproved, and says which
#   make serve   runs the proxy on examples/serve.json, proved or unproved likewise; the unproved program of a commit is built once, below build/
#   make fresh   runs make feed and make serve in a clean clone of these sources, as the gate does (minutes; nothing needs to be built)
#   make group   runs the built program as three proxies that ask one another; if it is not built, it says what to do
#   make build   proves and builds the program and all crates below it
#   make install PREFIX=/usr/local DESTDIR=   installs the built program with its unit, manual and examples
#   make deb     makes a Debian package of the built program, build/wabretos_VERSION_ARCHITECTURE.deb
#   make package tests both, and what the unit runs (needs dpkg, systemd-analyze, curl and jq; says what it leaves out without)
#   make systemd starts, reloads, stops and restarts the installed package under a real systemd in a container (needs root and systemd-nspawn)
#   make page    looks at the administration's page in a Chromium, with pictures in build/page/ (says so where there is none)
#   make test    proves every crate from nothing, tries the must-fail edits, runs all tests, script cases, configurations and documents
#   make format  lays out the files of all crates as rt fmt does; the gate refuses a crate with a file that is laid out otherwise
#   make fuzz    gives the proxy 100,000 mutated requests and answers to pass on (some 5 minutes); `make test` does 3,000
#   make limits  runs 100 streams of 1 GiB, silent streams and tunnels, and streams beside nginx (10 minutes and more; needs nginx)
#   make edits   tries every must-fail edit, in rounds, over what make build has built (some 25 minutes); tools/edits NAME those of a crate; and every wrong table (tools/wrong_tables)
#   make slow    tests the proxy with clients and origins that are silent for a minute (80 s)
#   make interop tests the proxy beside a real squid (needs squid and curl)
#   make clients runs curl, wget, git, pip, apt and a Chromium through it, and says what each fetched of the origin, beside squid (needs nginx and openssl)
#   make attacks tests the proxy against clients, origins, neighbours and strangers that mean harm (100 s)
#   make steady  runs each file of tests over the program 20 times beside a busy loop for each processor, and tells what failed how often (hours);
#                with TIMES=3 fewer, with TESTS="serve_six serve:the_most_connections" only these, with THREADS=1,4 so many threads for clients in turn
#   make open    tries the attacks that still succeed; docs/SECURITY.md has them under what does not hold
#   make load    runs a mixed load for 15 minutes, for eleven of them with a hostile mix beside it (needs curl, a C compiler and unshare)
#   make large   runs 100,000 answers of 1 MiB (5 to 20 minutes; needs a C compiler)
#   make bench   measures the proved program, at most 15 minutes, into bench/RESULTS.md (needs a C compiler; wrk, nginx, squid, varnish, valgrind and libpcap-dev are used if they are installed)
#   make sweep   makes each allocation of each script case, and of the stories of `test_refusals`, fail once; `make test` does a part
#   make storm   gives 100,000,000 random events to two nodes, which must do the same; `make test` does 300,000

PROGRAM = crates/cache_main/out/cache_main
SCRIPT ?= examples/first_path.script

CONFIG ?= examples/serve.json

PREFIX ?= /usr/local
DESTDIR ?=

.PHONY: serve group feed fresh build install deb package systemd page test format cases documents loopback attacks open steady hostile slow interop clients load large fuzz limits early kept descriptors addresses rules six edits bench sweep storm

feed:
	@tools/feed $(SCRIPT)

serve:
	@tools/serve $(CONFIG)

fresh:
	@tests/first_runs

group:
	@demo/group $(PROGRAM)

build:
	@tools/build

install:
	@tools/install --prefix "$(PREFIX)" --destdir "$(DESTDIR)" $(PROGRAM)

deb:
	@tools/deb $(PROGRAM)

package:
	@tests/package $(PROGRAM)

.PHONY: systemd
systemd:
	@tests/systemd $(PROGRAM)

page:
	@tools/page --check
	@tests/page $(if $(wildcard $(PROGRAM)),--program $(PROGRAM))

test:
	@tools/gate

# The script cases, the configurations and the examples in the documents, with the program as it was last built; and the list of trusted
# definitions in PROMISES.
cases:
	@tests/cases $(PROGRAM) cases
	@tests/configurations $(PROGRAM)

documents:
	@tools/documents $(PROGRAM)
	@tools/documents --names
	@tools/believe --check

# The proxy over loopback.
loopback:
	@tests/serve $(PROGRAM)

slow:
	@tests/serve_slow $(PROGRAM)

interop:
	@tests/interop $(PROGRAM)

# The clients of a site through the proxy, and through squid.
clients:
	@tests/clients $(PROGRAM)

attacks:
	@tests/serve_attacks $(PROGRAM)

open:
	@tests/open_attacks $(PROGRAM)

# What of the tests over the program doesn't always pass.
steady:
	@tools/steady $(PROGRAM) $(if $(TIMES),--times $(TIMES)) $(if $(THREADS),--threads $(THREADS)) $(TESTS)

load:
	@tests/load $(PROGRAM)

# What is passed on: mutated messages, and limits of streams and tunnels.
fuzz:
	@tests/passage_fuzz $(PROGRAM)

limits:
	@tests/passage_limits $(PROGRAM)

# What a client has while it is collected for the store.
early:
	@tests/serve_early $(PROGRAM)

# Which connections to servers are kept.
kept:
	@tests/serve_kept $(PROGRAM)

# At which of a name's addresses a server is reached.
addresses:
	@tests/serve_addresses $(PROGRAM)

# What there is where the program may open few files.
descriptors:
	@tests/serve_descriptors $(PROGRAM)

# What the rules of HTTP make of requests and answers, by rows.
rules:
	@tests/serve_rules $(PROGRAM)

# Servers with an address of IPv6.
six:
	@tests/serve_six $(PROGRAM)

large:
	@tests/large_answers $(PROGRAM)

# The proxy over loopback while allocations or descriptors fail.
hostile:
	@tests/serve_hostile $(PROGRAM)

sweep:
	@tests/sweep $(PROGRAM) cases --stories crates/test_refusals/out/test_refusals

storm:
	@tests/storm crates/test_storm/out/test_storm 100000000

format:
	@for crate in crates/*/; do (cd $$crate && rt fmt) || exit 1; done

edits:
	@tools/edits
	@tools/wrong_tables

bench: build
	@bench/all $(PROGRAM)
