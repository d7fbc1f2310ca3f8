# `serve`, `trace` and `icapd` run the programs that `make build` proved. Where these are missing or older than their sources,
# they run programs that are compiled in about a minute, with checks at run time in place of proofs.
# SCRIPT names a file of examples/, without its ending.
SCRIPT ?= whole_body_without_allow
PREFIX ?= /usr/local

.PHONY: help build serve stop install try-serve bench-serve trace check ci gate-cost must-fail wrong-bodies fmt bench-chunks bench-heads bench-bank refuse-allocations icapd bench-icapd

help: ## lists the targets
	@grep -E '^[a-z-]+:.*##' Makefile | sed 's/:.*## /	/'

build: ## proves and builds the programs, the proxy by what it counts of itself, and leaves them under bin/: half an hour on four processors; UNTUNED=1 without the counting
	@tools/check_kit write
	@tools/prove_programs adaptproxy icapd

serve: ## starts icapd and adaptproxy with the examples' configurations, until `make stop`
	@programs=$$(tools/have_programs adaptproxy icapd) && exec tools/serve_examples $$programs

stop: ## stops what `make serve` started
	@$$(ls -t bin/adaptproxy bin/adaptproxy.checked 2>/dev/null | head -n 1) tell stop < examples/proxy.toml

install: build ## puts the programs, man pages, completions, examples, units and the launcher below PREFIX (default /usr/local)
	@tools/install_programs "$(PREFIX)"

.PHONY: deb try-deb try-scale
deb: build ## builds a Debian package of the programs, below out/
	@tools/make_deb

try-deb: deb ## installs the package into a clean folder, or into that of a Debian system (SYSTEM=..), removes and purges it; needs root
	@tools/try_deb "$$(ls -t out/adaptproxy_*.deb | head -n 1)" $(SYSTEM)

try-scale: build ## three proxies behind HAProxy and two services behind it: each is renewed under load, where haproxy is installed
	@tools/try_scale

try-serve: build ## tries `adaptproxy serve` over loopback: with users, origins and services that misbehave
	@tools/try_serve

bench-serve: build ## the table of speed beside Squid, c-icap, nginx and the floor, in thirteen minutes, where squid, wrk, nginx, c-icap, strace and gcc are installed
	@tools/prove_programs layer_bench
	@tools/bench_serve

icapd: ## answers examples/blocked.icap by the ICAP server
	@program=$$(tools/have_programs icapd) && exec $$program once < examples/blocked.icap

bench-icapd: ## the ICAP server: requests/s of `icapd once` on 10,000 piped requests
	@tools/prove_programs icapd
	@tools/bench_icapd

trace: ## runs examples/$(SCRIPT).trace, and prints its answers
	@program=$$(tools/have_programs adaptproxy) && exec $$program trace < examples/$(SCRIPT).trace

check: ## proves every crate, over what earlier runs kept
	rt all check

ci: ## the merge gate: every proof, the must-fail edits, the tests, the programs; first the layout, what the pages cite, and the kit
	@tools/check_layout
	@tools/check_citations
	@tools/check_kit
	@! command -v patch > /dev/null || patch --dry-run --fuzz=0 --silent --strip 1 < tools/undriven.patch
	tools/gate

gate-cost: ## the gate's minutes of processor time by crate, as last measured; ANEW=1 runs the whole gate from nothing, and measures it
	@tools/gate_cost $(if $(ANEW),run --anew)

must-fail: ## tries the must-fail edits alone
	rt must-fail

wrong-bodies: ## tries the wrong bodies that the gate doesn't; CRATE=NAME those of one crate
	@tools/wrong_bodies $(CRATE)

fmt: ## lays out the files of the crate CRATE
	@test -n "$(CRATE)" || { echo "make fmt CRATE=NAME lays out crates/NAME"; exit 2; }
	@cd crates/$(CRATE) && rt fmt

bench-chunks: ## chunked bodies: seconds and MB/s for 1 GiB
	@tools/prove_programs layer_bench
	@bin/layer_bench chunks 1024

bench-heads: ## heads: nanoseconds to read an HTTP request and write two, and to read ICAP responses, beside the parser alone
	@tools/prove_programs layer_bench
	@bin/layer_bench heads 200000

bench-bank: ## the buffer budget: nanoseconds for a pair of calls, for turns of 4,096 bytes on tapes, and four threads' rounds
	@tools/prove_programs layer_bench
	@bin/layer_bench bank 1000000

refuse-allocations: ## refuses each allocation in turn, and compares how each run ends
	tools/refuse_allocations && tools/refuse_allocations_in_rows
