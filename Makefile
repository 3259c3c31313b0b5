# The proved program, its gate, its cost. `rt`, the toolchain's command, is on the PATH.
PREFIX = /usr/local
# (the folder of zsh's completions: Debian has one of its own for what has PREFIX=/usr)
ZSH = $(if $(and $(filter /usr,$(PREFIX)),$(wildcard /etc/debian_version)),vendor-completions,site-functions)

bin/collectd: crates.txt HANDLES $(shell find crates \( -name out -o -name must-fail \) -prune -o -type f -print)
	@build/program

# README's first example, run without any proof.
try: ; @cd crates/collectd_cli && rt try -- dump < ../../examples/one-flow.ipfix

# One crate, and those below it: make check CRATE=network_prefixes
check: ; @cd crates/$(CRATE) && rt check

.PHONY: try check test edits bench compare interop refusals hostile soak scale service install dist deb packages slim clean
test: ; @tests/gate/run

edits: ; @tests/more/try_edits

bench: bin/collectd ; @for run in bench/*/run; do $$run || exit 1; done

interop: bin/collectd ; @tests/interoperability/run && tests/interoperability/datagrams

refusals: bin/collectd ; @tests/gate/refusals

compare: bin/collectd ; @tests/more/compare && tests/more/stress && tests/more/examples

hostile: bin/collectd ; @tests/more/peers && tests/more/datagrams

soak: bin/collectd ; @tests/more/soak && tests/more/soak_recordings

scale: bin/collectd ; @tests/more/scale

service: bin/collectd ; @tests/more/service

install: bin/collectd
	install -D bin/collectd $(DESTDIR)$(PREFIX)/bin/collectd
	cd share && find . -type f ! -path './zsh/*' -exec install -D -m 644 {} $(abspath $(DESTDIR)$(PREFIX))/share/{} ';'
	install -D -m 644 -t $(DESTDIR)$(PREFIX)/share/zsh/$(ZSH) share/zsh/site-functions/_collectd
	install -D -t $(DESTDIR)$(PREFIX)/lib/collectd examples/collect_rounds
	install -D -t $(DESTDIR)$(PREFIX)/lib/collectd/scale scale/merge scale/shard scale/slurm

dist: bin/collectd ; @packaging/dist

deb: bin/collectd ; @packaging/deb

packages: dist deb ; @tests/more/packages

# What the proofs kept goes (it is nearly all of a built tree), and the program stays.
slim: bin/collectd ; rm -rf bin/proved bin/copy crates/*/out

clean: ; rm -rf bin dist tests/out crates/*/out
