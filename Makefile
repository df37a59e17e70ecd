# make quick         does the demo's job by a build of which nothing is proved: out/zmeta-unproved, in about a minute
# make test          runs the gate: all proofs, must-fail edits and tests
# make               proves and builds zmeta, unless that was done with the present sources, and runs the demo:
#                    two catalogues on this machine, asked over TCP, and one list of what they answer
#
# make program       proves and builds zmeta, as make does
# make show          prints the records of an example message
# make interop       tries zmeta with other programs that speak Z39.50, if they are installed
# make hostile       sends zmeta what strangers may send: a million messages and a million replies
# make page-check    opens pages of zmeta in a browser, if Chromium is installed, and takes their pictures
# make wrong-bodies  tries all wrong bodies, in some hours: make test tries a few of them
#
# make install       puts the program, its man page and its completions below PREFIX, and DESTDIR before that
# make uninstall     takes them away again
# make dist          packs the program as a tarball, out/zmeta-VERSION-x86_64-linux.tar.gz
# make deb           packs it as a Debian package, out/zmeta_VERSION_amd64.deb
# make package-check tries both packages, in a fresh folder and in a fresh Debian 12

PREFIX ?= /usr/local
DESTDIR ?=

program = crates/zmeta/out/zmeta
version = $(shell sed -n 's/.*const VERSION: &str = "\(.*\)";/\1/p' crates/zmeta_args/src/forms.rt)
checks = $(shell scripts/machine.py)
bin = $(DESTDIR)$(PREFIX)/bin
man = $(DESTDIR)$(PREFIX)/share/man/man1
bash = $(DESTDIR)$(PREFIX)/share/bash-completion/completions
zsh = $(DESTDIR)$(PREFIX)/share/zsh/site-functions
fish = $(DESTDIR)$(PREFIX)/share/fish/vendor_completions.d

.PHONY: demo test quick program show interop hostile page-check wrong-bodies install uninstall dist deb package-check

demo: program
	scripts/demo

# Left to itself rt ci reserves more memory for each check, and lets processors idle; and more checks than processors keep the
# longest chain of them waiting.
test:
	RT_JOBS=$(checks) scripts/progress rt ci
	tests/mutants/check --gate
	python3 tests/program/check.py
	python3 tests/out-of-memory/check.py
	python3 tests/mutants/texts.py
	python3 tests/program/pages.py

quick:
	scripts/quick
	ZMETA=out/zmeta-unproved scripts/demo

# It does nothing if the program was proved and built of the present sources.
program:
	scripts/prove

show: program
	$(program) show < examples/present-response.hex

interop:
	tests/interop/check

hostile:
	tests/hostile/check.py

page-check:
	tests/pages/check

wrong-bodies:
	tests/mutants/check

# It builds nothing: make program does.
install:
	@test -x $(program) || { echo "install: no $(program); run 'make' first" >&2; exit 1; }
	install -d "$(bin)" "$(man)" "$(bash)" "$(zsh)" "$(fish)"
	install -m 755 $(program) "$(bin)/zmeta"
	install -m 644 install/zmeta.1 "$(man)/zmeta.1"
	install -m 644 install/zmeta.bash "$(bash)/zmeta"
	install -m 644 install/_zmeta "$(zsh)/_zmeta"
	install -m 644 install/zmeta.fish "$(fish)/zmeta.fish"

uninstall:
	rm -f "$(bin)/zmeta" "$(man)/zmeta.1" "$(bash)/zmeta" "$(zsh)/_zmeta" "$(fish)/zmeta.fish"

# Both refuse a program that was not proved and built of the committed sources.
dist deb:
	scripts/package $@ "$(version)"

package-check:
	tests/package/check
