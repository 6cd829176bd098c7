# enogate: a gateway for EnOcean radio devices.
#
#   make demo        run the first script of examples/; if the program is not built, rt builds one
#                    without the proofs first, which is kept as target/demo/enogate-unproved
#   make building    run a virtual building with 50 devices and two gateways, until Ctrl-C, with the
#                    built program or that of `make demo`
#   make test        run the whole gate: all proofs, mutants, tests and programs, then the shell tests
#   make mutants     try all mutants of crates/NAME/mutants, and record which are refused
#   make build       verify and build the program
#   make package     create the Debian packages of the built program, of the page in Cockpit, and of the
#                    virtual building, in $(PACKAGES), which is this directory if it is not set
#   make package-arm64   create the package for 64-bit ARM there, from what `make build` verified; this
#                    downloads Debian's cross-compilation packages, and takes a few minutes
#   make install     install the built program and its files under $(DESTDIR)$(PREFIX); packaging/files
#                    lists them
#   make install-system   install the units and their system files there, and their settings in
#                    $(DESTDIR)/etc; existing settings are kept
#   make install-page   install the page in Cockpit there
#   make uninstall   remove the installed files from $(DESTDIR)$(PREFIX); settings and devices are kept
#   make clean       remove all generated files
#
# `demo`, `test`, `mutants` and `build` need the command `rt` of the Rattle toolchain on the PATH.

PREFIX ?= /usr/local
PACKAGES ?= .
PROGRAM = crates/enogate/out/enogate
ARM64 = target/arm64
SOURCES = crates.txt $(shell find crates -name out -prune -o -name '*.rt' -print -o -name '*.antt' -print)

.PHONY: demo building build test mutants package package-arm64 install install-system install-page \
    uninstall clean

demo:
	@scripts/demo $$($(MAKE) -s --no-print-directory --question $(PROGRAM) && echo $(PROGRAM))

building:
	@scripts/building $$($(MAKE) -s --no-print-directory --question $(PROGRAM) && echo $(PROGRAM))

build: $(PROGRAM)

$(PROGRAM): $(SOURCES)
	@$(if $(INSTALLS),echo 'the program is not built from these sources: run `make build` first' >&2; exit 1)
	cd crates/enogate && rt run -- replay --base FF800000 </dev/null
	@touch $(PROGRAM)

test:
	tests/gate

mutants: $(PROGRAM)
	tests/minutes scripts/mutants --record

# These never build $(PROGRAM): root may run them, and a package always contains the verified program.
package package-arm64 install: INSTALLS = yes
package: $(PROGRAM)
	@packaging/debian/build "$(PACKAGES)"

package-arm64: $(ARM64)/enogate
	@packaging/debian/build "$(PACKAGES)" $(ARM64)/enogate $(ARM64)/toolchain/bin

$(ARM64)/enogate: $(PROGRAM) $(addprefix packaging/arm64/,build cc rattle_c.c) $(ARM64)/toolchain
	@packaging/arm64/build $(ARM64)/toolchain $@

$(ARM64)/toolchain: $(addprefix packaging/arm64/,toolchain packages)
	@packaging/arm64/toolchain $@

install: $(PROGRAM)
	packaging/place put program "$(DESTDIR)" "$(PREFIX)"

install-system:
	packaging/place put system "$(DESTDIR)" "$(PREFIX)"

install-page:
	packaging/place put page "$(DESTDIR)" "$(PREFIX)"

uninstall:
	packaging/place away "$(DESTDIR)" "$(PREFIX)"

clean:
	rm -rf crates/*/out target */__pycache__ */*/__pycache__
	rm -f enogate_*.deb cockpit-enogate_*.deb enogate-demo_*.deb
