# `make help` lists the targets. Variables: PREFIX (absolute, /usr/local by default), DESTDIR (a staging folder), SUFFIX
# (appended to each program, page and completion, so that coreboot's own stay untouched), OUT (where dist and deb write),
# SOURCE_DATE_EPOCH and MAINTAINER (for dist and deb).

PREFIX = /usr/local
DESTDIR =
SUFFIX =
OUT = out

BIN = $(PREFIX)/bin
MAN1 = $(PREFIX)/share/man/man1
MAN5 = $(PREFIX)/share/man/man5
BASH_FILES = $(PREFIX)/share/bash-completion/completions
ZSH_FILES = $(PREFIX)/share/zsh/site-functions
FISH_FILES = $(PREFIX)/share/fish/vendor_completions.d
DOC = $(PREFIX)/share/doc/cbfstool$(SUFFIX)
# (the folder of the documents as the pages name it)
DOC_SHOWN = $(DOC)
FOLDERS = $(BIN) $(MAN1) $(MAN5) $(BASH_FILES) $(ZSH_FILES) $(FISH_FILES) $(DOC)/docs $(DOC)/bench $(DOC)/examples $(DOC)
DOCUMENTS = addition.svg bench.svg growth.svg layers.svg overview.svg proved.svg region.svg cbfscheck.schema.json \
	CLAUSES.md DECISIONS.md DEVELOPING.md EXAMPLES.md FORMAT.md MISTAKES.md MOVING.md PROMISES.md VERIFICATION.md
# (the documents whose links lead to installed files)
LINKED = README.md CHANGELOG.md bench/RESULTS.md $(addprefix docs/,$(filter %.md,$(DOCUMENTS)))
EXAMPLES = add-aligned add-at-address add-at-end bad-digests cbfs-regions check-build component-digest component-place \
	copy-preserved edit-verified extract-all flash-checked flashrom-layout fmap-config replace-component sbom sign-region undo-nested-map
PROGRAMS = cbfstool fmaptool cbfscheck cbfsseal
FILES = $(foreach program,$(PROGRAMS),$(BIN)/$(program)$(SUFFIX) $(MAN1)/$(program)$(SUFFIX).1 \
	$(BASH_FILES)/$(program)$(SUFFIX) $(ZSH_FILES)/_$(program)$(SUFFIX) $(FISH_FILES)/$(program)$(SUFFIX).fish) \
	$(MAN5)/fmd$(SUFFIX).5 $(DOC)/README.md $(DOC)/CHANGELOG.md $(DOC)/LICENSE $(DOC)/bench/RESULTS.md \
	$(addprefix $(DOC)/docs/,$(DOCUMENTS)) $(addprefix $(DOC)/examples/,$(EXAMPLES))
CBFSTOOL = crates/cbfstool/out/cbfstool
FMAPTOOL = crates/fmaptool/out/fmaptool
CBFSCHECK = crates/cbfscheck/out/cbfscheck
CBFSSEAL = crates/cbfsseal/out/cbfsseal
INSTALL = install
INSTALL_DATA = $(INSTALL) -m 644
# (dist and deb strip the programs; `make install` installs them as they were built)
STRIP = :

# The pages name the version too. All files of an archive or a package have the time of the release, as CHANGELOG.md
# states it, so that the same sources and programs give the same bytes.
VERSION = $(shell cat VERSION)
SOURCE_DATE_EPOCH ?= $(shell LC_ALL=C date -u -d "$$(sed -n 's/^Released on \(.*\)\.$$/\1/p' CHANGELOG.md | head -n 1)" +%s)
MAINTAINER = $(shell cat dist/maintainer)
ARCHIVE = cbfstool$(SUFFIX)-$(VERSION)-$(shell uname -m)
# (the oldest C library that has all that the programs call)
LIBC = $(shell objdump -T $(CBFSTOOL) $(FMAPTOOL) $(CBFSCHECK) $(CBFSSEAL) | sed -n 's/.*GLIBC_\([0-9.]*\).*/\1/p' | sort -Vu | tail -n 1)

# A page with the names of the programs and pages as they are installed: in macros as they are, in examples with dashes that
# stay dashes. What the programs print begins with their plain names and a colon.
NAMES = \(cbfstool\|fmaptool\|cbfscheck\|cbfsseal\)\>\([^:]\|$$\)
NAMED = sed 's/cbfstool\|fmaptool\|cbfscheck\|cbfsseal/&$(SUFFIX)/g'
ESCAPED = $(subst -,\\-,$(SUFFIX))
CAPITALS = $(shell printf %s '$(SUFFIX)' | LC_ALL=C tr a-z A-Z)
PAGE = LC_ALL=C sed -e '/^\./s/$(NAMES)/\1$(SUFFIX)\2/g' -e '/^[^.]/s/$(NAMES)/\1$(ESCAPED)\2/g' \
	-e 's/\<\(Xr\|Nm\) fmd\>/&$(SUFFIX)/' -e 's/^\(\.Dt [A-Z]*\)/\1$(CAPITALS)/' \
	-e 's,^\.Pa \(docs\|examples\)\>,.Pa $(DOC_SHOWN)/\1,'

# Names with other characters break the commands below, so they are refused before anything is written.
quoted = '$(subst ','\'',$(1))'
refusal := $(shell dist/check-names $(call quoted,$(PREFIX)) $(call quoted,$(SUFFIX)))
ifneq ($(filter install uninstall put dist deb package,$(MAKECMDGOALS)),)
ifneq ($(refusal),)
$(error $(refusal))
endif
endif

all:
	@./prove $(PROGRAMS)
	@dist/show-sample $(CBFSTOOL)

cbfstool:
	@./prove cbfstool
	@dist/show-sample $(CBFSTOOL)

fmaptool cbfscheck cbfsseal:
	@./prove $@

help:
	@echo 'make, make all      proves and builds cbfstool, fmaptool, cbfscheck and cbfsseal, needs rt'
	@echo 'make cbfstool       proves and builds cbfstool alone (16 minutes the first time), and shows a sample; also fmaptool, cbfscheck, cbfsseal'
	@echo 'make test           the merge gate: proofs from nothing, must-fail edits, tests, programs (an hour or more), needs rt'
	@echo 'make check          the programs on real files (3 minutes once they are built), needs bash, python3, cc'
	@echo 'make install        programs, pages, completions and documents: PREFIX=/usr/local DESTDIR= SUFFIX='
	@echo 'make uninstall      removes what make install has put there, with the same variables'
	@echo 'make dist           an archive that runs wherever it is unpacked, in OUT=out'
	@echo 'make deb            a Debian package with the suffix -proved, in OUT=out'
	@echo 'make clean          removes what was built and proved: the next build starts from nothing'
	@echo 'SOURCE_DATE_EPOCH and MAINTAINER are the time of the files, and the maintainer, of an archive and a package.'

# A program that is older than its sources is built again, so that no page describes another program than the installed one.
.SECONDEXPANSION:
sources = $(shell ./prove --sources $(1))
define build
@[ ! -e "$@" ] || echo "$@ is older than $(firstword $?): building it" >&2
@[ "$@" = crates/$(1)/out/$(1) ] || { echo "$@ is not built here: build it, or leave the variable out" >&2; exit 1; }
@./prove $(1)
endef

$(CBFSTOOL): $$(call sources,cbfstool)
	$(call build,cbfstool)

$(FMAPTOOL): $$(call sources,fmaptool)
	$(call build,fmaptool)

$(CBFSCHECK): $$(call sources,cbfscheck)
	$(call build,cbfscheck)

$(CBFSSEAL): $$(call sources,cbfsseal)
	$(call build,cbfsseal)

# (without rt it tests the programs as they were built)
check:
	@if command -v rt > /dev/null; then checks/check; else checks/check --built; fi

clean:
	rm -rf out crates/*/out

test: ; @checks/gate

install: put
	@[ -n "$(SUFFIX)" ] || { \
		same=; \
		for program in $(PROGRAMS); do \
			found=$$(IFS=:; for folder in $$PATH; do \
				[ "$$folder" = "$(BIN)" ] || [ ! -x "$$folder/$$program" ] || { echo "$$folder/$$program"; break; }; done); \
			same="$$same$${found:+ $$found}"; \
		done; \
		[ -z "$$same" ] || echo "install: programs of the same names:$$same; PATH decides which ones run, and SUFFIX=-proved gives other names"; }

put: $(CBFSTOOL) $(FMAPTOOL) $(CBFSCHECK) $(CBFSSEAL)
	for folder in $(FOLDERS); do $(INSTALL) -d "$(DESTDIR)$$folder" || exit; done
	$(INSTALL) -m 755 $(CBFSTOOL) "$(DESTDIR)$(BIN)/cbfstool$(SUFFIX)"
	$(INSTALL) -m 755 $(FMAPTOOL) "$(DESTDIR)$(BIN)/fmaptool$(SUFFIX)"
	$(INSTALL) -m 755 $(CBFSCHECK) "$(DESTDIR)$(BIN)/cbfscheck$(SUFFIX)"
	$(INSTALL) -m 755 $(CBFSSEAL) "$(DESTDIR)$(BIN)/cbfsseal$(SUFFIX)"
	for program in $(PROGRAMS); do $(STRIP) "$(DESTDIR)$(BIN)/$$program$(SUFFIX)" || exit; done
	for program in $(PROGRAMS); do \
		$(PAGE) man/$$program.1 > "$(DESTDIR)$(MAN1)/$$program$(SUFFIX).1" || exit; done
	$(PAGE) man/fmd.5 > "$(DESTDIR)$(MAN5)/fmd$(SUFFIX).5"
	for program in $(PROGRAMS); do \
		name=$$program$(SUFFIX); \
		$(NAMED) completion/$$program.bash > "$(DESTDIR)$(BASH_FILES)/$$name" && \
		$(NAMED) completion/_$$program > "$(DESTDIR)$(ZSH_FILES)/_$$name" && \
		$(NAMED) completion/$$program.fish > "$(DESTDIR)$(FISH_FILES)/$$name.fish" || exit; done
	for example in $(EXAMPLES); do \
		$(NAMED) dist/examples/$$example > "$(DESTDIR)$(DOC)/examples/$$example" || exit; done
	$(INSTALL_DATA) LICENSE "$(DESTDIR)$(DOC)"
	$(INSTALL_DATA) $(addprefix docs/,$(filter-out %.md,$(DOCUMENTS))) "$(DESTDIR)$(DOC)/docs"
	for document in $(LINKED); do \
		dist/installed-document $$document > "$(DESTDIR)$(DOC)/$$document" || exit; done
	cd "$(DESTDIR)/" && chmod 644 $(patsubst /%,%,$(filter $(MAN1)/% $(MAN5)/% $(BASH_FILES)/% $(ZSH_FILES)/% $(FISH_FILES)/%,$(FILES)) \
		$(addprefix $(DOC)/,$(LINKED))) \
		&& chmod 755 $(patsubst /%,%,$(addprefix $(DOC)/examples/,$(EXAMPLES)))

# Folders that other programs use too stay, but the one of the documents, and empty ones of a staging folder, go.
uninstall:
	for file in $(FILES); do rm -f "$(DESTDIR)$$file" || exit; done
	if [ -n "$(DESTDIR)" ]; then cd "$(DESTDIR)" && for folder in $(FOLDERS); do \
		rmdir -p ".$$folder" 2> /dev/null; done; \
	else rmdir "$(DOC)/docs" "$(DOC)/bench" "$(DOC)/examples" "$(DOC)" 2> /dev/null; fi; :

# The archive and the package have a README of their own, with the names of the programs as they are there, and the sample
# that it uses.
OWN_README = LC_ALL=C sed -e 's/\<\(cbfstool\|fmaptool\|cbfscheck\|cbfsseal\|man fmd\)\>/&$(SUFFIX)/g'

# (the pages name the documents from the archive's own folder)
dist: $(CBFSTOOL) $(FMAPTOOL) $(CBFSCHECK) $(CBFSSEAL)
	rm -rf "$(OUT)/dist"
	mkdir -p "$(OUT)/dist"
	$(MAKE) put DESTDIR="$$(cd "$(OUT)/dist" && pwd)" PREFIX=/$(ARCHIVE) DOC_SHOWN=share/doc/cbfstool$(SUFFIX) STRIP='strip --remove-section=.comment'
	$(OWN_README) dist/README.md > "$(OUT)/dist/$(ARCHIVE)/README.md"
	$(INSTALL) -d "$(OUT)/dist/$(ARCHIVE)/samples"
	$(INSTALL_DATA) samples/board.fmd "$(OUT)/dist/$(ARCHIVE)/samples"
	LC_ALL=C tar -C "$(OUT)/dist" --format=ustar --sort=name --mtime=@$(SOURCE_DATE_EPOCH) --mode=u=rwX,go=rX \
		--owner=0 --group=0 --numeric-owner -cf "$(OUT)/dist/tar" $(ARCHIVE)
	gzip -9n < "$(OUT)/dist/tar" > "$(OUT)/$(ARCHIVE).tar.gz"
	rm -rf "$(OUT)/dist"
	@echo "$(OUT)/$(ARCHIVE).tar.gz"

deb: $(CBFSTOOL) $(FMAPTOOL) $(CBFSCHECK) $(CBFSSEAL)
	rm -rf "$(OUT)/deb"
	mkdir -p "$(OUT)/deb"
	$(MAKE) package SUFFIX="$(or $(SUFFIX),-proved)" PREFIX=/usr ZSH_FILES=/usr/share/zsh/vendor-completions STRIP='strip --remove-section=.comment' \
		DESTDIR="$$(cd "$(OUT)/deb" && pwd)"
	rm -rf "$(OUT)/deb"
	@echo "$(OUT)/cbfstool$(or $(SUFFIX),-proved)_$(VERSION)_$$(dpkg --print-architecture).deb"

package: put
	gzip -9n "$(DESTDIR)$(MAN1)"/*.1 "$(DESTDIR)$(MAN5)"/*.5
	mv "$(DESTDIR)$(DOC)/LICENSE" "$(DESTDIR)$(DOC)/copyright"
	rm "$(DESTDIR)$(DOC)/CHANGELOG.md"
	cd "$(DESTDIR)$(DOC)" && sed -E -i 's,\]\((\.\./)?CHANGELOG\.md\),](\1changelog.gz),g; s,\]\((\.\./)?LICENSE\),](\1copyright),g' \
		$(filter-out CHANGELOG.md,$(LINKED))
	dist/debian-changelog cbfstool$(SUFFIX) $(call quoted,$(MAINTAINER)) | gzip -9n > "$(DESTDIR)$(DOC)/changelog.gz"
	$(OWN_README) -e '/^This archive runs /d; /^\$$ PATH=/d; s/^Put its .*/In an empty folder:/; s/this archive/this package/' \
		-e 's,\<share/doc/,/usr/share/doc/,; s,\<samples/,$(DOC)/samples/,' dist/README.md > "$(DESTDIR)$(DOC)/README.Debian"
	$(INSTALL) -d "$(DESTDIR)$(DOC)/samples"
	$(INSTALL_DATA) samples/board.fmd "$(DESTDIR)$(DOC)/samples"
	$(INSTALL) -d "$(DESTDIR)/DEBIAN"
	printf '%s\n' "Package: cbfstool$(SUFFIX)" "Version: $(VERSION)" "Architecture: $$(dpkg --print-architecture)" \
		'Maintainer: $(subst ','\'',$(MAINTAINER))' "Installed-Size: $$(du -k -s --apparent-size "$(DESTDIR)/usr" | cut -f 1)" \
		"Section: utils" "Priority: optional" "Depends: libc6 (>= $(LIBC))" \
		"Description: proved cbfstool, fmaptool, cbfscheck and cbfsseal for coreboot" \
		" cbfstool$(SUFFIX) lists, reads and changes the regions of a flash image," \
		" fmaptool$(SUFFIX) compiles a flashmap descriptor, cbfscheck$(SUFFIX) checks" \
		" that the flash map and the file systems of an image are sound, and" \
		" cbfsseal$(SUFFIX) renews the digests in the bootblock of a board with" \
		" CBFS verification." \
		" ." \
		" Functions are proved to satisfy their contracts. The names differ from" \
		" those of coreboot-utils, so both packages can be installed." > "$(DESTDIR)/DEBIAN/control"
	cd "$(DESTDIR)" && find usr -type f -exec md5sum {} + | LC_ALL=C sort -k 2 > DEBIAN/md5sums
	chmod -R u=rwX,go=rX "$(DESTDIR)"
	find "$(DESTDIR)" -exec touch -h -d @$(SOURCE_DATE_EPOCH) {} +
	SOURCE_DATE_EPOCH=$(SOURCE_DATE_EPOCH) dpkg-deb --root-owner-group --build "$(DESTDIR)" \
		"$(OUT)/cbfstool$(SUFFIX)_$(VERSION)_$$(dpkg --print-architecture).deb"

.PHONY: all $(PROGRAMS) help test check clean install put uninstall dist deb package
