# Tries, builds and installs pclcheck, and packs what is installed; `make help` says what there is.
# Needs GNU make; `make try`, `make check` and `make build` the Rattle toolchain and Python 3.11,
# `make lib` cc and binutils, `make web` binaryen, `make dist` git, and `make deb` dpkg-dev, too.

PREFIX = /usr/local
DESTDIR =
PROGRAM = crates/pclcheck/out/pclcheck
# What `make try` checks: a job, and the profile of a printer, a file or a sample as @B.
JOB = examples/letter.pcl
PROFILE = @B
# The parts, or the rows, that `make check` runs alone.
ONLY =
# What is proved of the library, the piece of the toolchain's that asks C for memory, and what is
# made of both.
PROVED = crates/pclcheck_c/out/libpclcheck_c.a
MEMORY = crates/pclcheck_c/out/liblibc_c.a
BUILT = crates/pclcheck_c/out/built
# The module for a page in a browser, and the page with it.
WEB = web/out
SHARE = $(PREFIX)/share
DOCUMENTS = $(SHARE)/doc/pclcheck
LIBRARIES = $(PREFIX)/lib
# Which packages are installed; `make deb` asks for one after another.
PACKAGES = pclcheck libpclcheck0 libpclcheck-dev
# Where zsh looks for completions: those of Debian's packages have a folder of their own.
ZSH = $(SHARE)/zsh/site-functions

# All that is installed, each file once: the package that has it, its mode, where it is here, and
# its folder there.
define INSTALLED
pclcheck 755 $(PROGRAM) $(PREFIX)/bin
pclcheck 644 man/pclcheck.1 $(SHARE)/man/man1
pclcheck 644 man/pclcheck-profile.5 $(SHARE)/man/man5
pclcheck 644 completions/bash/pclcheck $(SHARE)/bash-completion/completions
pclcheck 644 completions/zsh/_pclcheck $(ZSH)
pclcheck 644 completions/fish/pclcheck.fish $(SHARE)/fish/vendor_completions.d
pclcheck 644 profiles/*.profile $(SHARE)/pclcheck/profiles
pclcheck 644 examples/* $(DOCUMENTS)/examples
pclcheck 644 README.md CHANGELOG.md CONTRIBUTING.md $(DOCUMENTS)
pclcheck 644 docs/*.md $(DOCUMENTS)/docs
pclcheck 644 docs/pictures/* $(DOCUMENTS)/docs/pictures
pclcheck 644 bench/RESULTS.md $(DOCUMENTS)/bench
pclcheck 644 contrib/README.md $(DOCUMENTS)/contrib
pclcheck 644 contrib/cups/README.md contrib/cups/pclgate $(DOCUMENTS)/contrib/cups
pclcheck 644 contrib/hotfolder/README.md contrib/hotfolder/hotfolder.py $(DOCUMENTS)/contrib/hotfolder
pclcheck 644 contrib/parallel/README.md contrib/parallel/check_everywhere $(DOCUMENTS)/contrib/parallel
pclcheck 644 contrib/c/check.c contrib/c/gate.c contrib/c/gate.h $(DOCUMENTS)/contrib/c
pclcheck 644 contrib/cups/pclfilter.c contrib/cups/pclfilter.ppd $(DOCUMENTS)/contrib/cups
pclcheck 644 contrib/pappl/README.md contrib/pappl/pclprinter.c $(DOCUMENTS)/contrib/pappl
pclcheck 644 contrib/python/README.md contrib/python/pclcheck.py $(DOCUMENTS)/contrib/python
libpclcheck0 644 $(BUILT)/libpclcheck.so.0 $(LIBRARIES)
libpclcheck-dev link $(BUILT)/libpclcheck.so $(LIBRARIES)
libpclcheck-dev 644 $(BUILT)/libpclcheck.a $(LIBRARIES)
libpclcheck-dev 644 $(BUILT)/pclcheck.pc $(LIBRARIES)/pkgconfig
libpclcheck-dev 644 include/pclcheck.h $(PREFIX)/include
libpclcheck-dev 644 man/pclcheck.3 $(SHARE)/man/man3
libpclcheck-dev 644 contrib/c/check.c $(SHARE)/doc/libpclcheck-dev/examples
endef
export INSTALLED DESTDIR

# Runs $(1) for each file of the rows of $(PACKAGES), with its $$mode, its $$file and the $$place
# that it gets.
each = set -eu; printf '%s\n' "$$INSTALLED" | while read -r package mode files; do \
	case ' $(PACKAGES) ' in *" $$package "*) ;; *) continue;; esac; \
	for file in $${files% *}; do place="$$DESTDIR$${files\#\#* }/$${file\#\#*/}"; $(1); done; done
# A link stays a link.
put = if [ "$$mode" = link ]; then mkdir -p "$${place%/*}"; ln -sf "$$(readlink "$$file")" "$$place"; \
	else install -D -m "$$mode" "$$file" "$$place"; fi

# These are asked only where they are used. The bytes of a pack are those of a commit, by its time.
OBJCOPY = objcopy
VERSION = $(shell $(PROGRAM) --version | cut -d ' ' -f 2)
TIME = $(shell git log -1 --format=%ct)
NAME = pclcheck-$(VERSION)
ROOT = dist/deb

TRIPLET = $(shell dpkg-architecture -q DEB_HOST_MULTIARCH)

.PHONY: help try check build lib web pc install uninstall dist deb program committed clean

help:
	@echo 'make try        checks one job by a program without proofs: JOB=FILE PROFILE=FILE, or'
	@echo '                else $(JOB) and $(PROFILE); the first look, in some minutes'
	@echo 'make check      runs tests and rows by a program without proofs, in some minutes; with'
	@echo '                ONLY=PART, ONLY=FILE or ONLY=FILE:LINE a part, or rows, of them'
	@echo 'make build      proves and builds the program and the library, a line for each crate'
	@echo 'make lib        links libpclcheck.a and libpclcheck.so.0 from the built library'
	@echo 'make web        builds the module for a page, and packs the page, in $(WEB)/'
	@echo 'make install    puts the program and the library, their manual pages, completions,'
	@echo '                profiles, examples and documents under PREFIX ($(PREFIX)), or'
	@echo '                DESTDIR/PREFIX; with PACKAGES=pclcheck the program without the library'
	@echo 'make uninstall  removes these files, and the folders of pclcheck that are then empty'
	@echo 'make dist       packs them as dist/pclcheck-VERSION.tar.gz, with their checksums'
	@echo 'make deb        packs them as packages for Debian, in dist/'
	@echo 'make clean      removes dist/ and what make lib and make web made'

# Nothing is proved: `rt try` builds the program for one run, and removes it.
try:
	@cd crates/pclcheck && rt try --steps 1 -- check '$(abspath $(JOB))' \
		'$(if $(filter @%,$(PROFILE)),$(PROFILE),$(abspath $(PROFILE)))'

check:
	@.ci/check $(ONLY)

build:
	@.ci/prove --program

program:
	@test -x $(PROGRAM) || { echo 'make: there is no $(PROGRAM): make build' >&2; exit 1; }

$(PROVED) $(MEMORY):
	@echo 'make: there is no $@: make build' >&2; exit 1

lib: $(BUILT)/libpclcheck.a $(BUILT)/libpclcheck.so

# What is no call of pclcheck.h is no name for who links with either.
$(BUILT)/libpclcheck.a: $(PROVED) $(MEMORY) include/pclcheck.map
	mkdir -p $(BUILT)
	sed -n 's/^ *\(pclcheck_[a-z_]*\);$$/\1/p' include/pclcheck.map > $(BUILT)/names
	$(LD) -r --whole-archive $(PROVED) $(MEMORY) -o $(BUILT)/pclcheck.o
	$(OBJCOPY) --keep-global-symbols=$(BUILT)/names $(BUILT)/pclcheck.o
	rm -f $@
	$(AR) rcD $@ $(BUILT)/pclcheck.o

$(BUILT)/libpclcheck.so: $(PROVED) $(MEMORY) include/pclcheck.map
	mkdir -p $(BUILT)
	$(CC) -shared -Wl,-soname,libpclcheck.so.0 -Wl,--version-script=include/pclcheck.map \
		-Wl,-z,relro,-z,now,-z,defs,-z,noexecstack $(LDFLAGS) -o $@.0 \
		-Wl,--whole-archive $(PROVED) $(MEMORY) -Wl,--no-whole-archive
	ln -sf libpclcheck.so.0 $@

# A browser with memories of 64 bits alone reads a page that is packed without binaryen.
web:
	python3 web/build.py $(WEB)
	module=$(WEB)/module.wasm; test -f $$module || module=$(WEB)/module64.wasm; \
		python3 web/pack.py $$module $(WEB)/pclcheck.html

# It says where the library is installed; without a PREFIX, from where itself lies.
pc: program
	@printf '%s\n' 'prefix=$(or $(PREFIX),$${pcfiledir}/../..)' 'Name: pclcheck' \
		'Description: preflight checker for PCL 5 print jobs' 'Version: $(VERSION)' \
		'Cflags: -I$${prefix}/include' 'Libs: -L$(LIBRARIES:$(PREFIX)%=$${prefix}%) -lpclcheck' \
		> $(BUILT)/pclcheck.pc

# A pack of a tree that is no commit would not be made again.
committed:
	@test -z "$$(git status --porcelain)" || { \
		echo 'make: git status tells of changes: commit them before a pack is made' >&2; exit 1; }

ifeq ($(PACKAGES),pclcheck)
install: program
else
install: program lib pc
endif
	@$(call each,$(put))

uninstall:
	@$(call each,rm -f "$$place")
	@for folder in $(DOCUMENTS)/contrib/cups $(DOCUMENTS)/contrib/hotfolder \
		$(DOCUMENTS)/contrib/parallel $(DOCUMENTS)/contrib/c $(DOCUMENTS)/contrib/pappl \
		$(DOCUMENTS)/contrib/python $(DOCUMENTS)/contrib $(DOCUMENTS)/bench \
		$(DOCUMENTS)/examples $(DOCUMENTS)/docs/pictures $(DOCUMENTS)/docs $(DOCUMENTS) \
		$(SHARE)/doc/libpclcheck-dev/examples $(SHARE)/doc/libpclcheck-dev \
		$(SHARE)/pclcheck/profiles $(SHARE)/pclcheck; do \
		place="$$DESTDIR$$folder"; \
		if [ -d "$$place" ]; then rmdir --ignore-fail-on-non-empty "$$place"; fi; \
	done

dist: program lib committed
	rm -rf dist/$(NAME)
	$(MAKE) --no-print-directory install DESTDIR=dist/$(NAME) PREFIX=
	cd dist/$(NAME) && find . -type f -printf '%P\n' | LC_ALL=C sort | \
		xargs -d '\n' sha256sum > ../sums
	mv dist/sums dist/$(NAME)/SHA256SUMS
	tar --create --directory dist --format ustar --sort name --owner 0 --group 0 --numeric-owner \
		--mode u=rwX,go=rX --mtime @$(TIME) --file dist/$(NAME).tar $(NAME)
	gzip -9nf dist/$(NAME).tar
	rm -rf dist/$(NAME)

deb: export SOURCE_DATE_EPOCH = $(TIME)
deb: program lib committed
	set -e; for package in $(PACKAGES); do $(MAKE) --no-print-directory pack-$$package; done
	rm -rf $(ROOT) dist/md5sums dist/substvars dist/files dist/binaries

pack-%: OF = $(ROOT)/usr/share/doc/$*
pack-%:
	rm -rf $(ROOT)
	$(MAKE) --no-print-directory install PACKAGES=$* DESTDIR=$(ROOT) PREFIX=/usr \
		LIBRARIES=/usr/lib/$(TRIPLET) ZSH=/usr/share/zsh/vendor-completions
	find $(ROOT)/usr -type f \( -perm -1 -path '*/bin/*' -o -name '*.so.0' \) > dist/binaries
	xargs -r strip --strip-unneeded --remove-section .comment --remove-section .note < dist/binaries
	find $(ROOT)/usr -name '*.a' -exec strip --strip-debug --enable-deterministic-archives {} +
	install -D -m 644 debian/changelog $(OF)/changelog.Debian
	install -m 644 debian/copyright $(OF)/copyright
	if [ -f $(OF)/CHANGELOG.md ]; then mv $(OF)/CHANGELOG.md $(OF)/changelog; fi
	find $(ROOT)/usr/share \( -path '*/man/*' -o -name 'changelog*' \) -type f -exec gzip -9n {} +
	find $(OF) -maxdepth 2 ! -path '*/examples/*' -name '*.md' -size +4k -exec gzip -9n {} +
	cd $(ROOT) && find usr -type f | LC_ALL=C sort | xargs -d '\n' md5sum > ../md5sums
	install -D -m 644 dist/md5sums $(ROOT)/DEBIAN/md5sums
	for file in shlibs triggers; do if [ -f debian/$*.$$file ]; then \
		install -m 644 debian/$*.$$file $(ROOT)/DEBIAN/$$file; fi; done
	: > dist/substvars
	xargs -r dpkg-shlibdeps -Tdist/substvars -S$(ROOT) < dist/binaries
	dpkg-gencontrol -p$* -P$(ROOT) -Tdist/substvars -fdist/files
	dpkg-deb --root-owner-group --build $(ROOT) dist

clean:
	rm -rf dist $(BUILT) $(WEB)
