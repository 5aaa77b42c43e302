# make install: the command with its programs, and what programs in C need. What is not built is proved and built before.
PREFIX = /usr/local
prefix := $(abspath $(PREFIX))
bindir = $(prefix)/bin
libdir = $(prefix)/lib
includedir = $(prefix)/include
pkgconfigdir = $(libdir)/pkgconfig
completionsdir = $(prefix)/share/bash-completion/completions
# The command's own folder, which `make uninstall` removes whole.
home = $(libdir)/nutseason

commands := report reserve sheet admit step bursts
programs := $(foreach command,$(commands),crates/$(command)/out/$(command))
loader := crates/loader/out/libloader.a
workbench := crates/workbench/out/libworkbench.a
libraries := $(loader) $(workbench)
sources := crates.txt $(shell find crates -name out -prune -o \( -name '*.rt' -o -name '*.antt' \) -print)
explain := $(filter-out explain/test_% explain/stored.py,$(wildcard explain/*.*))
step := $(filter-out step/test_%,$(wildcard step/*.py))

# A second run of rt would only wait for the crates that both stand on.
.NOTPARALLEL:
.PHONY: all programs libraries install uninstall

all: programs libraries
programs: $(programs)
libraries: $(libraries)

# rt leaves alone what is proved already, so that it would stay older than its sources.
$(programs) &: $(sources)
	./build $(commands)
	@touch $(programs)

$(loader): $(sources)
	cd crates/loader && rt lib

$(workbench): $(sources)
	cd crates/workbench && rt lib

# The folder of an earlier installation goes, so that nothing of it is left. The command is found through a link.
install: all
	rm -rf "$(DESTDIR)$(home)"
	install -d "$(DESTDIR)$(home)/bin" "$(DESTDIR)$(home)/explain" "$(DESTDIR)$(home)/step" "$(DESTDIR)$(home)/help" "$(DESTDIR)$(bindir)"
	install $(programs) "$(DESTDIR)$(home)/bin"
	install nutseason "$(DESTDIR)$(home)"
	install -m 644 $(explain) "$(DESTDIR)$(home)/explain"
	install -m 644 $(step) "$(DESTDIR)$(home)/step"
	install -m 644 $(wildcard help/*) "$(DESTDIR)$(home)/help"
	./nutseason version | sed '1s/^nutseason //' | install -m 644 /dev/stdin "$(DESTDIR)$(home)/VERSION"
	ln -sfr "$(DESTDIR)$(home)/nutseason" "$(DESTDIR)$(bindir)/nutseason"
	install -D -m 644 include/nutseason.h "$(DESTDIR)$(includedir)/nutseason.h"
	install -D -m 644 $(loader) "$(DESTDIR)$(libdir)/libnutseason_loader.a"
	install -D -m 644 $(workbench) "$(DESTDIR)$(libdir)/libnutseason_workbench.a"
	sed -e 's|@prefix@|$(prefix)|' -e 's|@includedir@|$(includedir)|' -e 's|@libdir@|$(libdir)|' -e "s|@version@|$$(cat VERSION)|" \
		include/nutseason.pc.in | install -D -m 644 /dev/stdin "$(DESTDIR)$(pkgconfigdir)/nutseason.pc"
	install -D -m 644 completions/nutseason.bash "$(DESTDIR)$(completionsdir)/nutseason"

uninstall:
	rm -rf "$(DESTDIR)$(home)"
	rm -f "$(DESTDIR)$(bindir)/nutseason" "$(DESTDIR)$(includedir)/nutseason.h"
	rm -f "$(DESTDIR)$(libdir)/libnutseason_loader.a" "$(DESTDIR)$(libdir)/libnutseason_workbench.a"
	rm -f "$(DESTDIR)$(pkgconfigdir)/nutseason.pc" "$(DESTDIR)$(completionsdir)/nutseason"
