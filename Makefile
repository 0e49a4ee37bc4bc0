# Builds and installs the library, the command and their pages.
#
#   make                                      build all under target/install
#   make install PREFIX=/usr DESTDIR=stage    headers, archives, shared libraries, odif.pc, pm1.pc, command, manual pages, completions
#   make install-lib                          the same without the command: it needs rt, for the proved library, a C compiler and, on ARM, python3
#   make uninstall                            take away what install put there
#   make portable TARGET=aarch64-linux        the libraries for another machine, under target/portable; `portable/build --list` has the machines
#   make install-lib TARGET=aarch64-linux CC=aarch64-linux-gnu-gcc    the same installed, on Linux with shared libraries, which CC makes
#
# The command needs cargo and the crates that it uses besides; where they are Debian's, rust/packages makes them ready first. `make` installs no
# packages. An installed archive is that of target/here with a small member of C beside it (odif_sentence, pm1_identity), and a shared library is made
# of it. target/here has the proved archive on x86-64, and on ARM what is compiled of its module (packaging/archive). Where a shared library is new in a folder that the system's loader looks into, let root run ldconfig after `make install`.

PREFIX  ?= /usr/local
DESTDIR ?=
CC      ?= cc
CFLAGS  ?= -O2 -Wall -Wextra
INSTALL ?= install

version := $(shell sed -n 's/^\#define ODIF_VERSION  *"\(.*\)"/\1/p' include/odif.h)
# before 1.0.0 the second number changes with what callers are compiled against
series  := $(shell echo $(version) | cut -d. -f1,2)
proved  := target/staticlib/libodif.a
# the PM1 desk
desk    := target/staticlib/libpm1.a
# the library as WebAssembly, which the page of `odif view` holds
reader  := target/portable/wasm32/odif.wasm
out     := target/$(if $(TARGET),portable/$(TARGET),install)
to      := $(DESTDIR)$(PREFIX)
# where bash, zsh and fish look for them
completions := $(addprefix $(to)/share/,bash-completion/completions zsh/site-functions fish/vendor_completions.d)
shared  := -shared -Wl,-z,defs -Wl,-z,text -Wl,-z,relro -Wl,-z,now
sha256   = $(shell sha256sum $(1) | cut -d' ' -f1)
# what is made for a machine: Microsoft's linker has archives by another name, and shared libraries are made for Linux
archives := $(if $(filter %-msvc,$(TARGET)),odif.lib pm1.lib,libodif.a libpm1.a)
loaded  := $(if $(filter-out %-linux,$(TARGET)),,libodif.so libpm1.so)

.PHONY: all lib portable install install-lib uninstall clean FORCE
all: lib $(if $(TARGET),,$(out)/odif)
lib: $(addprefix $(out)/,$(archives) $(loaded) odif.pc pm1.pc odif.3 pm1.3)
portable: $(if $(TARGET),$(addprefix $(out)/,$(archives)))
	@[ -n '$(TARGET)' ] || { echo 'make: say for which machine, TARGET=NAME; portable/build --list has them' >&2; exit 2; }

# asked each time, since only packaging/archive knows whether an archive is of these sources; it leaves one that is as it stands
$(proved) $(desk): target/staticlib/lib%.a: FORCE
	packaging/archive $*

# the same for this machine, which packaging/archive puts there too
target/here/lib%.a: target/staticlib/lib%.a ;

$(out):
	mkdir -p $@

ifdef TARGET
$(addprefix $(out)/,$(archives)) &: $(proved) $(desk) $(wildcard portable/*.py portable/build portable/*.c include/*) | $(out)
	portable/build $(TARGET) $(out)
else
$(out)/odif_sentence.o: include/odif_sentence.c include/odif.h $(proved) | $(out)
	$(CC) $(CFLAGS) -fPIC -Iinclude -DODIF_ARCHIVE_SHA256='"$(call sha256,$(proved))"' -c $< -o $@

$(out)/libodif.a: target/here/libodif.a $(out)/odif_sentence.o
	cp $< $@
	$(AR) rs $@ $(out)/odif_sentence.o

$(out)/pm1_identity.o: include/pm1_identity.c include/pm1.h $(desk) | $(out)
	$(CC) $(CFLAGS) -fPIC -Iinclude -DPM1_ARCHIVE_SHA256='"$(call sha256,$(desk))"' -c $< -o $@

$(out)/libpm1.a: target/here/libpm1.a $(out)/pm1_identity.o
	cp $< $@
	$(AR) rs $@ $(out)/pm1_identity.o
endif

$(out)/libodif.so $(out)/libpm1.so: $(out)/lib%.so: $(out)/lib%.a
	$(CC) $(shared) -Wl,-soname,lib$*.so.$(series) -Wl,--whole-archive $< -Wl,--no-whole-archive -o $@

# PREFIX may differ from the last time, so these are made anew each time
$(out)/odif.pc $(out)/pm1.pc: $(out)/%.pc: packaging/%.pc.in FORCE | $(out)
	sed -e 's|@PREFIX@|$(PREFIX)|' -e 's|@VERSION@|$(version)|' $< > $@

$(reader): $(proved) $(desk) $(wildcard portable/*.py portable/build portable/*.c portable/odif.mjs include/* js/*)
	portable/build wasm32 $(@D)

# cargo knows what has changed; the command writes its own manual page and completions
$(out)/odif: $(proved) $(desk) $(reader) FORCE | $(out)
	cd rust && ./packages --look && cargo build --release --locked --workspace --bin odif
	cp rust/target/release/odif $@
	$@ man > $@.1
	for shell in bash zsh fish; do $@ completions $$shell > $@.$$shell || exit 1; done

$(out)/odif.3 $(out)/pm1.3: $(out)/%.3: include/%.h packaging/%.3.in packaging/manual | $(out)
	packaging/manual $* $(version) > $@

install-lib: lib
	$(INSTALL) -d $(to)/include $(to)/lib/pkgconfig $(to)/share/man/man3
	for name in odif pm1; do \
	    $(INSTALL) -m 644 include/$$name.h $(to)/include/$$name.h && \
	    $(INSTALL) -m 644 $(out)/$$name.pc $(to)/lib/pkgconfig/$$name.pc && \
	    $(INSTALL) -m 644 $(out)/$$name.3 $(to)/share/man/man3/$$name.3 || exit 1; \
	done
	$(INSTALL) -m 644 $(addprefix $(out)/,$(archives)) $(to)/lib
	for file in $(loaded); do \
	    $(INSTALL) -m 755 $(out)/$$file $(to)/lib/$$file.$(version) && \
	    ln -sf $$file.$(version) $(to)/lib/$$file.$(series) && \
	    ln -sf $$file.$(series) $(to)/lib/$$file || exit 1; \
	done
ifeq ($(TARGET),x86_64-windows)
	$(INSTALL) -d $(to)/bin
	$(INSTALL) -m 755 $(out)/odif.dll $(out)/pm1.dll $(to)/bin
	$(INSTALL) -m 644 $(out)/libodif.dll.a $(out)/libpm1.dll.a $(to)/lib
endif
ifeq ($(TARGET),wasm32)
	$(INSTALL) -m 644 $(out)/odif.wasm $(out)/odif.mjs $(to)/lib
endif

install: all install-lib
ifndef TARGET
	$(INSTALL) -d $(to)/bin $(to)/share/man/man1 $(completions)
	$(INSTALL) -m 755 -s $(out)/odif $(to)/bin/odif
	$(INSTALL) -m 644 $(out)/odif.1 $(to)/share/man/man1/odif.1
	$(INSTALL) -m 644 $(out)/odif.bash $(word 1,$(completions))/odif
	$(INSTALL) -m 644 $(out)/odif.zsh $(word 2,$(completions))/_odif
	$(INSTALL) -m 644 $(out)/odif.fish $(word 3,$(completions))/odif.fish
endif

uninstall:
	for name in odif pm1; do \
	    rm -f $(to)/include/$$name.h $(to)/lib/lib$$name.a $(to)/lib/lib$$name.so $(to)/lib/lib$$name.so.$(series) \
	        $(to)/lib/lib$$name.so.$(version) $(to)/lib/pkgconfig/$$name.pc $(to)/share/man/man3/$$name.3 \
	        $(to)/lib/$$name.lib $(to)/lib/lib$$name.dll.a $(to)/bin/$$name.dll $(to)/lib/$$name.wasm $(to)/lib/$$name.mjs; \
	done
	rm -f $(to)/bin/odif $(to)/share/man/man1/odif.1 \
	    $(word 1,$(completions))/odif $(word 2,$(completions))/_odif $(word 3,$(completions))/odif.fish

clean:
	rm -rf $(out)
