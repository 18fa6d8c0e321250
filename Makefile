# Builds and installs the compiled service, the compiled client, the program that bills and the auditor.
#
#     make                              proves and builds them: minutes the first time
#     make install PREFIX=/usr/local    .. and installs them; DESTDIR=FOLDER puts the same files below another folder
#     make uninstall PREFIX=/usr/local
#
# It needs rt, and what every Linux has. The version is that of the headers.

PREFIX = /usr/local
DESTDIR =
bindir = $(PREFIX)/bin
includedir = $(PREFIX)/include
libdir = $(PREFIX)/lib
pkgconfigdir = $(libdir)/pkgconfig
mandir = $(PREFIX)/share/man

version := $(shell sed -nE 's/^.define RAZIDKOT_VERSION "(.*)"$$/\1/p' include/razidkot_status.h)
headers := razidkot.h razidkot_client.h razidkot_status.h
# Each function has a page that points to that of its header.
functions_of = $(shell sed -nE 's/^[a-z0-9_]+ (razidkot_[a-z_]+)\$(paren).*/\1/p' include/$(1).h)
# One that make doesn't count.
paren := (
service_functions := $(call functions_of,razidkot)
client_functions := $(call functions_of,razidkot_client)

to_bin = $(DESTDIR)$(bindir)
to_include = $(DESTDIR)$(includedir)
to_lib = $(DESTDIR)$(libdir)
to_pkgconfig = $(DESTDIR)$(pkgconfigdir)
to_man = $(DESTDIR)$(mandir)

built := target/staticlib/libabi.a target/staticlib/libclient_abi.a target/bin/bill target/bin/audit_program
# A folder is newer when a file of it is gone. In out/ is what rt makes of them.
sources := crates.txt $(shell find crates/*/* -name out -prune -o \( -name '*.rt' -o -name '*.antt' -o -type d \) -print)

# What stands below PREFIX is said in its terms, so that pkg-config can move it.
below_prefix = $(patsubst $(PREFIX)/%,$${prefix}/%,$(1))
fill_in = sed -e 's|@PREFIX@|$(PREFIX)|' -e 's|@LIBDIR@|$(call below_prefix,$(libdir))|' \
	-e 's|@INCLUDEDIR@|$(call below_prefix,$(includedir))|' -e 's|@VERSION@|$(version)|'

.PHONY: all install uninstall absolute
# Two runs of rt would build what is below both.
.NOTPARALLEL:

all: $(built)

# What has not changed is left alone: the file is as new as what it was made from.
target/staticlib/lib%.a: $(sources)
	./prove $*
	touch $@
target/bin/%: $(sources)
	./prove $*
	touch $@

absolute:
	@case '$(PREFIX)' in /*) ;; *) echo 'make: PREFIX has to begin with /' >&2; exit 1 ;; esac

install: absolute $(built)
	install -d '$(to_bin)' '$(to_include)' '$(to_lib)' '$(to_pkgconfig)' '$(to_man)/man1' '$(to_man)/man3'
	install -m 755 target/bin/bill '$(to_bin)/razidkot-bill'
	install -m 755 target/bin/audit_program '$(to_bin)/razidkot-audit'
	install -m 644 $(headers:%=include/%) '$(to_include)'
	install -m 644 target/staticlib/libabi.a '$(to_lib)/librazidkot.a'
	install -m 644 target/staticlib/libclient_abi.a '$(to_lib)/librazidkot_client.a'
	for name in razidkot razidkot-client; do \
		$(fill_in) "pkgconfig/$$name.pc.in" >'$(to_pkgconfig)'/"$$name.pc" || exit; \
		chmod 644 '$(to_pkgconfig)'/"$$name.pc" || exit; \
	done
	install -m 644 man/razidkot-bill.1 man/razidkot-audit.1 '$(to_man)/man1'
	install -m 644 man/razidkot.3 man/razidkot_client.3 '$(to_man)/man3'
	for name in $(service_functions); do \
		echo '.so man3/razidkot.3' >'$(to_man)/man3'/"$$name.3" && chmod 644 '$(to_man)/man3'/"$$name.3" || exit; \
	done
	for name in $(client_functions); do \
		echo '.so man3/razidkot_client.3' >'$(to_man)/man3'/"$$name.3" && chmod 644 '$(to_man)/man3'/"$$name.3" || exit; \
	done

# The folders may be others' too, and stay.
uninstall: absolute
	rm -f '$(to_bin)/razidkot-bill' '$(to_bin)/razidkot-audit' $(headers:%='$(to_include)'/%)
	rm -f '$(to_lib)/librazidkot.a' '$(to_lib)/librazidkot_client.a'
	rm -f '$(to_pkgconfig)/razidkot.pc' '$(to_pkgconfig)/razidkot-client.pc'
	rm -f '$(to_man)/man1/razidkot-bill.1' '$(to_man)/man1/razidkot-audit.1'
	rm -f '$(to_man)/man3/razidkot.3' '$(to_man)/man3/razidkot_client.3'
	rm -f $(service_functions:%='$(to_man)/man3'/%.3) $(client_functions:%='$(to_man)/man3'/%.3)
