# Installs the program, the broker of served stores, manual pages, the clients, the library for C and what stands over it.
# docs/INSTALLING.md says more.
#
#   make                              builds the programs, the libraries and the manual, if they are missing or stale
#   make install PREFIX=/usr/local    installs it; with DESTDIR=FOLDER into a folder that stands for the root
#   make uninstall PREFIX=/usr/local  removes it, with the same DESTDIR
#   make check                        runs the tests, after it has built without proofs what they run; TESTS="runs words" runs some
#
# PROGRAM=FILE is a program, and LIBRARY=FOLDER has a library as tools/c_library.py makes it, that are built already. PROGRAMS=FOLDER has
# programs for the tests, such as crates/regtx/out, which has the one that `rt ci` proved; tests/all.py says more.
PREFIX = /usr/local
DESTDIR =
PROGRAM =
LIBRARY = out/c
# where zsh looks for functions; Debian's packages have theirs in share/zsh/vendor-completions
ZSH_FUNCTIONS = share/zsh/site-functions
# where libraries are, and what pkg-config reads of them
LIBRARIES = lib
# where a Python looks for modules, if they are to be installed there; without it they are among the clients and the bindings, for pip
PYTHON_MODULES =
# for make check
PROGRAMS =
TESTS =
export PREFIX DESTDIR PROGRAM LIBRARY LIBRARIES PROGRAMS TESTS

CFLAGS = -O2
MANUAL = regtx.1 regtxd.1 regtxc.1 regtx-replicate.1 regtx.3 regtx_client.3
MANUALS = $(MANUAL:%=out/%)
# the broker and a client for the shell, and the units by which systemd starts the broker
SERVER_PROGRAMS = out/regtxd out/regtxc
UNITS = regtx@.service regtx@.socket
SHARED = libregtx.so.0
LIBRARY_FILES = regtx.h libregtx.a $(SHARED)
# the client for C: one header and one source, and a library of it
CLIENT_SOURCES = out/client/regtx_client.h out/client/regtx_client.c
CLIENT_ARCHIVE = out/client/libregtx_client.a
DOCS = USING SERVING FLEET OPERATING ERRORS PICTURES REGFILES SCRIPTS RECOVERING LAB SWEEP HEADLINE FORMATS INSTALLING
PAGES = README.md $(DOCS:%=docs/%.md) $(wildcard server/README.md clients/README.md clients/*/README.md bindings/README.md \
    bindings/*/README.md examples/README.md crates/regtx_c/README.md)
PICTURES = $(wildcard docs/pictures/*.svg)
EXAMPLES = $(filter-out %.md, $(wildcard examples/*.[a-z]* examples/installer examples/recovery examples/service examples/served/*.* \
    examples/*/Cargo.* examples/*/src/*.rs examples/served/*/Cargo.* examples/served/*/src/*.rs clients/python/example.py clients/c/example.c))
# sources of crates, with the page that is a part of each; and of Python, for pip
CRATES = $(foreach crate, clients/rust bindings/rust, $(wildcard $(crate)/README.md $(crate)/Cargo.* $(crate)/src/*.rs $(crate)/examples/*.rs))
MODULES = $(wildcard clients/python/README.md clients/python/wheels.py clients/python/pyproject.toml clients/python/regtx/*.py \
    clients/python/regtx/*/*.py clients/python/regtx/py.typed clients/python/regtx-replicate bindings/python/*.py)
SOURCES = $(EXAMPLES) $(CRATES) $(if $(PYTHON_MODULES),, $(MODULES))
VERSION = $(shell sed -n 's/^version = "\(.*\)"/\1/p' clients/python/pyproject.toml)
# what Python finds: the client's package with what pip knows of it, and the module over the library for C
FOUND = $(patsubst clients/python/%,%,$(filter clients/python/regtx/%, $(MODULES))) $(patsubst %,regtx-$(VERSION).dist-info/%,METADATA WHEEL RECORD entry_points.txt) \
    regtx_hive.py
# all that is installed, below PREFIX
INSTALLED = bin/regtx bin/regtxd bin/regtxc bin/regtx-replicate libexec/regtx $(UNITS:%=lib/systemd/system/%) include/regtx.h include/regtx_client.h \
    $(patsubst %,$(LIBRARIES)/%,libregtx.a $(SHARED) libregtx.so libregtx_client.a pkgconfig/regtx.pc pkgconfig/regtx-client.pc) \
    $(foreach page, $(MANUAL), share/man/man$(subst .,,$(suffix $(page)))/$(page)) \
    share/bash-completion/completions/regtx $(ZSH_FUNCTIONS)/_regtx $(patsubst %,share/doc/regtx/%,$(PAGES) $(PICTURES)) $(SOURCES:%=share/regtx/%) \
    $(patsubst out/client/%,share/regtx/clients/c/%,$(CLIENT_SOURCES)) $(if $(PYTHON_MODULES), $(FOUND:%=$(PYTHON_MODULES)/%))
# where Python may write byte code beside our modules, and the folders of modules that are ours alone
OWN_MODULES = $(if $(PYTHON_MODULES), $(sort $(patsubst %/,$(PYTHON_MODULES)/%,$(dir $(filter-out regtx_hive.py, $(FOUND))))))
BYTE_CODE = $(sort $(patsubst %/,share/regtx/%,$(dir $(filter %.py, $(SOURCES)))) $(OWN_MODULES))
FOLDERS = $(sort $(patsubst %/,%,$(dir $(INSTALLED))))

SHELL = /bin/sh
.SHELLFLAGS = -euc
.ONESHELL:
.PHONY: all install uninstall check program library
.DELETE_ON_ERROR:

all: program library $(MANUALS) $(SERVER_PROGRAMS) $(CLIENT_ARCHIVE)
	@echo "regtx is built; make install PREFIX=FOLDER installs it"

program:
	@test -n "$$PROGRAM" || tools/build_quick.py --which regtx >/dev/null

# the folder that tools/c_library.py writes is made anew if it is older than its sources, without proofs unless `rt ci` has proved the
# crates below; another one has to have all files
library:
	@test "$$LIBRARY" != out/c || tools/c_library.py --if-stale out/c
	for file in $(LIBRARY_FILES); do
	    test -e "$$LIBRARY/$$file" || { echo "regtx: $$LIBRARY has no $$file" >&2; exit 1; }
	done

$(MANUALS): out/%: $(patsubst %,tools/%.py,manual markdown roff headers product) README.md docs/USING.md docs/SCRIPTS.md docs/SERVING.md docs/FLEET.md \
    server/README.md clients/README.md clients/c/README.md clients/c/regtx_client.h crates/regtx_c/README.md crates/regtx_c/regtx.h \
    crates/regtx/src/usages.rt crates/regtx/src/about.rt
	@mkdir -p out
	tools/manual.py $* >$@

out/regtxd: $(filter-out server/regtxc.c,$(wildcard server/*.c)) $(wildcard server/*.h)
	@mkdir -p out
	$(CC) -std=c11 $(CFLAGS) -o $@ $(filter %.c,$^)

out/regtxc: server/regtxc.c
	@mkdir -p out
	$(CC) -std=c11 $(CFLAGS) -o $@ $<

# the header comes with it
out/client/regtx_client.c: tools/amalgamation.py $(wildcard clients/c/regtx_*.[ch]) crates/regtx/src/about.rt
	@tools/amalgamation.py out/client

# its calls may become a part of a shared object too
$(CLIENT_ARCHIVE): out/client/regtx_client.c
	@$(CC) -std=c11 $(CFLAGS) -fPIC -c -o out/client/regtx_client.o out/client/regtx_client.c
	rm -f $@
	ar rcsD $@ out/client/regtx_client.o

# the pkg-config files come first, since they refuse a PREFIX; the program's file isn't stripped: its last bytes say what it is
install: program library $(MANUALS) $(SERVER_PROGRAMS) $(CLIENT_ARCHIVE)
	@config=$$(tools/pkgconfig.py regtx "$$PREFIX" "$$LIBRARIES")
	client_config=$$(tools/pkgconfig.py regtx-client "$$PREFIX" "$$LIBRARIES")
	program=$$(realpath -e "$${PROGRAM:-$$(tools/build_quick.py --which regtx)}")
	about=$$("$$program" about)
	root=$$DESTDIR$$PREFIX
	libraries=$$root/$$LIBRARIES
	for folder in $(FOLDERS); do
	    test -d "$$root/$$folder" || install -d "$$root/$$folder"
	done
	install -m 755 "$$program" "$$root/libexec/regtx"
	sed "s|@PROGRAM@|$$PREFIX/libexec/regtx|" tools/installed_name | install -m 755 /dev/stdin "$$root/bin/regtx"
	install -m 755 $(SERVER_PROGRAMS) "$$root/bin"
	tools/installed_command.py clients/python/regtx-replicate "$${PREFIX%/}/$(or $(PYTHON_MODULES),share/regtx/clients/python)" \
	    $(if $(PYTHON_MODULES),/usr/bin/python3) | install -m 755 /dev/stdin "$$root/bin/regtx-replicate"
	for unit in $(UNITS); do
	    sed "s|/usr/local/bin/|$${PREFIX%/}/bin/|g" "server/$$unit" | install -m 644 /dev/stdin "$$root/lib/systemd/system/$$unit"
	done
	install -m 644 "$$LIBRARY/regtx.h" out/client/regtx_client.h "$$root/include"
	install -m 644 "$$LIBRARY/libregtx.a" "$$LIBRARY/$(SHARED)" $(CLIENT_ARCHIVE) "$$libraries"
	ln -sf $(SHARED) "$$libraries/libregtx.so"
	printf '%s\n' "$$config" | install -m 644 /dev/stdin "$$libraries/pkgconfig/regtx.pc"
	printf '%s\n' "$$client_config" | install -m 644 /dev/stdin "$$libraries/pkgconfig/regtx-client.pc"
	for page in $(MANUAL); do
	    install -m 644 "out/$$page" "$$root/share/man/man$${page##*.}/$$page"
	done
	install -m 644 completions/regtx.bash "$$root/share/bash-completion/completions/regtx"
	install -m 644 completions/_regtx "$$root/$(ZSH_FUNCTIONS)/_regtx"
	for page in $(PAGES) $(PICTURES); do
	    install -m 644 "$$page" "$$root/share/doc/regtx/$$page"
	done
	for file in $(SOURCES); do
	    mode=644; test ! -x "$$file" || mode=755
	    install -m $$mode "$$file" "$$root/share/regtx/$$file"
	done
	install -m 644 $(CLIENT_SOURCES) "$$root/share/regtx/clients/c"
	if test -n "$(PYTHON_MODULES)"; then
	    (umask 022 && clients/python/wheels.py --unpacked "$$root/$(PYTHON_MODULES)")
	    install -m 644 bindings/python/regtx_hive.py "$$root/$(PYTHON_MODULES)"
	fi
	tools/installed_pages.py "$$root/share" $(patsubst %,doc/regtx/%,$(PAGES)) $(patsubst %,regtx/%,$(filter %.md, $(SOURCES)))
	printf '%s\n' "$$about" | grep -q '^proved by ' ||
	    echo "regtx: the program that is installed isn't proved: regtx about says what it is" >&2
	tools/c_library.py --is-proved "$$LIBRARY" ||
	    echo "regtx: the library for C that is installed isn't proved, as its regtx_version says" >&2

check:
	@tests/all.py $${PROGRAMS:+--programs "$$PROGRAMS"} --library "$$LIBRARY" $$TESTS

# the files that install writes, byte code of them, and then regtx's own folders if they are empty. A DESTDIR holds nobody else's tree, so there all
# folders go that are empty then; elsewhere bin, lib and their like stay
uninstall:
	@root=$$DESTDIR$$PREFIX
	test -d "$$root" || exit 0
	cd "$$root"
	rm -f $(INSTALLED)
	for folder in $(BYTE_CODE); do
	    rm -f $$folder/__pycache__/*.pyc
	    test ! -d $$folder/__pycache__ || rmdir $$folder/__pycache__
	done
	if test -z "$${DESTDIR%/}"; then
	    for folder in share/regtx share/doc/regtx $(OWN_MODULES); do
	        test ! -d $$folder || find $$folder -depth -type d -empty -delete
	    done
	    exit 0
	fi
	for folder in $(FOLDERS); do
	    test ! -d $$folder || rmdir -p --ignore-fail-on-non-empty $$folder
	done
	cd "$$OLDPWD"
	cd "$$DESTDIR"
	test "$$PREFIX" = / || rmdir -p --ignore-fail-on-non-empty "$${PREFIX#/}"
