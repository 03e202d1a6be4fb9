# RT is the command of the Rattle kit.
export RT ?= rt
PROGRAM := crates/btreearc/out/btreearc
MAPS := crates/bench/out/bench

# Where make install puts what is built. DESTDIR is put before it; BINDIR, MANDIR, COMPLETIONSDIR, INCLUDEDIR and LIBDIR name other
# folders than those below it.
export PREFIX ?= /usr/local

.PHONY: run test wrong programs install uninstall bench bindings man reference drawing program maps

# Two lines become an archive, and the archive becomes the two lines again. Nothing is proved.
run:
	@tools/run.sh

test:
	@tools/gate.sh

# Tries all wrong bodies, whatever the record of them says. Run it before a release.
wrong:
	@tools/edits.py --all

# Both programs as executables. rt proves each and its libraries before it builds it, which takes minutes the first time; where nothing has
# changed it does neither. The script says on standard error which crate is being proved.
programs: program
	@tools/program.sh btreekv build
	@echo "built: crates/btreearc/out/btreearc and crates/btreekv/out/btreekv"

# These two prove and build nothing: install says what make programs and make bindings have yet to build. tools/install.sh takes one of both
# parts, the programs or the library, too.
install:
	@tools/install.sh programs library

uninstall:
	@tools/install.sh --remove programs library

bench: program maps
	@bench/program.sh $(PROGRAM)
	@set -e; for count in 1000 100000 1000000; do $(MAPS) $$count; done
	@bench/file.sh $(MAPS)
	@bench/cold.sh $(PROGRAM) $(MAPS)

# The static and the shared library, and what is over them in C, Rust and Python, with tests. It needs cc and binutils; it leaves out what has no
# cargo, python3 or pkg-config.
bindings:
	@tools/bindings.sh

# The man pages of the programs, made of their page.
man:
	@tools/man.py

# The reference as one page that is searched without a network: out/reference.html.
reference:
	@mkdir -p out && tools/reference.py --html out/reference.html && echo "written: out/reference.html"

# The drawings of the format and of a lookup, made of the program's archives of 17 and of 215 entries; and that of the crates, made of crates.txt.
drawing: program
	@awk 'BEGIN { for (i = 1; i <= 17; i++) print i, 10 * i }' | $(PROGRAM) build untyped | tools/drawing.py > docs/format.svg
	@awk 'BEGIN { for (i = 1; i <= 215; i++) print i, 10 * i }' | $(PROGRAM) build untyped | tools/drawing.py 100 > docs/lookup.svg
	@tools/house.py

# btreearc alone, which bench and drawing need.
program:
	@tools/program.sh btreearc build

# The program that times maps in memory, built in the same way. Without an argument it compares two builders.
maps:
	@tools/program.sh bench
