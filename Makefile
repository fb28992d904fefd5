# make            proves and builds the programs, with what they stand on
# make install    copies what is built, with pages, completions and documents, to $(DESTDIR)$(PREFIX); it builds nothing
# make uninstall  removes what make install copied
# make dist       one archive of the same files, in dist/, with the sum of each
# make deb        a Debian package of the same files, in dist/
# make test       the whole gate: every proof, wrong body, test and program; and runs of the built programs

PREFIX ?= /usr/local
PLACE = crates/place_program/out/place_program
DESK = crates/desk_program/out/desk_program
SOURCES := crates.txt $(shell find crates -name out -prune -o \( -name '*.rt' -o -name '*.antt' \) -print)

all: $(PLACE) $(DESK)

$(PLACE) $(DESK): $(SOURCES)
	tools/build $(notdir $@)

install uninstall:
	tools/package $@ '$(DESTDIR)$(PREFIX)'

dist deb:
	tools/package $@ dist

test:
	.ci/run

clean:
	rm -rf crates/*/out dist

.PHONY: all install uninstall dist deb test clean
# each of the two builds uses all processors, and they prove the same crates
.NOTPARALLEL:
