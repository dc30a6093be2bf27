# For those who look for a Makefile: bin/hexd starts the program, and .ci/run proves and checks everything.
#
#   make                                  takes the programs from release/, or builds them if it is of other sources
#   make check                            tests these programs and what stands beside them, in some minutes
#   make prove                            builds them from the sources, whatever is shipped, and compares
#   make page [OUT=..]                    makes hexd.html, hexd in one page for a browser, by what was built from the sources
#   make wasm [OUT=..]                    takes hexd for programs in JavaScript out of release/hexd.html (web/hexd.mjs)
#   make release                          packs what .ci/run has just built into release/, makes the page there, and says what all is made of
#   make install [prefix=..] [DESTDIR=..] installs the programs, their manual pages, completions and documents; bindir,
#                                         datadir and the other places below can be said too
#   make uninstall [..]                   takes away what `make install` with the same words has put there
#   make deb                              makes a Debian package in out/; its maintainer is DEBFULLNAME <DEBEMAIL>

# The programs, each with its crate; and what stands beside them in Python. Each has a page in man/ and three completions.
programs = hexd hexmatch
wrappers = hexd-board hexd-report hexd-solve hexd-gtp

# By GNU's names, and PREFIX as others have it.
PREFIX = /usr/local
prefix = $(PREFIX)
bindir = $(prefix)/bin
# Where the programs lie themselves: in bindir stand launchers, which say what is wrong with a word (bin/installed).
libdir = $(prefix)/lib/hexd
datadir = $(prefix)/share
mandir = $(datadir)/man
docdir = $(datadir)/doc/hexd
bashdir = $(datadir)/bash-completion/completions
zshdir = $(datadir)/zsh/site-functions
fishdir = $(datadir)/fish/vendor_completions.d
# What the wrappers need, and what is there to be used beside them, as it lies here.
share = $(datadir)/hexd

# Folders whose files lie in share, and stand among the documents by a link.
folders = board examples gtp openings puzzles
scripts = $(wildcard examples/*.py openings/check openings/draw.py openings/find.py openings/gather openings/job \
    openings/even.py openings/middle.py openings/positions.py tools/second_checker.py tools/puzzles tools/strength \
    tools/check_won tools/check_ladders)
texts = $(filter-out %/test.py $(scripts),$(wildcard $(folders:%=%/*.md) $(folders:%=%/*.py) \
    board/page/* board/report.html board/certificate.html board/settings.json board/guessed.json \
    openings/Makefile openings/*.tsv openings/*.sgf puzzles/*.tsv \
    tools/programs.py tools/puzzle_files.py tools/puzzle_games.py tools/puzzle_proofs.py \
    tools/studies.py tools/session_games.py tools/bradley_terry.py \
    tools/python.bash tools/streams.bash tools/words.bash tools/progress.bash tools/options.txt man/*.help))
others = $(wildcard examples/certificates/* openings/*.xz openings/pictures/* puzzles/*.xz \
    tools/study/*.study tools/study/*.txt tools/study/Makefile tools/study/*.sbatch)
# Documents name one another by their places here, so they keep these.
pages = $(wildcard *.md docs/*/*.md crates/README.md web/README.md tools/README.md tools/*/README.md release/NOTICES)
pictures = $(wildcard docs/*/pictures/* release/hexd.html release/hexd.spdx.json)

# Each installed file as KIND:PLACE-HERE:PLACE-THERE, and each link as link:WHERE-IT-LEADS:PLACE-THERE.
files = $(foreach name,$(programs),program:$(name):$(libdir)/$(name) \
        link:$(libdir)/$(name):$(share)/bin/$(name) \
        wrapper:bin/installed:$(bindir)/$(name)) \
    $(foreach name,$(wrappers),wrapper:bin/$(name):$(bindir)/$(name)) \
    $(foreach name,$(programs) $(wrappers),file:man/$(name).6:$(mandir)/man6/$(name).6 \
        file:completions/$(name).bash:$(bashdir)/$(name) \
        file:completions/_$(name):$(zshdir)/_$(name) \
        file:completions/$(name).fish:$(fishdir)/$(name).fish) \
    $(foreach path,$(scripts),script:$(path):$(share)/$(path)) \
    $(foreach path,$(texts),text:$(path):$(share)/$(path)) \
    $(foreach path,$(others),file:$(path):$(share)/$(path)) \
    $(foreach path,$(pages),text:$(path):$(docdir)/$(path)) \
    $(foreach path,$(pictures),file:$(path):$(docdir)/$(path)) \
    $(foreach name,$(folders),link:$(share)/$(name):$(docdir)/$(name)) \
    link:$(docdir)/docs:$(share)/docs \
    entry:board/hexd-board.desktop:$(datadir)/applications/hexd-board.desktop \
    file:board/page/icon.svg:$(datadir)/icons/hicolor/scalable/apps/hexd-board.svg

# What is installed is started without a path, but from a menu. Links and wrappers lead from their folder, so that all may be moved together.
unpathed = sed -E 's,(^|[^[:alnum:]_/.$$])bin/(hexd|hexmatch),\1\2,g'
from = $$(realpath -sm --relative-to="$(dir $1)" "$2")
install_program = install -D -m 755 "$$(bin/start --where $1)" "$(DESTDIR)$2"
install_file = install -D -m 644 $1 "$(DESTDIR)$2"
install_text = $(unpathed) $1 | install -D -m 644 /dev/stdin "$(DESTDIR)$2"
install_script = $(unpathed) $1 | install -D -m 755 /dev/stdin "$(DESTDIR)$2"
install_wrapper = sed "s,^share=.*,share=\$$bin/$(call from,$2,$(share))," $1 | install -D -m 755 /dev/stdin "$(DESTDIR)$2"
install_entry = sed 's,^Exec=,&$(bindir)/,' $1 | install -D -m 644 /dev/stdin "$(DESTDIR)$2"
install_link = install -d -m 755 "$(DESTDIR)$(dir $2)" && ln -sfn "$(call from,$2,$1)" "$(DESTDIR)$2"

# The two commands of a file; the empty line at the end of each ends the command.
part = $(word $1,$(subst :, ,$2))
define install_one
$(call install_$(call part,1,$1),$(call part,2,$1),$(call part,3,$1))

endef
define remove_one
rm -f "$(DESTDIR)$(call part,3,$1)"

endef

build: $(programs:%=build-%)

build-%:
	bin/start --where $* >/dev/null

check: build
	tools/check

built:
	HEXD_BUILD=1 $(MAKE) build

prove: built
	tools/release --compare $(programs)
	[ ! -f release/hexd.html ] || web/page.py --compare release/hexd.html

page: built
	web/page.py "$(or $(OUT),web/out/hexd.html)"

wasm:
	web/module.py release/hexd.html "$(or $(OUT),web/out/hexd.wasm)"

release:
	tools/release $(programs)
	web/page.py release/hexd.html
	tools/sbom

install: build
	$(foreach file,$(files),$(call install_one,$(file)))

# What Python has kept of its programs goes too. Folders that others use stay.
uninstall:
	$(foreach file,$(files),$(call remove_one,$(file)))
	for folder in "$(DESTDIR)$(share)" "$(DESTDIR)$(docdir)" "$(DESTDIR)$(libdir)"; do \
	    find "$$folder" -depth \( -path '*/__pycache__/*.pyc' -o -type d -empty \) -delete 2>/dev/null; \
	done || true

# Where Debian has games and what belongs to its zsh.
deb: build
	tools/make_deb "$(or $(OUT),out)" prefix=/usr bindir=/usr/games zshdir=/usr/share/zsh/vendor-completions

.PHONY: build built check prove page wasm release install uninstall deb
