# The program stands at build/pbook once it is proved. `rt` is the command of the Rattle toolchain.

# What the program is made of: the crates pb_* and pbook.
SOURCES := crates.txt $(shell find crates/pb* -path '*/out' -prune -o \( -name '*.rt' -o -name '*.antt' \) -print)

PREFIX := /usr/local

# What `make install` and `make dist` take, and what the tests try.
PROGRAM ?= build/pbook

# The same source without proof, with a check in the place of each.
UNPROVED := build/unproved/pbook

# What is put in place beside the program. It lies where the gate reads it.
INSTALLED := crates/worked_examples/data/installed

# What is put in share/pbook: files for users' own games, to be read and to be run.
SHARED_FILES := examples/games.pgn tools/pbook.service
SHARED_SCRIPTS := $(addprefix tools/,client.py serve.py nightly pgn_to_book pgn_to_lines table_from_polyglot)

# Ends a goal that needs the toolchain where that isn't there.
WANTS_TOOLCHAIN = command -v rt > /dev/null || { \
    echo "make: $@ needs the Rattle toolchain, whose command rt is not on PATH"; exit 1; }

# The program that tests and measurements run. The gate leaves it there.
EXAMPLES := crates/worked_examples/out/worked_examples

.PHONY: build unproved install dist demo theorem check dev test test-bodies test-hostile test-files \
    test-order test-locks test-messages test-memory test-growths test-io test-noise test-replies \
    test-completions test-examples test-dist test-journal test-crashes test-definitions \
    test-wrong-programs bench clean

build: build/pbook

build/pbook: $(SOURCES) scripts/build.sh
	@$(WANTS_TOOLCHAIN)
	@sh scripts/build.sh pbook

# Builds the same source without proof, with a check in the place of each, in a minute or two.
# Nothing is proved.
unproved: $(UNPROVED)

$(UNPROVED): $(SOURCES) scripts/unproved.sh scripts/lib/unproved.sh
	@$(WANTS_TOOLCHAIN)
	@sh scripts/unproved.sh

# Puts the program that stands, its manual page, its completions for bash, zsh and fish, and what
# converts games, in place. It makes no program.
install:
	@[ -x '$(PROGRAM)' ] || { echo 'make: no program stands at $(PROGRAM).' \
	    'First run make, which proves and builds build/pbook.'; exit 1; }
	install -D -m 755 '$(PROGRAM)' '$(DESTDIR)$(PREFIX)/bin/pbook'
	install -D -m 644 $(INSTALLED)/pbook.1 '$(DESTDIR)$(PREFIX)/share/man/man1/pbook.1'
	install -D -m 644 $(INSTALLED)/pbook.bash '$(DESTDIR)$(PREFIX)/share/bash-completion/completions/pbook'
	install -D -m 644 $(INSTALLED)/_pbook '$(DESTDIR)$(PREFIX)/share/zsh/site-functions/_pbook'
	install -D -m 644 $(INSTALLED)/pbook.fish '$(DESTDIR)$(PREFIX)/share/fish/vendor_completions.d/pbook.fish'
	install -d '$(DESTDIR)$(PREFIX)/share/pbook'
	install -m 644 $(SHARED_FILES) '$(DESTDIR)$(PREFIX)/share/pbook'
	install -m 755 $(SHARED_SCRIPTS) '$(DESTDIR)$(PREFIX)/share/pbook'

# Packs what `make install` puts in place, with the documents and examples, as
# build/pbook-VERSION-x86_64-linux.tar.gz, beside its checksum.
dist: $(PROGRAM)
	@sh scripts/dist.sh

# The main job on the bundled examples, with all comparisons: by the proved program where it stands,
# else by that of `make unproved`, which it leaves.
demo:
	@sh examples/demo.sh

# Prints the contract of the call that `pbook collect` makes, the definitions that its theorem rests
# on, in reading order, then those that its laws rest on besides, and how much that is.
theorem:
	@python3 -B scripts/theorem.py

# Builds the program once without proof, with a check in the place of each, and tries it in a few
# minutes. Nothing is proved. PATIENCE=seconds has a check wait so long, which is 300 else.
check:
	@$(WANTS_TOOLCHAIN)
	@sh scripts/check.sh

# Leaves the library of each crate where `rt check` takes it. What `make`, `make test` or `rt ci` has
# proved on this machine is fetched in seconds, and the rest is proved.
dev:
	@$(WANTS_TOOLCHAIN)
	@sh scripts/build.sh $(patsubst crates/%/src/lib.rt,%,$(wildcard crates/*/src/lib.rt))

# The gate: tries the program without proof, proves every crate from nothing, runs what the programs
# print, and has the prover refuse each wrong body. The last line tells how much of it passed.
test:
	@$(WANTS_TOOLCHAIN)
	@sh scripts/test.sh

# Has the prover refuse the wrong bodies of crates/*/bodies, many in a run, as the gate does.
# CRATE=pb_io tries those of one crate.
test-bodies:
	@$(WANTS_TOOLCHAIN)
	@scripts/bodies.py $(CRATE)

# All that is tried of the program in a hostile world, but for collectors that are killed on their
# journal, and for crashes; and what shellcheck says of the scripts. PROGRAM=program tries another
# than build/pbook. WRONG_PROGRAMS=1 tries too that wrong programs are seen, which takes some
# minutes more.
test-hostile: test-files test-order test-locks test-messages test-memory test-growths test-io \
    test-noise test-replies test-completions test-examples test-dist \
    $(if $(WRONG_PROGRAMS),test-wrong-programs)
	@sh tests/shellcheck.sh

# Tries what is left of a book's file by full disks, links, missing permissions, and runs that are
# killed at each call.
test-files: build
	@sh tests/files.sh

# Compares the order of the system's calls, and so what a power cut can lose, with the one due.
test-order: build
	@sh tests/order.sh

# Tries runs over one file at a time, files that other programs change meanwhile, files named as
# drafts of others, and closed standard streams.
test-locks: build
	@sh tests/locks.sh

# Tries what is told on standard error.
test-messages: build
	@sh tests/messages.sh

# Builds programs with the mistakes of tests/wrong_programs/, which proofs let pass, and tries that
# the check which each mistake names sees it. A program takes a minute or two.
test-wrong-programs:
	@$(WANTS_TOOLCHAIN)
	@sh tests/wrong_programs.sh

# Refuses each growth of memory of each command in turn, and looks at what is put and what is left
# of the files.
test-memory: build
	@sh tests/memory.sh

# Refuses each growth of memory of the library's calls in turn, and looks at what they answer.
test-growths: $(EXAMPLES)
	@sh tests/growths.sh

# Fails each read, write and sync of each command in turn, or has it move one byte alone, and looks
# at the same.
test-io: build
	@sh tests/io.sh

# Runs each command on examples, random bytes, and packed and cut files, with AddressSanitizer and
# checks in place of proofs.
test-noise:
	@$(WANTS_TOOLCHAIN)
	@sh tests/noise.sh

# Tries that each answer has gone out before the next line is waited for.
test-replies: build
	@sh tests/replies.sh

# Has bash, zsh and fish complete words of command lines, as far as they are installed.
test-completions:
	@sh tests/completions.sh

# Runs the scripts of tools/, and what they do at faults. KILLS=number kills so many
# nights and services.
test-examples: $(PROGRAM)
	@sh tests/examples.sh

# Unpacks what `make dist` packs in an empty folder, follows the links of its documents, and makes
# a book there.
test-dist: $(PROGRAM)
	@sh tests/dist.sh

# Runs the example of two workers, whose collector is killed once; then kills collectors at random
# moments, starts them again on their journal, and compares what they answered.
test-journal: build
	@sh examples/workers.sh
	@sh tests/journal.sh

# Tries what kills and power cuts may leave of the files of `collect`, by a model of a file system
# over the calls that strace tells, and goes on over each state. As root it takes ext4 and XFS on a
# disk that loses what wasn't flushed too. SEED=number draws other states. A rename is taken to be
# whole, as on file systems with a journal.
test-crashes: $(PROGRAM)
	@PROGRAM='$(PROGRAM)' python3 -B tests/crashes.py --whole-renames \
	    $(if $(SEED),--seed $(SEED))

# Runs the definitions of chess, FEN, keys and codes in Python, and compares what they say of setups
# with what Stockfish and the program say. It fails where a definition has changed that it follows.
# Then it is tried that this fails over programs that answer wrong.
# TIMES=number tries so many times as much, SEED=number other setups.
test-definitions: $(PROGRAM)
	@PROGRAM='$(PROGRAM)' python3 -B tests/definitions.py $(if $(TIMES),--times $(TIMES)) \
	    $(if $(SEED),--seed $(SEED))
	@PROGRAM='$(PROGRAM)' sh tests/wrong_answers.sh

# Compares counts of sequences of moves with published ones, and legal moves, FENs and keys with
# those of other programs; times playing moves and the commands, and compares a book with PolyGlot's
# own.
bench: build $(EXAMPLES)
	@sh bench/sequences.sh
	@sh bench/legal_moves.sh
	@sh bench/moves.sh
	@sh bench/epd.sh
	@sh bench/books.sh
	@sh bench/collect.sh
	@sh bench/counts.sh
	@sh bench/journal.sh
	@sh bench/same_entries.sh
	@sh bench/export.sh

# Running worked_examples proves and builds it, and ends for want of rows.
$(EXAMPLES): $(SOURCES) $(wildcard crates/rows/src/*.rt crates/topics/src/*.rt crates/worked_examples/src/*.rt)
	@$(WANTS_TOOLCHAIN)
	@mkdir -p build
	@rm -f $@
	@cd crates/worked_examples && { rt run > ../../build/bench.log 2>&1 < /dev/null || \
	    [ -x out/worked_examples ] || { cat ../../build/bench.log; exit 1; }; }

clean:
	rm -rf build crates/*/out
