# make run:     file a sample book, or BOOK=FILE, and print its template; with SET=1, the words of one of its sets, counted from 0; with
#               SETTINGS=1, how many settings of that set's marks lead to each verdict.
# make test:    the gate, .ci/run.
# make samples: write the books of leverage_samples and the lines expected of it, from the seed.
# make model:   check the implementation in compare/ by itself, and that those files are the ones it writes.
# make printing: hold the printing program to that implementation, on the books in compare/books and on bad input.
# make compare: file a million generated books, show their sets and count the settings of some, through the static library and through that
#               implementation.
# make example: build and run include/example.c and the two callers in README.md.
# make bench:   time the library and Rust on the same books, a set that is shown and settings that are counted beside a filing, and the
#               weighted add-on in three ways.
BOOK = compare/books/sample.txt
BOOKS = 1000000
SEED = 1
SAMPLES = 4000
CARGO = cd compare && cargo build -q --release --offline
MODEL = target/model/release/compare
COMPARE = target/compare/release/compare
PRINT = crates/leverage_print/out/leverage_print
# What `rt lib` builds stays in each crate's out/; callers find both archives in one folder.
ARCHIVES = target/staticlib
ARCHIVE = $(ARCHIVES)/libleverage.a

.PHONY: run test samples model printing compare example bench printer second library
ifdef SETTINGS
run: library
	@$(COMPARE) settings $(BOOK) $(SETTINGS)
else ifdef SET
run: library
	@$(COMPARE) set $(BOOK) $(SET)
else
run: second printer
	@$(MODEL) text $(BOOK) > target/input
	@cat $(BOOK)
	@echo
	@$(PRINT) < target/input
endif

test:
	@.ci/run

samples: second
	@$(MODEL) samples $(SAMPLES) $(SEED) crates/leverage_samples

model: second
	@cd compare && cargo test -q --release --offline --target-dir ../target/model
	@$(MODEL) selftest 100000 $(SEED)
	@$(MODEL) samples $(SAMPLES) $(SEED) target/samples
	@cmp target/samples/data/books crates/leverage_samples/data/books
	@cmp target/samples/stdout crates/leverage_samples/stdout

# Both printing programs on the same input: books, bytes that are none, as many words as there is room for and one more.
ROOM = 16384
HEAD_AND_END = 4
SAME = $(PRINT) < target/input > target/printed && $(MODEL) print < target/input | cmp - target/printed
printing: second printer
	@for book in compare/books/*.txt; do $(MODEL) text $$book > target/input && $(SAME) || exit 1; done
	@for size in 0 3 8 65536 65537 65540; do head -c $$size /dev/zero > target/input && $(SAME) || exit 1; done
	@for more in 0 1; do (echo tier1 1; echo date 2096-03-01; yes financing | head -n $$(($(ROOM) - $(HEAD_AND_END) + more))) > target/full.txt && $(MODEL) text target/full.txt > target/input && $(SAME) || exit 1; done

compare: library
	@$(COMPARE) compare $(BOOKS) $(SEED)

example: library
	@sed -n '/^```c$$/,/^```$$/{/^```/d;p;}' README.md > target/readme.c
	@sed -n '/^```rust$$/,/^```$$/{/^```/d;p;}' README.md > target/readme.rs
	@for c in include/example.c target/readme.c; do cc -Wall -Werror -Iinclude $$c $(ARCHIVE) -o target/caller && target/caller || exit 1; done
	@rustc -D warnings -L $(ARCHIVES) target/readme.rs -o target/caller && target/caller

bench: library
	@$(COMPARE) bench

printer:
	@test -x $(PRINT) || echo "proving leverage_print: some minutes, once" >&2
	@cd crates/leverage_print && { rt run < stdin > /dev/null 2>&1 || rt run < stdin; }

# The implementation in compare/ alone, and with the library and the benchmark's archive.
second:
	@$(CARGO) --target-dir ../target/model

library:
	@for crate in leverage addon_bench; do (cd crates/$$crate && { rt lib > /dev/null 2>&1 || rt lib; }) || exit 1; done
	@mkdir -p $(ARCHIVES) && cp -p crates/leverage/out/libleverage.a crates/addon_bench/out/libaddon_bench.a $(ARCHIVES)
	@LEVERAGE_LIB="$(CURDIR)/$(ARCHIVES)" && export LEVERAGE_LIB && $(CARGO) --features library --target-dir ../target/compare
