# make run    the script program: a call script on standard input, a line for each answer on standard output
# make test   the gate: rt ci (proofs, must-fail edits, programs), the edits of refused/, and every comparison
# make compare far more comparisons of the readers with the Rust crate than the gate makes; SEED=0x1234 draws others
# make mutants wrong bodies of every crate, which the prover has to refuse; N=200 SEED=1 CRATE=word FILE=.. FUNCTION=.. (wants Python 3)
# make boundary-valgrind, boundary-sanitize
#             arbitrary arguments through every function from C, as the gate does it, watched by valgrind or by sanitizers
# make fuzz   the same checks under libFuzzer (wants clang), for a minute
# make replay the recorded answers of the Rust crate, through the proved library and the script program
# make bench  the library and the script program beside the Rust crate, and the catalogue beside a Rust map, from one driver
# make growth how the cost of a take to the end grows with the length of its cell
# make lib    target/staticlib/libexport.a, for Rust and C to link (header: include/pawhetino.h)

RT := $(shell tools/find-rt)
PAWHETINO_LIB ?= target/staticlib/libexport.a

.PHONY: run test compare mutants boundary-valgrind boundary-sanitize fuzz replay bench growth lib harness record always

# What is said while the program is built goes to standard error: standard output is the script's.
run: target/bin/script
	@target/bin/script

# rt tells whether anything has changed since.
target/bin/script target/bin/vectors: always
	@tools/build $(@F)

test:
	@tools/gate

replay: target/bin/vectors target/bin/script
	@$(call keep,target/replay,target/bin/vectors < crates/vectors/stdin)
	cmp target/replay crates/vectors/stdout
	tools/replay-scripts target/bin/script harness/scripts.txt

lib: target/staticlib/libexport.a

# It is proved again only where one of the files that it is made of has changed, or a folder has one more or less.
target/staticlib/libexport.a: $(RT) crates.txt $(shell find $(foreach crate,word reader cells catalogue export,$(wildcard $(addprefix crates/$(crate)/,src specs proofs))))
	@tools/build export

harness: lib
	harness/build

# Some minutes. The seed is printed, and without SEED always the same.
compare: harness
	target/harness/harness compare $(SEED)

# Minutes: some ten seconds a mutant on two cores, and each crate is proved in a copy first.
mutants:
	@tools/need-rt
	tools/test/test-mutants
	$(RT) all check
	tools/mutants --n $(or $(N),40) --seed $(or $(SEED),1) --crate '$(CRATE)' --file '$(FILE)' --function '$(FUNCTION)'

# Fewer inputs than in the gate: a function takes some twenty times as long here.
boundary-valgrind: lib
	harness/boundary/build target/boundary-valgrind -g
	valgrind -q --error-exitcode=1 target/boundary-valgrind --heap --rounds 40000
	valgrind -q --error-exitcode=1 target/boundary-valgrind --rounds 40000

# The sanitizers watch the C alone: the library is not built with them.
boundary-sanitize: lib
	harness/boundary/build target/boundary-sanitize -g -fsanitize=address,undefined -fno-sanitize-recover=all
	target/boundary-sanitize --heap
	target/boundary-sanitize

fuzz: lib
	clang -std=gnu11 -O1 -g -Wall -Wextra -Werror -fsanitize=fuzzer -Iinclude \
		$(addprefix harness/boundary/,fuzz.c lay.c checks.c lent.c due.c run.c words.c calls.c run_ends.c rows.c catalogue.c) \
		$(PAWHETINO_LIB) -o target/fuzz
	target/fuzz -seed=$(or $(SEED),1) -max_total_time=60 -print_final_stats=1 -artifact_prefix=target/fuzz-

# keep FILE,COMMAND: prints what the command prints, keeps it in the file too, and fails where the command does.
keep = $(2) > $(1); status=$$?; cat $(1); exit $$status

# tools/put-figures puts what these keep into docs/BENCHMARKS.md.
bench: harness target/bin/script
	@$(call keep,target/bench.md,target/harness/harness bench --chart docs/benchmarks.svg)
	@$(call keep,target/bench-catalogue.md,target/harness/harness bench-catalogue)
	@$(call keep,target/bench-script.md,target/harness/harness bench-script)

growth: harness
	@$(call keep,target/growth.md,target/harness/harness growth --chart docs/growth.svg)

# Writes the recorded answers anew, from the Rust crate.
record: harness
	target/harness/harness record > crates/vectors/stdin
	target/harness/harness scripts > harness/scripts.txt
