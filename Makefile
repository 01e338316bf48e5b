# make run: prove, build, plan the sample sets and print the answers. make test: the gate, whose last line is 'N passed, 0 failed'.
# make compare: random lines through the compiled programs, the calls from C and the second program; SEED=.. and COUNT=.. may be given.
# make from-c: the compiled calls, tried from C. make sanitize: the same under the sanitizers and valgrind.
# make install: the library for C, to PREFIX=.. (target/install if it is missing), under DESTDIR=.. if that is given. make executive: the examples.
# make pin: small changes of the rules' definitions, tried one by one: the values and proofs of the crate `rules` itself must refuse each.
KIT := rattle-kit-13f logic dac8208d650f15bf
PREFIX := $(CURDIR)/target/install

.PHONY: run test compare from-c sanitize pin library install executive bench kit plan calls

kit:
	@command -v rt >/dev/null || { echo "rt is missing: install the Rattle kit ($(KIT)) and put its bin/ on PATH"; exit 1; }
	@found="$$(rt version)"; test "$$found" = "$(KIT)" || echo "note: this kit is '$$found'; the proofs were last seen with '$(KIT)'"

# the programs, proved and built: target/bin/plan and target/bin/calls
plan calls: kit
	@scripts/build program $@

# each set: what it is, its line, its answer line, and the table or the refusal in words
run: plan
	@scripts/x86-64 run target/bin/plan <examples/sets.hex >target/sets.out
	@scripts/show examples/sets.hex examples/sets.txt target/sets.out

# target/staticlib/libaurhennig.a, proved and compiled: the static library aurhennig_c, which exports the calls of the crate aurhennig
library: kit
	@scripts/build library aurhennig_c libaurhennig.a

install: library
	@scripts/install "$(PREFIX)" "$(DESTDIR)"

# the C example over the archive, the Python example over the installed shared library
executive: install
	@scripts/x86-64 cc -std=c99 -O2 -Wall -Wextra -pedantic -Iinclude -o target/executive examples/executive.c target/staticlib/libaurhennig.a
	@scripts/x86-64 run target/executive
	@scripts/x86-64 python examples/executive.py "$(DESTDIR)$(PREFIX)/lib/libaurhennig.so"

bench: library plan calls
	@bench/run

# What is cheap comes first. The kit needs no network, and so the gate needs none: where no C for x86-64 can be had, the calls from C are left out,
# and it says so. The last line is once more that of rt ci.
test: kit
	@second/judge-stored
	@scripts/gate
	@if scripts/x86-64 ready; then $(MAKE) --no-print-directory from-c; else echo "from-c: left out, the calls from C are not tried"; fi
	@tail -n 1 target/ci.log

compare: plan calls library
	@second/compare "$(COUNT)" "$(SEED)"

# the compiled calls from C: the header alone, the stack's numbers, guarded calls; CALLS=.. and SEED=.. may be given
from-c: library
	@second/from-c test "$(CALLS)" "$(SEED)"

# the same calls under the sanitizers, and under valgrind where it can run them
sanitize: library
	@second/from-c sanitize "$(CALLS)" "$(SEED)"

pin: kit
	@scripts/pin
