# The C side of the library: tests through the header, benchmark, example host, installation. The Makefile includes it.
#
#     make c-test [SANITIZE=1]     the tests of the archive (and, with SANITIZE, of their own memory use)
#     make bench [OLD=archive]     the benchmark, with clingo where it is installed, and beside an older archive of the library
#     make run [SHEET=file]        the example host on a sheet
#     make install PREFIX=dir      archive, header and pkg-config file
#
# ARCHIVE=file tests another archive with the same calls.
.PHONY: c-test bench run install

ifeq ($(origin CC),default)
CC := gcc
endif
ARCHIVE ?= target/staticlib/libnuntennis.a
SHEET ?= examples/sheets/circle.hex
PREFIX ?= /usr/local
C_VERSION ?= 0.1

C_OUT := target/c
C_FLAGS := -std=c11 -O2 -g -Wall -Wextra -Werror -Iinclude -Itests -Ibench -Iexamples
ifdef SANITIZE
C_OUT := target/c-sanitized
C_FLAGS += -fsanitize=address,undefined -fno-sanitize-recover=all
endif

C_BIN := $(C_OUT)/bin

C_SUPPORT := tests/calls tests/lent tests/random tests/oracle tests/policy
C_REFERENCE := bench/reference bench/tables
C_TESTS := test_calls test_random test_walk test_sheets test_large test_stack test_moves told_host

test_calls_PARTS := tests/test_calls $(C_SUPPORT)
test_random_PARTS := tests/test_random $(C_SUPPORT)
test_walk_PARTS := tests/test_walk $(C_SUPPORT)
test_sheets_PARTS := tests/test_sheets examples/sheet_file $(C_SUPPORT)
test_large_PARTS := tests/test_large bench/families $(C_REFERENCE) $(C_SUPPORT)
test_stack_PARTS := tests/test_stack bench/families tests/policy
test_moves_PARTS := tests/test_moves tests/random tests/policy
bench_PARTS := bench/bench bench/families bench/clingo $(C_REFERENCE) tests/policy
bench_beside_old_PARTS := $(bench_PARTS) old new
host_PARTS := examples/host examples/arguments examples/sheet_file
told_host_PARTS := tests/told_engine $(host_PARTS)

# Under the sanitizers stack frames are larger than the library's own, and calls go through their memcpy: neither stack nor paths are looked at. The
# listing program is rt's to make ('rt run <stdin' in crates/listing, and 'rt ci' too); SKIP_LISTING=1 passes without it.
c-test: $(C_TESTS:%=$(C_BIN)/%) $(C_BIN)/host
	$(C_BIN)/test_calls
	$(C_BIN)/test_random
	$(C_BIN)/test_walk
	$(C_BIN)/test_sheets examples/sheets/*.hex
	$(C_BIN)/test_large
	$(if $(SANITIZE),,$(C_BIN)/test_stack)
	$(if $(SANITIZE),,$(C_BIN)/test_moves)
	tests/test_loops.sh $(ARCHIVE)
	$(C_BIN)/host examples/sheets/office.hex
	tests/test_host.sh $(C_BIN)/host $(C_BIN)/told_host $(if $(SANITIZE),sanitized)
	tests/test_listing.sh $(if $(SKIP_LISTING),--may-skip) crates/listing/out/listing

bench: $(C_BIN)/$(if $(OLD),bench_beside_old,bench)
	$<

# Two archives in one program: the decision is the only name of each, the older one's another. Functions begin at multiples of 64 bytes, so that both lie
# alike for the processor however they are linked. Made anew each time, since OLD may be another one.
ALONE = ld -r --whole-archive $(1) -o $@ && objcopy --set-section-alignment '.text.*=64' --redefine-sym nuntennis_grounded=$(2) --keep-global-symbol=$(2) $@
.PHONY: $(C_OUT)/old.o $(C_OUT)/new.o
$(C_OUT)/old.o:
	@mkdir -p $(@D)
	@$(call ALONE,$(OLD),old_grounded)
$(C_OUT)/new.o: $(ARCHIVE)
	@mkdir -p $(@D)
	@$(call ALONE,$(ARCHIVE),nuntennis_grounded)

# The host's status is 1 for no and 2 for refused: neither is a fault of the run.
run: $(C_BIN)/host
	@$(C_BIN)/host $(SHEET) || [ $$? -le 2 ]

install: $(ARCHIVE)
	install -d $(DESTDIR)$(PREFIX)/lib/pkgconfig $(DESTDIR)$(PREFIX)/include
	install -C -m 644 $(ARCHIVE) $(DESTDIR)$(PREFIX)/lib/libnuntennis.a
	install -C -m 644 include/nuntennis.h $(DESTDIR)$(PREFIX)/include/nuntennis.h
	sed -e 's|@PREFIX@|$(PREFIX)|' -e 's|@VERSION@|$(C_VERSION)|' nuntennis.pc.in > $(DESTDIR)$(PREFIX)/lib/pkgconfig/nuntennis.pc

# Made anew where a file of its crates is newer, or one was added or removed. A crate's own folder also has what rt keeps there.
ARCHIVE_CRATES := $(shell scripts/needed nuntennis)
ARCHIVE_FOLDERS := $(foreach c,$(ARCHIVE_CRATES),$(wildcard crates/$c/src crates/$c/specs crates/$c/proofs))
target/staticlib/libnuntennis.a: crates.txt $(shell find $(ARCHIVE_FOLDERS) -name '*.rt' -o -name '*.antt' -o -type d)
	@scripts/archive

define C_PROGRAM
$(C_BIN)/$(1): $$($(1)_PARTS:%=$(C_OUT)/%.o) $(ARCHIVE)
	@mkdir -p $$(@D)
	@$$(CC) $$(C_FLAGS) $$^ -pthread -ldl -o $$@
endef
$(foreach p,$(C_TESTS) bench bench_beside_old host,$(eval $(call C_PROGRAM,$(p))))

$(C_REFERENCE:%=$(C_OUT)/%.o): C_FLAGS += -O3

$(C_OUT)/%.o: %.c
	@mkdir -p $(@D)
	@$(CC) $(C_FLAGS) -MMD -c $< -o $@

-include $(wildcard $(C_OUT)/*/*.d)
