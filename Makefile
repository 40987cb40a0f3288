# make look   the program on the sample within seconds, with nothing proved
# make run    decode a record: the sample, or the file RECORD names
# make log    print the page of result records for the shift log: of stored ones, or of the file RESULTS names
# make test   prove everything and compare the library and the program with the references
# make test-floats  all 2^32 bit patterns of a float through the quantiser, against a second rounding
# make hosts  build the library and the tools make_record, decode_stream and run_load, and run the example hosts
#             written in C
# make load   the speed of this box on test loads, and the checksums by which boxes are compared; STATE, BLOCKS,
#             THREADS and CODES name others than the usual ones, as in make load CODES="polar64 polar256" BLOCKS=4000
# make bench  speed and instructions a block, a job record, a test load, a result record, a block of samples and a
#             list of words
# make stored-records  what decode_records reads and must print, made again by the second reader and decoder
# make clean

SHELL = /bin/bash
.SHELLFLAGS = -o pipefail -c

CC = cc
CFLAGS = -std=c11 -O2 -Wall -Wextra -Werror
# tests/run-all compiles with these too.
export CC CFLAGS

LIBRARY = target/staticlib/libcaldurrex.a
PROGRAM = target/bin/decode_job
LOG = target/bin/shift_log
OUT = target/c
PROVED = crates.txt $(shell find crates -name out -prune -o \( -name '*.rt' -o -name '*.antt' \) -print)

# The sample record of the rules, as bytes.
RECORD = crates/decode_job/stdin

# Result records back to back: those that the stored page is of.
RESULTS = crates/shift_log/stdin

HOSTS = encode_extract decode_block display_early near_misses read_record read_result decode_samples decode_links

# Hosts that take settings as arguments, or records from standard input: they are built, and not run, by make hosts.
TOOLS = make_record decode_stream run_load

# What make load runs; where a setting is not named, it is the tool's usual one.
CODES = conv64 conv256 conv1024
SETTINGS = $(STATE:%=state=%) $(BLOCKS:%=blocks=%) $(THREADS:%=threads=%)

.PHONY: look run log test test-floats hosts load bench stored-records clean

# rt try takes the sources as they are: it asks for no proof.
look:
	@echo 'The program on the sample, interpreted, and compiled with checks. Nothing is proved by it: only what make run and'
	@echo 'make test prove is ours.'
	@mkdir -p target
	@(cd crates/decode_job && rt try) <crates/decode_job/stdin >target/look.out 2>target/look.log \
		|| { cat target/look.log >&2; exit 1; }
	@cmp target/look.out crates/decode_job/stdout
	@echo 'It printed what crates/decode_job/stdout has:'
	@cat target/look.out

run: $(PROGRAM)
	@$(PROGRAM) < $(RECORD)

log: $(LOG)
	@$(LOG) < $(RESULTS)

test:
	tests/run-all

test-floats: $(OUT)/compare_floats
	$(OUT)/compare_floats

hosts: $(HOSTS:%=$(OUT)/%) $(TOOLS:%=$(OUT)/%)
	for host in $(HOSTS); do $(OUT)/$$host || exit 1; done

# The last is what the box's figure is for.
load: $(OUT)/run_load
	@for code in $(CODES); do $(OUT)/run_load code=$$code $(SETTINGS) || exit 1; echo; done
	@$(OUT)/run_load code=conv256 list=8 $(SETTINGS)

bench: $(OUT)/bench_codec $(OUT)/bench_decoder $(OUT)/bench_records $(OUT)/bench_results $(OUT)/bench_samples \
	$(OUT)/bench_words
	$(OUT)/bench_codec
	bench/instructions $(OUT)/bench_codec
	$(OUT)/bench_decoder
	bench/instructions_decoder $(OUT)/bench_decoder
	$(OUT)/bench_records
	bench/instructions_records $(OUT)/bench_records
	$(OUT)/bench_results
	bench/instructions_results $(OUT)/bench_results
	$(OUT)/bench_samples
	bench/instructions_samples $(OUT)/bench_samples
	$(OUT)/bench_words
	bench/instructions_words $(OUT)/bench_words

# The second encoder and extractor, the second decoder, and what draws codes.
CODEC = tests/reference_codec.c tests/reference_transform.c
PAPER = tests/paper_decoder.c tests/paper_score.c tests/arikan_score.c
DRAWN = tests/pairs.c tests/draw.c $(CODEC)
CODEC_HEADERS = tests/reference_codec.h tests/reference_transform.h
PAPER_HEADERS = tests/paper_decoder.h tests/paper_score.h
DRAWN_HEADERS = tests/pairs.h tests/draw.h $(CODEC_HEADERS)

# Without the library: what the proved decoder must print owes it nothing.
RECORDS = tests/make_records.c tests/reference_job.c $(PAPER) $(CODEC)
RECORDS_HEADERS = tests/record_plan.h tests/reference_job.h $(PAPER_HEADERS) $(CODEC_HEADERS)

stored-records: $(OUT)/make_records
	$(OUT)/make_records records >crates/decode_records/stdin
	$(OUT)/make_records rows >$(OUT)/rows.txt
	cp $(OUT)/rows.txt crates/decode_records/stdout

clean:
	rm -rf target

$(PROGRAM): $(PROVED)
	@tests/build program decode_job

$(LOG): $(PROVED)
	@tests/build program shift_log

$(LIBRARY): $(PROVED)
	@tests/build library caldurrex

# What a host has beside its own file.
$(OUT)/make_record $(OUT)/decode_stream: examples/settings.c examples/settings.h
$(OUT)/run_load: examples/load_round.c examples/load_threads.c examples/settings.c examples/load_round.h \
	examples/load_threads.h examples/settings.h

$(HOSTS:%=$(OUT)/%) $(TOOLS:%=$(OUT)/%): $(OUT)/%: examples/%.c include/caldurrex.h $(LIBRARY)
	@mkdir -p $(OUT)
	$(CC) $(CFLAGS) -pthread -Iinclude -o $@ $(filter %.c,$^) $(LIBRARY)

BENCH = bench/bench_codec.c $(DRAWN)

$(OUT)/bench_codec: $(BENCH) include/caldurrex.h $(DRAWN_HEADERS) $(LIBRARY)
	@mkdir -p $(OUT)
	$(CC) $(CFLAGS) -Iinclude -Itests -o $@ $(BENCH) $(LIBRARY)

BENCH_DECODER = bench/bench_decoder.c bench/plain_decoder.c $(DRAWN)
BENCH_HEADERS = bench/plain_decoder.h bench/plain_tables.h bench/plain_transform.h include/caldurrex.h \
	$(DRAWN_HEADERS)

# The plain C decoder is compiled for speed, or the comparison would not be fair.
$(OUT)/bench_decoder: $(BENCH_DECODER) $(BENCH_HEADERS) $(LIBRARY)
	@mkdir -p $(OUT)
	$(CC) $(CFLAGS) -O3 -Iinclude -Itests -o $@ $(BENCH_DECODER) $(LIBRARY)

BENCH_RECORDS = bench/bench_records.c tests/decoder_calls.c tests/codec_calls.c tests/reference_load.c \
	tests/reference_writer.c tests/reference_job.c $(PAPER) $(DRAWN)
BENCH_RECORDS_HEADERS = tests/decoder_calls.h tests/codec_calls.h tests/reference_load.h tests/reference_writer.h \
	tests/reference_job.h include/caldurrex.h $(PAPER_HEADERS) $(DRAWN_HEADERS)

$(OUT)/bench_records: $(BENCH_RECORDS) $(BENCH_RECORDS_HEADERS) $(LIBRARY)
	@mkdir -p $(OUT)
	$(CC) $(CFLAGS) -Iinclude -Itests -o $@ $(BENCH_RECORDS) $(LIBRARY)

BENCH_RESULTS = bench/bench_results.c tests/reference_result.c tests/draw.c
BENCH_RESULTS_HEADERS = tests/reference_result.h tests/reference_writer.h tests/reference_codec.h tests/draw.h \
	include/caldurrex.h

$(OUT)/bench_results: $(BENCH_RESULTS) $(BENCH_RESULTS_HEADERS) $(LIBRARY)
	@mkdir -p $(OUT)
	$(CC) $(CFLAGS) -Iinclude -Itests -o $@ $(BENCH_RESULTS) $(LIBRARY)

BENCH_SAMPLES = bench/bench_samples.c bench/plain_quantise.c tests/draw.c

# Here too the plain C loop is compiled for speed: with -fno-math-errno its lrintf is one instruction, and without it a
# call. -lm is for a compiler that calls it all the same.
$(OUT)/bench_samples: $(BENCH_SAMPLES) bench/plain_quantise.h include/caldurrex.h tests/draw.h $(LIBRARY)
	@mkdir -p $(OUT)
	$(CC) $(CFLAGS) -O3 -fno-math-errno -Iinclude -Itests -o $@ $(BENCH_SAMPLES) $(LIBRARY) -lm

BENCH_WORDS = bench/bench_words.c bench/plain_words.c $(DRAWN)
BENCH_WORDS_HEADERS = bench/plain_words.h bench/plain_transform.h include/caldurrex.h $(DRAWN_HEADERS)

# So is the plain C program here.
$(OUT)/bench_words: $(BENCH_WORDS) $(BENCH_WORDS_HEADERS) $(LIBRARY)
	@mkdir -p $(OUT)
	$(CC) $(CFLAGS) -O3 -Iinclude -Itests -o $@ $(BENCH_WORDS) $(LIBRARY)

FLOATS = tests/compare_floats.c tests/float_check.c tests/float_sweep.c tests/float_modes.c tests/reference_quantise.c \
	tests/lent.c tests/draw.c
FLOATS_HEADERS = tests/float_check.h tests/float_sweep.h tests/float_modes.h tests/reference_quantise.h tests/lent.h \
	tests/draw.h include/caldurrex.h

$(OUT)/compare_floats: $(FLOATS) $(FLOATS_HEADERS) $(LIBRARY)
	@mkdir -p $(OUT)
	$(CC) $(CFLAGS) -pthread -Iinclude -Itests -o $@ $(FLOATS) $(LIBRARY) -lm

$(OUT)/make_records: $(RECORDS) $(RECORDS_HEADERS)
	@mkdir -p $(OUT)
	$(CC) $(CFLAGS) -Itests -o $@ $(RECORDS)
