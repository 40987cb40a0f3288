/*
 * A tool that decodes job records: it reads them one behind the other from standard input and
 * writes the result record of each to standard output before it reads the next. So a program that
 * writes records into a pipe can wait for the result of one before it writes another. Whatever is
 * wrong is told in one line on standard error, which counts the records from 1; the status is then
 * 1, and the results of the records before have been written.
 *
 * Nothing in front of a record says how long it is: its first bytes do. The tool reads no byte
 * past the record, and of one that is refused none past the part that it is refused for.
 *
 * Build, from the repository's top, after `make target/staticlib/libcaldurrex.a`:
 *
 *   cc -std=c11 -Iinclude examples/decode_stream.c examples/settings.c target/staticlib/libcaldurrex.a
 */
#define _POSIX_C_SOURCE 200809L /* read, ssize_t */
#include "caldurrex.h"
#include "settings.h"

#include <errno.h>
#include <inttypes.h>
#include <signal.h>
#include <stdio.h>
#include <string.h>
#include <unistd.h>

enum { MAX_N = 1024, MAX_LIST = 32, MAX_PAIRS = 256 };

/* The record in hand, and what the reader makes of it. */
static uint8_t record[CALDURREX_RECORD_BYTES];
static uint8_t map[MAX_N / 8], pairs[4 * MAX_PAIRS];
static int16_t soft[MAX_N];

/* Lent to the decoder for every block, as much of it as the block needs. An accepted call leaves
 * the tables zero, and of the outputs only the block's own rows are taken. */
static uint32_t numbers[CALDURREX_NUMBERS(MAX_N, MAX_LIST)];
static uint8_t bytes[CALDURREX_BYTES(MAX_N, MAX_LIST)];
static uint8_t inputs[CALDURREX_ROWS(MAX_N, MAX_LIST)], words[CALDURREX_ROWS(MAX_N, MAX_LIST)];
static int32_t scores[MAX_LIST];

static void flush(void)
{
    if (fflush(stdout) != 0 || ferror(stdout))
        die("standard output cannot be written (%s); give it a place that takes the results", strerror(errno));
}

static int show_usage(FILE *to)
{
    fputs("usage: decode_stream < JOBS > RESULTS, with no argument, for the result records of job records\n"
          "The job records come from standard input, one behind the other, and the result of each goes to standard\n"
          "output before the next is read. For example:\n"
          "  make_record m=2 list=2 frozen=0,1 soft=5,-3,2,7 | decode_stream > sample.result\n", to);
    if (to == stdout)
        flush();
    return to == stdout ? 0 : 1;
}

/* ---- reading */

/* So many bytes of standard input, however it delivers them; fewer only where it ends. */
static size_t take(uint8_t *to, size_t len)
{
    size_t taken = 0;
    while (taken < len) {
        ssize_t more = read(STDIN_FILENO, to + taken, len - taken);
        if (more < 0 && errno != EINTR)
            die("standard input cannot be read (%s); give the job records there", strerror(errno));
        if (more == 0)
            break;
        taken += more > 0 ? (size_t)more : 0;
    }
    return taken;
}

/* 1 if the map of fields names the one of this bit. */
static size_t stands(unsigned bit)
{
    return record[0] >> bit & 1;
}

/* Where the next part of the record ends, as far as its first len bytes tell: the map of fields
 * is a part, m is one, all up to the frozen map and the number of pairs is one, and the rest is
 * the last. Of a whole record it is len. */
static size_t part_end(size_t len)
{
    if (len < 2)
        return len + 1;
    size_t n = (size_t)1 << record[1];
    size_t head = 2 + stands(0) + 2 * stands(1) + 4 * stands(2) + (n + 7) / 8 + 2 * stands(3);
    if (len < head)
        return head;
    size_t count = stands(3) ? record[head - 2] + 256u * record[head - 1] : 0;
    return head + 4 * count + 2 * n;
}

/* Reads the next record, part by part, and what the library says of it; 0 if there is none. The
 * library refuses the first parts of a record with 13 as long as nothing else is wrong with them,
 * so with every other answer there is no more to read. */
static int next_job(struct caldurrex_job *job)
{
    size_t len = 0, end = part_end(0);
    do {
        len += take(record + len, end - len);
        *job = caldurrex_read_job(record, len, map, sizeof map, soft, sizeof soft / sizeof soft[0],
                                  pairs, sizeof pairs);
        if (len < end || job->refusal != CALDURREX_BAD_RECORD_LENGTH)
            break;
        end = part_end(len);
    } while (len < end);
    return len > 0;
}

/* What is wrong with a record that is refused, and what to do. */
static const char *reason(uint32_t refusal)
{
    switch (refusal) {
    case CALDURREX_BAD_M: return "its m is out of range; give m from 2 to 10, for n = 2^m positions";
    case CALDURREX_BAD_MAP_BIT: return "a bit past n of its frozen map is 1; give 0 there";
    case CALDURREX_BAD_LIST_SIZE: return "its list size is out of range; give a list size from 1 to 32";
    case CALDURREX_BAD_STOP: return "its stop position is above n; give a stop position from 0 to n";
    case CALDURREX_BAD_SOFT_VALUE: return "a soft value is out of range; give n values from -2048 to 2047";
    case CALDURREX_BAD_RECORD_LENGTH: return "the input ends inside it; give whole records";
    case CALDURREX_BAD_FIELD_MAP: return "in its first byte a bit that names nothing is 1; give 0 for bits 5 to 7";
    case CALDURREX_BAD_PAIRS:
        return "its pairs break a rule; give at most 256, rising by f, then by e, each once, with f frozen and e "
               "below f";
    default: return "no record is refused with that; build this tool with that library";
    }
}

/* ---- results */

/* What was read is accepted wherever enough is lent, and so is what was decoded. */
_Noreturn static void refused(uint64_t number, const char *call, uint32_t refusal)
{
    die("record %" PRIu64 ": %s refuses with %lu, which cannot be; build this tool with that library", number, call,
        (unsigned long)refusal);
}

/* Decodes the record that was read last, and writes its result. */
static void serve(uint64_t number, const struct caldurrex_job *job)
{
    static uint8_t result[CALDURREX_RESULT_BYTES];
    size_t n = (size_t)1 << job->m, l = job->list_size;
    struct caldurrex_decoded block =
        caldurrex_decode(job->m, (uint8_t)job->arikan, map, (n + 7) / 8, pairs, 4 * (size_t)job->pairs,
                         job->list_size, job->stop, soft, n, numbers, CALDURREX_NUMBERS(n, l),
                         bytes, CALDURREX_BYTES(n, l), inputs, CALDURREX_ROWS(n, l), words, CALDURREX_ROWS(n, l),
                         scores, l);
    if (block.refusal != 0)
        refused(number, "caldurrex_decode", block.refusal);
    struct caldurrex_length written =
        caldurrex_write_result(job->m, block.rows, job->frame, block.ceiling, scores, block.rows,
                               inputs, n * block.rows, result, sizeof result);
    if (written.refusal != 0)
        refused(number, "caldurrex_write_result", written.refusal);
    fwrite(result, 1, written.length, stdout);
    flush();
}

int main(int argc, char **argv)
{
    struct caldurrex_job job;
    settings_open("decode_stream", NULL, 0);
    /* A pipe that nobody reads is an output that cannot be written. */
    signal(SIGPIPE, SIG_IGN);
    if (argc > 1)
        return show_usage(settings_help(argc, argv) ? stdout : stderr);
    for (uint64_t number = 1; next_job(&job); number++) {
        if (job.refusal != 0)
            die("record %" PRIu64 " is refused with %lu: %s", number, (unsigned long)job.refusal, reason(job.refusal));
        serve(number, &job);
    }
    return 0;
}
