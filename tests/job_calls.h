/*
 * Job records, made at random so that what a reader must answer is known from how a
 * record was made.
 */
#ifndef JOB_CALLS_H
#define JOB_CALLS_H

#include "pairs.h"

#include <stddef.h>
#include <stdint.h>

enum { JOB_MIN_M = 2, JOB_MAX_M = 10, JOB_MAX_LIST = 32 };

/* No record is longer. */
enum { JOB_ROOM = 8192 };

/* The four fields that may be present; the bits of a record's first byte. Behind them stands
 * the bit for Arikan's transform, which is no field. Other bytes than these are refused. */
enum { JOB_LIST_SIZE = 1, JOB_STOP = 2, JOB_FRAME = 4, JOB_PAIRS = 8, JOB_FIELD_SETS = 16 };
enum { JOB_ARIKAN = 16, JOB_FIRST_BYTES = 32 };

/* What can be wrong with a record, first one first, as the rules have the refusals; but 13
 * comes before FAULT_COUNT if the record ends before or inside the number of pairs. */
enum {
    FAULT_FIELD_MAP = 1,  /* 14: one of bits 5 to 7 of the first byte, or several */
    FAULT_M = 2,          /* 1 */
    FAULT_COUNT = 4,      /* 15: number of pairs above 256 */
    FAULT_LENGTH = 8,     /* 13: cut or longer */
    FAULT_MAP_BIT = 16,   /* 3; only n = 4 can have it */
    FAULT_PAIRS = 32,     /* 15: a pair that breaks a rule */
    FAULT_LIST_SIZE = 64, /* 4 */
    FAULT_STOP = 128,     /* 5 */
    FAULT_SOFT = 256,     /* 7 */
    FAULT_SETS = 512
};

enum job_kind {
    JOB_SERVED, /* good, n up to 64 and list size up to 4 */
    JOB_GOOD,
    JOB_CUT,
    JOB_LONGER,
    JOB_BEYOND, /* longer, and above 4096 bytes */
    JOB_BAD_FIELD_MAP,
    JOB_BAD_M,
    JOB_LAID_OUT_FOR_BAD_M, /* as long as its m would ask for */
    JOB_CUT_AT_COUNT, /* before or inside the number of pairs */
    JOB_BAD_COUNT,
    JOB_BAD_MAP_BIT,
    JOB_BAD_PAIRS,
    JOB_BAD_LIST_SIZE,
    JOB_BAD_STOP,
    JOB_BAD_SOFT,
    JOB_SEVERAL_FAULTS,
    JOB_RANDOM, /* random bytes; the first two and the length are often good */
    JOB_EMPTY,
    JOB_ONE_BYTE,
    JOB_KINDS
};
extern const char *const job_kind_name[JOB_KINDS];

/* The refusal of random bytes is not known from how they were made. */
enum { JOB_UNKNOWN = 99 };

struct job_record {
    enum job_kind kind;
    unsigned fields; /* which are present */
    uint32_t arikan; /* 1 for Arikan's transform, else 0 */
    uint32_t m, list_size, stop, frame;
    uint8_t map[256]; /* this and soft have room for the n of m = 11 */
    struct pairs pairs;
    uint32_t count; /* of the pairs, as the record says it */
    int16_t soft[2048];
    uint8_t bytes[JOB_ROOM]; /* the record of these */
    size_t len;
    uint32_t refusal; /* by a reader with room enough; 0 if it must be read */
};

/* A good record with these fields, those in plain with the value that they would have
 * when absent, and with either transform. */
void job_good(struct job_record *r, uint32_t m, unsigned fields, unsigned plain);

/* Pairs of a kind, by the record's map, and their number; the bytes are not written anew. */
void job_pair(struct job_record *r, enum pair_kind kind);

/* A good record with these fields and pairs of a kind, whose map allows some pair and, where
 * n is large enough, more than 256. */
void job_paired(struct job_record *r, uint32_t m, unsigned fields, enum pair_kind kind);

/* Writes the bytes anew after a change of the values; the length is that of the fields. */
void job_pack(struct job_record *r);

/* Makes a good record faulty. The refusal becomes the first that applies, 0 if none. */
void job_spoil(struct job_record *r, unsigned faults);

/* Shortens the record; adds some bytes; adds so many that it is above 4096 bytes. */
void job_cut(struct job_record *r);
void job_lengthen(struct job_record *r);
void job_lengthen_beyond(struct job_record *r);

/* A record of some kind. */
void job_make(struct job_record *r, enum job_kind kind);

/* ceil(n/8) */
size_t job_map_len(uint32_t m);

/* Where the number of pairs stands in a record that has it. */
size_t job_count_at(const struct job_record *r);

#endif
