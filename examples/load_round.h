/*
 * A round of blocks: test loads that are made one after the other, served by any thread in any
 * order, and then judged and added to a checksum in their own order.
 */
#ifndef LOAD_ROUND_H
#define LOAD_ROUND_H

#include "caldurrex.h"

/* No round has more blocks. */
enum { ROUND_BLOCKS = 4096 };

/* A code without pairs, and the list size to decode with. */
struct load_code {
    const char *name;
    uint32_t m;
    uint8_t arikan;
    size_t n, k;
    uint8_t map[128];
    uint32_t list_size;
};

/* What a thread lends to the calls. */
struct load_tables {
    uint32_t *numbers;
    uint8_t *bytes;
    size_t numbers_len, bytes_len;
    uint8_t map[128], pairs[1024];
    int16_t soft[1024];
};

/* A block as it was made, and what came of it. */
struct load_block {
    uint8_t *record, *payload;
    uint32_t length, state; /* of the record; the next one */
    const char *call;       /* the one made last, and its refusal */
    uint32_t refusal;
    int misread; /* the reader gave other settings than it was made with */
    uint32_t rows;
    int32_t ceiling;
    uint8_t *inputs, *words, *extracted;
    int32_t *scores;
};

struct load_round {
    const struct load_code *code;
    struct load_block *blocks;
    uint8_t *bytes; /* what the blocks point to */
    int32_t *scores;
    size_t room;                  /* blocks that there can be */
    size_t block_len, record_len; /* bytes for a block, its record first, and for that */
    unsigned long first;          /* the number of the first block */
    size_t count;
};

/* Gets memory, or gives it back. What is got is dirty, as if it had served something else. */
void tables_open(struct load_tables *t, const struct load_code *code);
void tables_close(struct load_tables *t);
void round_open(struct load_round *r, const struct load_code *code);
void round_close(struct load_round *r);

/* 1 if both tables are all 0. */
int tables_are_clear(const struct load_tables *t);

/* Makes so many blocks, each from the state that the one before gave; the next state. The frame
 * numbers go on from the first one. Nothing stays of what came of blocks before. */
uint32_t round_make(struct load_round *r, uint32_t state, uint32_t first, size_t count);

/* Reads the record of a block, decodes it and extracts the payload of the first row, up to a
 * call that refuses or misreads. */
void block_serve(const struct load_round *r, struct load_block *b, struct load_tables *t);

/* The checksum of no block. */
extern const uint64_t load_checksum;

/* The checksum with the blocks of the round added to it; given_back counts those whose first row
 * has the payload. Ends the program if a call was refused, a record was misread, or a ceiling is
 * not the sum of the magnitudes. */
uint64_t round_judge(const struct load_round *r, uint64_t checksum, unsigned long *given_back);

/* What to do where something is not as it is proved to be. */
#define LOAD_FAULTY "the build or the box is faulty: build again from nothing, then try another box"

#endif
