/*
 * Scores, lists and best words by plain enumeration of inputs, to check the paper
 * decoder with. It shares no code with it but the transform and the correlation.
 */
#ifndef ENUMERATION_H
#define ENUMERATION_H

#include "paper_decoder.h"
#include "paper_score.h"

/* Lists and best words are enumerated for codes of no more positions. */
enum { ENUMERATED_MAX_N = 16 };

/* The larger of two scores. */
int32_t larger(int32_t x, int32_t y);

/* The number as len bits. Bit i, position 0 first, is bit len-1-i of the number: numbers
 * rise as inputs do, and the completions of a prefix are neighbours. */
void bits_of(size_t number, size_t len, uint8_t *bits);

/* The score of a prefix, by trying every completion. */
int32_t enumerated_score(size_t n, uint8_t arikan, const int16_t *soft, const uint8_t *prefix, size_t len);

/* A prefix as a number. */
struct entry {
    size_t prefix;
    int32_t score;
};

/* What a position gives: all children of the live prefixes in the order of the rules.
 * The first of them stay live, and the others are dropped. */
struct step {
    size_t live, count;
    struct entry child[2 * PAPER_MAX_LIST];
};

/* A code whose frozen bits are given by tables: the bit at a frozen position i is the sum of
 * those at all j for which follows[i][j] is 1. */
struct enumerated_code {
    size_t n;
    uint8_t arikan; /* which transform it has */
    uint8_t frozen[ENUMERATED_MAX_N], follows[ENUMERATED_MAX_N][ENUMERATED_MAX_N];
};

/* The lists by the letter of the rules: step p is the one after p positions, and there
 * are n + 1 of them. */
void enumerated_lists(const struct enumerated_code *code, size_t l, const int16_t *soft, struct step *steps);

/* 1 if each frozen bit of an input of n bits is the one that its rule gives. */
int enumerated_member(const struct enumerated_code *code, const uint8_t *u);

/* The highest correlation of a word of the code, by trying every input. */
int32_t enumerated_best(const struct enumerated_code *code, const int16_t *soft);

#endif
