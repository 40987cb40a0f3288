/*
 * Caldurrex: encoder, extractor and list decoder for convolutional polar codes and for
 * plain ones, by Arikan's transform, a list of every code word at a mark or above, a reader
 * and a writer of job records, a test load, a quantiser of a demodulator's complex samples,
 * and a writer and two readers of result records: one for the customer, and one for an
 * operator, who is told nothing of the bits.
 *
 * A code has n = 2^m positions, m from 2 to 10, and a frozen map of ceil(n/8)
 * bytes: bit i mod 8 of byte i div 8, counted from the low end, is 1 where
 * position i is frozen. For n = 4 the four high bits are 0. k is the number of
 * positions that are not frozen; it may be 0 or n.
 *
 * A code may have up to 256 pairs (f, e): f is frozen, e is below f, and the pairs
 * rise by f, then by e, none of them twice. The bit at a frozen position f is the sum
 * modulo 2 of the bits at all e that stand with it, or 0 if it has no pair. An e may
 * be frozen too. In memory a pair is four bytes: f, then e, each two bytes with the
 * low byte first. Pairs follow one another with nothing in front; a code without any
 * passes an empty slice.
 *
 * The transform is part of the code: arikan is 0 for the convolutional one, and any other
 * byte asks for Arikan's. By Arikan's the halves v and w of an input give the transform of
 * v + w, then that of w; a word of length 1 is itself. With n = 4 the input 0010 gives 0110
 * by the convolutional transform and 1010 by Arikan's. Refusals and lengths are the same for
 * both.
 *
 * The input of the transform has the payload bits at the positions that are not
 * frozen, in rising order, and at each frozen one the bit that its pairs give. The
 * code word is its transform. Payload and word are bytes of value 0 or 1, one for
 * each bit. With n = 4, frozen 0, 2 and 3 and the pairs (2, 1), (3, 1) and (3, 2),
 * which are the bytes 2 0 1 0  3 0 1 0  3 0 2 0, the payload 1 has the input 0110:
 * the bit at 2 is that at 1, and the bit at 3 the sum of both, 0.
 *
 * A slice is a pointer and the number of its elements: bytes, or numbers of 16 or
 * 32 bits where the pointer is to such. Each slice must be real memory of that
 * length and must not overlap another one of the same call. An empty slice, too,
 * has a pointer that is not null.
 */
#ifndef CALDURREX_H
#define CALDURREX_H

#include <stddef.h>
#include <stdint.h>

#ifdef __cplusplus
extern "C" {
#endif

/* Why a call was not served. */
enum caldurrex_refusal {
    CALDURREX_BAD_M = 1,              /* m outside 2..10 */
    CALDURREX_BAD_MAP_LENGTH = 2,     /* frozen map not ceil(n/8) bytes */
    CALDURREX_BAD_MAP_BIT = 3,        /* map bit set past n */
    CALDURREX_BAD_LIST_SIZE = 4,      /* list size or row count outside 1..32 */
    CALDURREX_BAD_STOP = 5,           /* stop position above n */
    CALDURREX_BAD_INPUT_LENGTH = 6,   /* payload not k long; word or soft values not n long; samples not 4n bytes;
                                         inputs not n bytes a row; scores not one a row */
    CALDURREX_BAD_SOFT_VALUE = 7,     /* soft value outside -2048..2047 */
    CALDURREX_SHORT_NUMBERS = 8,      /* number tables too short */
    CALDURREX_SHORT_BYTES = 9,        /* byte tables too short */
    CALDURREX_SHORT_OUTPUT = 10,      /* an output too short */
    CALDURREX_NOT_A_BIT = 11,         /* payload, word or input byte above 1 */
    CALDURREX_NOT_A_CODE_WORD = 12,   /* a frozen input bit of the word breaks its rule */
    CALDURREX_BAD_RECORD_LENGTH = 13, /* record not as long as its fields need */
    CALDURREX_BAD_FIELD_MAP = 14,     /* in a record's first byte a bit that names nothing is 1 */
    CALDURREX_BAD_PAIRS = 15,         /* a wrong pair, a part of a pair, or above 256 of them */
    CALDURREX_TOO_MANY_WORDS = 19,    /* more words at the mark or above than the scores have places */
    CALDURREX_LARGE_CODE = 20,        /* k above 20, where the words of a code are listed */
    CALDURREX_BAD_PACKED_BIT = 21,    /* a result record's packed bit past n is 1 */
    CALDURREX_BAD_RESULT = 22,        /* scores rise; a ceiling below the first score; a field present with the
                                         value of its absence */
    CALDURREX_ZERO_STATE = 24         /* a test load from state 0 */
};

/*
 * Encodes a payload.
 *
 *   arikan   0 for the convolutional transform, any other byte for Arikan's
 *   map      the frozen map, ceil(n/8) bytes
 *   pairs    four bytes a pair
 *   payload  k bytes
 *   word     at least n bytes; the first n become the code word, and all
 *            behind them up to word_len becomes 0
 *
 * Returns 0, or the first of these that applies, in this order:
 *
 *   1   CALDURREX_BAD_M             m outside 2..10
 *   2   CALDURREX_BAD_MAP_LENGTH    map_len is not ceil(n/8)
 *   3   CALDURREX_BAD_MAP_BIT       a map bit past n is set
 *   15  CALDURREX_BAD_PAIRS         pairs_len is not a multiple of 4 or above 1024; an f
 *                                   is not frozen, or at or past n; an e is not below its
 *                                   f; a pair is not above the one before it
 *   6   CALDURREX_BAD_INPUT_LENGTH  payload_len is not k
 *   11  CALDURREX_NOT_A_BIT         a payload byte is above 1
 *   10  CALDURREX_SHORT_OUTPUT      word_len is below n
 *
 * A refused call writes nowhere.
 */
uint32_t caldurrex_encode(uint32_t m, uint8_t arikan, const uint8_t *map, size_t map_len,
                          const uint8_t *pairs, size_t pairs_len,
                          const uint8_t *payload, size_t payload_len,
                          uint8_t *word, size_t word_len);

/*
 * Extracts the payload of a code word.
 *
 *   arikan   0 for the convolutional transform, any other byte for Arikan's
 *   map      the frozen map, ceil(n/8) bytes
 *   pairs    four bytes a pair
 *   word     n bytes
 *   payload  at least k bytes; the first k become the payload, and all behind
 *            them up to payload_len becomes 0
 *
 * Returns 0, or the first of these that applies, in this order:
 *
 *   1   CALDURREX_BAD_M             m outside 2..10
 *   2   CALDURREX_BAD_MAP_LENGTH    map_len is not ceil(n/8)
 *   3   CALDURREX_BAD_MAP_BIT       a map bit past n is set
 *   15  CALDURREX_BAD_PAIRS         as for caldurrex_encode
 *   6   CALDURREX_BAD_INPUT_LENGTH  word_len is not n
 *   11  CALDURREX_NOT_A_BIT         a word byte is above 1
 *   12  CALDURREX_NOT_A_CODE_WORD   the word's input has at a frozen position another
 *                                   bit than its pairs give, 0 where it has none
 *   10  CALDURREX_SHORT_OUTPUT      payload_len is below k
 *
 * A refused call writes nowhere.
 */
uint32_t caldurrex_extract(uint32_t m, uint8_t arikan, const uint8_t *map, size_t map_len,
                           const uint8_t *pairs, size_t pairs_len,
                           const uint8_t *word, size_t word_len,
                           uint8_t *payload, size_t payload_len);

/* The least lengths of the slices lent to the decoder, for n positions and list
 * size l: numbers, bytes, and inputs or words. caldurrex_list_words takes tables of
 * the lengths for l = 1, and rows for as many l as its scores have places. */
#define CALDURREX_NUMBERS(n, l) ((size_t)32 * (n) * (l))
#define CALDURREX_BYTES(n, l) (((size_t)4 * (n) + 256) * (l))
#define CALDURREX_ROWS(n, l) ((size_t)(n) * (l))

/* What a decoder call answers. refusal is 0 if the block was decoded, and then rows is
 * at least 1; else it is the number of the refusal, and the other two are 0. */
struct caldurrex_decoded {
    uint32_t refusal, rows;
    int32_t ceiling;
};

/*
 * Decodes a block of soft values with a list of list_size prefixes.
 *
 * A soft value is a number from -2048 to 2047; a positive one favours bit 0. -2048
 * is full scale and taken as -2047: a call with it gives what the call with -2047
 * in its place gives. The correlation of a word is the sum of the soft values, each
 * negated where the word has a 1. The score of a prefix is the largest correlation
 * of a transform over all inputs that begin with the prefix, whatever is frozen
 * behind it. The list begins as the empty prefix. Position by position, each prefix
 * goes on where the position is frozen with the bit that its pairs give, which is the
 * sum of the prefix's own bits, and where it is not with both bits; and then the
 * list_size best stay: higher score first, then the one with 0 at the first place
 * where two differ. After stop positions the list in this order is the result, rank 0
 * first.
 *
 *   arikan     0 for the convolutional transform, any other byte for Arikan's
 *   map        the frozen map, ceil(n/8) bytes
 *   pairs      four bytes a pair
 *   list_size  l, 1 to 32
 *   stop       0 to n; n decodes whole words
 *   soft       n soft values
 *   numbers    tables for the call's own use, at least 32*n*l words of 32 bits;
 *              all 0 up to numbers_len after an accepted call
 *   bytes      tables for the call's own use, at least (4*n + 256)*l bytes; all 0
 *              up to bytes_len after an accepted call
 *   inputs     at least l*n bytes; row r, from byte r*n on, is the prefix of rank r
 *              and then 0 from position stop on, n bytes of value 0 or 1
 *   words      at least l*n bytes; row r is the transform of row r of inputs
 *   scores     at least l numbers; number r is the score of the prefix of rank r
 *
 * All behind the last row, up to inputs_len, words_len and scores_len, becomes 0.
 * With q clear positions below stop there are min(l, 2^q) rows. What the tables and
 * the outputs hold before the call does not matter.
 *
 * Once stop is past every frozen position, the first row is known early: its input
 * bytes below stop and scores[0] are those of the first row at stop n, for the same m,
 * arikan, map, pairs, list_size and soft. A display can decode with stop at the last frozen
 * position + 1, show these, and decode on with a larger stop: what it has shown stays.
 * The input bytes from stop on, the word and the other rows are not known before n.
 *
 * The ceiling is the larger of scores[0] and the highest score ever dropped in the
 * call: at each clear position the prefixes that do not stay among the list_size best
 * are dropped, and the scores of all that were dropped at the positions below stop
 * count. No word of the code correlates above the ceiling, at any stop. At stop n,
 * where it equals scores[0], the first row is a best word of the code, and no longer
 * list finds a better one. Where it is above scores[0], it says nothing about whether
 * a longer list would help. At stop 0 it is the sum of the magnitudes of the soft
 * values as taken.
 *
 * The answer has the number of rows and the ceiling. Its refusal is 0, or the first of
 * these that applies, in this order:
 *
 *   1   CALDURREX_BAD_M             m outside 2..10
 *   2   CALDURREX_BAD_MAP_LENGTH    map_len is not ceil(n/8)
 *   3   CALDURREX_BAD_MAP_BIT       a map bit past n is set
 *   15  CALDURREX_BAD_PAIRS         as for caldurrex_encode
 *   4   CALDURREX_BAD_LIST_SIZE     list_size outside 1..32
 *   5   CALDURREX_BAD_STOP          stop above n
 *   6   CALDURREX_BAD_INPUT_LENGTH  soft_len is not n
 *   7   CALDURREX_BAD_SOFT_VALUE    a soft value outside -2048..2047
 *   8   CALDURREX_SHORT_NUMBERS     numbers_len is below 32*n*l
 *   9   CALDURREX_SHORT_BYTES       bytes_len is below (4*n + 256)*l
 *   10  CALDURREX_SHORT_OUTPUT      inputs_len or words_len is below l*n, or
 *                                   scores_len is below l
 *
 * A refused call writes nowhere.
 */
struct caldurrex_decoded caldurrex_decode(uint32_t m, uint8_t arikan,
                                          const uint8_t *map, size_t map_len,
                                          const uint8_t *pairs, size_t pairs_len,
                                          uint32_t list_size, uint32_t stop,
                                          const int16_t *soft, size_t soft_len,
                                          uint32_t *numbers, size_t numbers_len,
                                          uint8_t *bytes, size_t bytes_len,
                                          uint8_t *inputs, size_t inputs_len,
                                          uint8_t *words, size_t words_len,
                                          int32_t *scores, size_t scores_len);

/* What a call that lists words answers. refusal is 0 if all of them were listed, and then
 * count is their number, which may be 0; else it is the number of the refusal, and count
 * is 0. */
struct caldurrex_counted {
    uint32_t refusal, count;
};

/*
 * Lists every word of a code with k up to 20 that correlates with the soft values at a mark
 * or above, each once.
 *
 * Soft values and correlations are those of caldurrex_decode: -2048 is taken as -2047. The
 * words come in the order of their inputs, the smaller first: the one with 0 at the first
 * place where two differ. So the order hangs neither on the soft values nor on the mark.
 *
 *   arikan   0 for the convolutional transform, any other byte for Arikan's
 *   map      the frozen map, ceil(n/8) bytes
 *   pairs    four bytes a pair
 *   mark     any number; no word correlates above n*2047 or below -n*2047
 *   soft     n soft values
 *   numbers  tables for the call's own use, at least 32*n words of 32 bits; all 0 up to
 *            numbers_len after an accepted call, and after one refused with 19
 *   bytes    tables for the call's own use, at least 4*n + 256 bytes; all 0 up to
 *            bytes_len after an accepted call, and after one refused with 19
 *   inputs   at least n*scores_len bytes; row r, from byte r*n on, is the input of word r,
 *            n bytes of value 0 or 1
 *   words    at least n*scores_len bytes; row r is word r, the transform of row r of inputs
 *   scores   room for as many words as it has places, which may be none; number r is the
 *            correlation of word r
 *
 * All behind the last row, up to inputs_len, words_len and scores_len, becomes 0. What the
 * tables and the outputs hold before the call does not matter.
 *
 * The answer has the number of words. Its refusal is 0, or the first of these that applies,
 * in this order:
 *
 *   1   CALDURREX_BAD_M             m outside 2..10
 *   2   CALDURREX_BAD_MAP_LENGTH    map_len is not ceil(n/8)
 *   3   CALDURREX_BAD_MAP_BIT       a map bit past n is set
 *   15  CALDURREX_BAD_PAIRS         as for caldurrex_encode
 *   20  CALDURREX_LARGE_CODE        k is above 20
 *   6   CALDURREX_BAD_INPUT_LENGTH  soft_len is not n
 *   7   CALDURREX_BAD_SOFT_VALUE    a soft value outside -2048..2047
 *   8   CALDURREX_SHORT_NUMBERS     numbers_len is below 32*n
 *   9   CALDURREX_SHORT_BYTES       bytes_len is below 4*n + 256
 *   10  CALDURREX_SHORT_OUTPUT      inputs_len or words_len is below n*scores_len, however
 *                                   many words there are
 *   19  CALDURREX_TOO_MANY_WORDS    more words are at the mark or above than scores_len
 *
 * A call refused with 19 leaves the tables all 0 and its outputs as they were. A call
 * refused with any other number writes nowhere.
 */
struct caldurrex_counted caldurrex_list_words(uint32_t m, uint8_t arikan,
                                              const uint8_t *map, size_t map_len,
                                              const uint8_t *pairs, size_t pairs_len,
                                              int32_t mark,
                                              const int16_t *soft, size_t soft_len,
                                              uint32_t *numbers, size_t numbers_len,
                                              uint8_t *bytes, size_t bytes_len,
                                              uint8_t *inputs, size_t inputs_len,
                                              uint8_t *words, size_t words_len,
                                              int32_t *scores, size_t scores_len);

/* What a record says; pairs is the number of its pairs, and arikan is 1 if it asks for
 * Arikan's transform, else 0. refusal is 0 if it was read; else it is the number of the
 * refusal, and the other six are 0. */
struct caldurrex_job {
    uint32_t refusal, m, list_size, stop, frame, pairs, arikan;
};

/*
 * Reads a job record: what a decoder call needs, and a frame number for the host.
 *
 * A record is these bytes one behind the other and nothing else. A number of several
 * bytes has its low byte first.
 *
 *   1 byte           which of the four fields below are present: bit 0 the list size,
 *                    bit 1 the stop position, bit 2 the frame number, bit 3 the pairs;
 *                    bit 4 is no field: it is 1 for Arikan's transform; bits 5 to 7 are 0
 *   1 byte           m, 2 to 10
 *   1 byte           list size, 1 to 32; only if bit 0 is 1, else the list size is 4
 *   2 bytes          stop position, 0 to n; only if bit 1 is 1, else it is n
 *   4 bytes          frame number, unsigned; only if bit 2 is 1, else it is 0
 *   ceil(n/8) bytes  the frozen map; for n = 4 its four high bits are 0
 *   2 bytes          number of pairs, 0 to 256; only if bit 3 is 1, else it is 0
 *   4 bytes a pair   f, then e
 *   2*n bytes        n soft values from -2048 to 2047, each a signed number of 16 bits
 *
 * A field may be present with the value that it would have when absent.
 *
 *   record  the record, as long as its fields need
 *   map     at least ceil(n/8) bytes; the first of them become the frozen map, and all
 *           behind it up to map_len becomes 0
 *   soft    at least n numbers of 16 bits; the first n become the soft values, -2047
 *           for -2048, and all behind them up to soft_len becomes 0
 *   pairs   at least four bytes a pair; the first of them become the pairs, and all
 *           behind them up to pairs_len becomes 0
 *
 * The calls on a code take the map, the soft values and the pairs at their exact
 * lengths, ceil(n/8), n and four times the number of pairs, and arikan as it is here. 128
 * bytes, 1024 numbers and 1024 bytes are enough for every record. What a record that was
 * read says is accepted by caldurrex_decode wherever it is lent enough.
 *
 * The answer's refusal is 0, or the first of these that applies, in this order:
 *
 *   13  CALDURREX_BAD_RECORD_LENGTH  record_len is 0
 *   14  CALDURREX_BAD_FIELD_MAP      one of bits 5 to 7 of the first byte is 1
 *   13  CALDURREX_BAD_RECORD_LENGTH  record_len is 1
 *   1   CALDURREX_BAD_M              m outside 2..10
 *   13  CALDURREX_BAD_RECORD_LENGTH  the record ends before or inside the number of pairs
 *   15  CALDURREX_BAD_PAIRS          the number of pairs is above 256
 *   13  CALDURREX_BAD_RECORD_LENGTH  record_len is not exactly what the fields need
 *   3   CALDURREX_BAD_MAP_BIT        a map bit past n is set
 *   15  CALDURREX_BAD_PAIRS          as for caldurrex_encode
 *   4   CALDURREX_BAD_LIST_SIZE      list size outside 1..32
 *   5   CALDURREX_BAD_STOP           stop position above n
 *   7   CALDURREX_BAD_SOFT_VALUE     a soft value outside -2048..2047
 *   10  CALDURREX_SHORT_OUTPUT       map_len is below ceil(n/8), soft_len below n, or
 *                                    pairs_len below four times the number of pairs
 *
 * A refused call writes nowhere.
 */
struct caldurrex_job caldurrex_read_job(const uint8_t *record, size_t record_len,
                                        uint8_t *map, size_t map_len,
                                        int16_t *soft, size_t soft_len,
                                        uint8_t *pairs, size_t pairs_len);

/* No job record is longer than this. */
#define CALDURREX_RECORD_BYTES 3211

/* What a call that writes a record answers. refusal is 0 if the record was written, and
 * then length is the number of its bytes; else it is the number of the refusal, and length
 * is 0. */
struct caldurrex_length {
    uint32_t refusal, length;
};

/*
 * Writes a job record, as caldurrex_read_job has it.
 *
 * Each of the four fields is left out where its value is the one that its absence means: a
 * list size of 4, a stop position of n, a frame number of 0, and no pairs. So the same
 * settings always give the same bytes, and no record that says the same is shorter. A soft
 * value of -2048 is written as -2047. caldurrex_read_job gives back every setting.
 *
 *   arikan     0 for the convolutional transform, any other byte for Arikan's
 *   map        the frozen map, ceil(n/8) bytes
 *   pairs      four bytes a pair
 *   list_size  1 to 32
 *   stop       0 to n
 *   frame      any number
 *   soft       n soft values from -2048 to 2047
 *   record     at least as many bytes as the record has, for which CALDURREX_RECORD_BYTES
 *              is always enough; the first become the record, and all behind it up to
 *              record_len becomes 0
 *
 * The answer has the length of the record. Its refusal is 0, or the first of these that
 * applies, in this order:
 *
 *   1   CALDURREX_BAD_M             m outside 2..10
 *   2   CALDURREX_BAD_MAP_LENGTH    map_len is not ceil(n/8)
 *   3   CALDURREX_BAD_MAP_BIT       a map bit past n is set
 *   15  CALDURREX_BAD_PAIRS         as for caldurrex_encode
 *   4   CALDURREX_BAD_LIST_SIZE     list_size outside 1..32
 *   5   CALDURREX_BAD_STOP          stop above n
 *   6   CALDURREX_BAD_INPUT_LENGTH  soft_len is not n
 *   7   CALDURREX_BAD_SOFT_VALUE    a soft value outside -2048..2047
 *   10  CALDURREX_SHORT_OUTPUT      record_len is below the length of the record
 *
 * A refused call writes nowhere.
 */
struct caldurrex_length caldurrex_write_job(uint32_t m, uint8_t arikan,
                                            const uint8_t *map, size_t map_len,
                                            const uint8_t *pairs, size_t pairs_len,
                                            uint32_t list_size, uint32_t stop,
                                            uint32_t frame,
                                            const int16_t *soft, size_t soft_len,
                                            uint8_t *record, size_t record_len);

/* What a test load answers. refusal is 0 if the load was made, and then length is the number
 * of bytes of its record and state the next state, which is not 0; else refusal is the number
 * of the refusal, and the other two are 0. */
struct caldurrex_load {
    uint32_t refusal, length, state;
};

/*
 * Makes a test load: a payload and the job record of its noisy code word, both drawn from a
 * state, so that the same state, code and frame number give the same bytes on every machine.
 *
 * A draw xors into the state its shift left by 13 places, then right by 17, then left by 5,
 * each kept to 32 bits, and is the new state. The payload is the low bits of k draws. Then
 * soft value i is 20 or -20 as code bit i is 0 or 1, plus a draw modulo 41, minus 20. So it
 * agrees with its code bit or is 0, the code word correlates at the sum of the magnitudes of
 * the soft values, and no row of caldurrex_decode scores higher. The record is what
 * caldurrex_write_job gives for the code, list size 4, stop n, the frame number and these
 * soft values.
 *
 *   state    not 0; the answer has the one with which the next load goes on
 *   arikan   0 for the convolutional transform, any other byte for Arikan's
 *   map      the frozen map, ceil(n/8) bytes
 *   pairs    four bytes a pair
 *   frame    any number
 *   record   at least as many bytes as the record has, for which CALDURREX_RECORD_BYTES is
 *            always enough; the first become the record, and all behind it up to record_len
 *            becomes 0
 *   payload  at least k bytes; the first k become the payload, and all behind them up to
 *            payload_len becomes 0
 *
 * The answer has the length of the record and the next state. Its refusal is 0, or the first
 * of these that applies, in this order:
 *
 *   1   CALDURREX_BAD_M             m outside 2..10
 *   2   CALDURREX_BAD_MAP_LENGTH    map_len is not ceil(n/8)
 *   3   CALDURREX_BAD_MAP_BIT       a map bit past n is set
 *   15  CALDURREX_BAD_PAIRS         as for caldurrex_encode
 *   24  CALDURREX_ZERO_STATE        state is 0
 *   10  CALDURREX_SHORT_OUTPUT      record_len is below the length of the record, or
 *                                   payload_len below k
 *
 * A refused call writes nowhere.
 */
struct caldurrex_load caldurrex_test_load(uint32_t state, uint32_t m, uint8_t arikan,
                                          const uint8_t *map, size_t map_len,
                                          const uint8_t *pairs, size_t pairs_len,
                                          uint32_t frame,
                                          uint8_t *record, size_t record_len,
                                          uint8_t *payload, size_t payload_len);

/*
 * Makes soft values of the complex samples that a QPSK demodulator gives.
 *
 * A sample is a pair of 32-bit floats (IEEE 754), the real part first: eight bytes, each
 * float with its low byte first. A block of n positions has n/2 samples. The real part of
 * sample j serves position 2j, the imaginary part position 2j + 1. So on a host that keeps
 * its numbers low byte first an array of n floats, real and imaginary parts in turn, is
 * passed as it lies in memory, by a pointer to its bytes. They need not be aligned.
 *
 * A part that is a NaN, whatever its sign and digits, is a gap and becomes 0. Every other
 * one is a reading x and becomes the whole number nearest to 64*x, halves to the even one,
 * held within -2047 and 2047; an infinity goes to the end of its sign. So 1/128 gives 0,
 * 3/128 gives 2 and -40 gives -2047. As with every soft value, a positive one favours bit 0.
 * The values do not depend on how the host has floats rounded, or subnormal ones flushed to 0;
 * but it must not have made float operations trap, which they do not unless it asks for it.
 *
 *   samples  4*n bytes
 *   soft     at least n numbers of 16 bits; the first n become the soft values, and all
 *            behind them up to soft_len becomes 0
 *
 * The calls that take soft values take them at their exact number, n. None of these is out
 * of their range, whatever the samples are.
 *
 * Returns 0, or the first of these that applies, in this order:
 *
 *   1   CALDURREX_BAD_M             m outside 2..10
 *   6   CALDURREX_BAD_INPUT_LENGTH  samples_len is not 4*n
 *   10  CALDURREX_SHORT_OUTPUT      soft_len is below n
 *
 * A refused call writes nowhere.
 */
uint32_t caldurrex_quantise(uint32_t m, const uint8_t *samples, size_t samples_len,
                            int16_t *soft, size_t soft_len);

/* No result record that is written or read is longer than this. */
#define CALDURREX_RESULT_BYTES 4235

/*
 * Writes a result record: what a decoder call gave for a block.
 *
 * A record is these bytes one behind the other and nothing else. A number of several bytes
 * has its low byte first; a negative one, v, stands as 2^32 + v.
 *
 *   1 byte           which of the two fields below are present: bit 0 the frame number, bit 1
 *                    the ceiling; bits 2 to 7 are 0
 *   1 byte           m, 2 to 10
 *   1 byte           row count, 1 to 32
 *   4 bytes          frame number, unsigned; only if bit 0 is 1, else it is 0
 *   4 bytes          ceiling, signed; only if bit 1 is 1, else it is the first score
 *   4 bytes a row    the scores, signed, rank 0 first
 *   ceil(n/8) bytes  for each row: its n input bits, packed as a frozen map is: bit i mod 8 of
 *     a row          byte i div 8, counted from the low end, is the bit of position i; for
 *                    n = 4 the four high bits are 0
 *
 * A field never stands with the value that its absence means: the frame number is left out
 * where it is 0, and the ceiling where it is equal to the first score. So a result has one
 * record and no other.
 *
 *   rows     the row count, 1 to 32
 *   frame    any number
 *   ceiling  any number not below the first score
 *   scores   one number a row, none above the one before it
 *   inputs   n bytes a row, of value 0 or 1
 *   record   at least as many bytes as the record has, for which CALDURREX_RESULT_BYTES is
 *            always enough; the first become the record, and all behind it up to record_len
 *            becomes 0
 *
 * What caldurrex_decode gives is always accepted: its rows and its ceiling, as many of its
 * scores as there are rows, and as many rows of its inputs. A record has no stop position:
 * where the block was decoded to a stop below n, the inputs are 0 from there on, and who reads
 * the record must know that.
 *
 * The answer has the length of the record. Its refusal is 0, or the first of these that
 * applies, in this order:
 *
 *   1   CALDURREX_BAD_M             m outside 2..10
 *   4   CALDURREX_BAD_LIST_SIZE     rows outside 1..32
 *   6   CALDURREX_BAD_INPUT_LENGTH  inputs_len is not n*rows, or scores_len is not rows
 *   11  CALDURREX_NOT_A_BIT         an input byte is above 1
 *   22  CALDURREX_BAD_RESULT        a score is above the one before it, or the ceiling is below
 *                                   the first score
 *   10  CALDURREX_SHORT_OUTPUT      record_len is below the length of the record
 *
 * A refused call writes nowhere.
 */
struct caldurrex_length caldurrex_write_result(uint32_t m, uint32_t rows, uint32_t frame,
                                               int32_t ceiling,
                                               const int32_t *scores, size_t scores_len,
                                               const uint8_t *inputs, size_t inputs_len,
                                               uint8_t *record, size_t record_len);

/* What a result record says. refusal is 0 if it was read; else it is the number of the
 * refusal, and the other four are 0. */
struct caldurrex_result {
    uint32_t refusal, m, rows, frame;
    int32_t ceiling;
};

/*
 * Reads a result record as the customer whose block it is: all that it says.
 *
 *   record  the record, as caldurrex_write_result has it
 *   scores  at least one number a row; the first become the scores, and all behind them up to
 *           scores_len becomes 0
 *   inputs  at least n bytes a row; the first become the input rows, bytes of value 0 or 1,
 *           and all behind them up to inputs_len becomes 0
 *
 * 32 numbers and 32768 bytes are enough for every record.
 *
 * The answer's refusal is 0, or the first of these that applies, in this order:
 *
 *   13  CALDURREX_BAD_RECORD_LENGTH  record_len is 0
 *   14  CALDURREX_BAD_FIELD_MAP      one of bits 2 to 7 of the first byte is 1
 *   13  CALDURREX_BAD_RECORD_LENGTH  record_len is below 3
 *   1   CALDURREX_BAD_M              m outside 2..10
 *   4   CALDURREX_BAD_LIST_SIZE      row count outside 1..32
 *   13  CALDURREX_BAD_RECORD_LENGTH  record_len is not exactly what the fields need
 *   22  CALDURREX_BAD_RESULT         a score is above the one before it, a frame number is
 *                                    present and 0, or a ceiling is present and not above the
 *                                    first score
 *   10  CALDURREX_SHORT_OUTPUT       scores_len is below the row count, or inputs_len below n
 *                                    bytes a row
 *   21  CALDURREX_BAD_PACKED_BIT     a packed bit past n is 1, which only n = 4 leaves room for
 *
 * A refused call writes nowhere.
 */
struct caldurrex_result caldurrex_read_result(const uint8_t *record, size_t record_len,
                                              int32_t *scores, size_t scores_len,
                                              uint8_t *inputs, size_t inputs_len);

/*
 * Reads a result record as an operator, who is told nothing of the packed bits. For two
 * records of equal length that differ only in packed bits, that is, behind their scores, and
 * lent equally many scores, the answer is the same, a refusal too, and so are the scores of a
 * record that is read.
 *
 *   record  the record, as caldurrex_write_result has it
 *   scores  at least one number a row, for which 32 are always enough; the first become the
 *           scores, and all behind them up to scores_len becomes 0
 *
 * The answer's refusal is 0, or the first of these that applies, in this order:
 *
 *   13  CALDURREX_BAD_RECORD_LENGTH  record_len is 0
 *   14  CALDURREX_BAD_FIELD_MAP      one of bits 2 to 7 of the first byte is 1
 *   13  CALDURREX_BAD_RECORD_LENGTH  record_len is below 3
 *   1   CALDURREX_BAD_M              m outside 2..10
 *   4   CALDURREX_BAD_LIST_SIZE      row count outside 1..32
 *   13  CALDURREX_BAD_RECORD_LENGTH  record_len is not exactly what the fields need
 *   22  CALDURREX_BAD_RESULT         as for caldurrex_read_result
 *   10  CALDURREX_SHORT_OUTPUT       scores_len is below the row count
 *
 * A refused call writes nowhere.
 */
struct caldurrex_result caldurrex_read_result_operator(const uint8_t *record, size_t record_len,
                                                       int32_t *scores, size_t scores_len);

#ifdef __cplusplus
}
#endif

#endif
