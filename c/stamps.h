/* Bounded stamps: the calls of document 01 for C.
 *
 * A table of N copies (2 to 8) and a loose record are plain bytes that the caller owns; nothing is allocated and nothing is kept
 * between calls. Every call takes any bytes and any numbers: what does not fit is refused with a number, and then no lent byte
 * and no out-parameter has changed.
 *
 * What the caller owes
 *   - A pointer and its length describe bytes that the caller may read, and write where the pointer is not const.
 *   - No pointer is NULL, not even at length 0; the same holds for out-parameters.
 *   - Buffers and out-parameters of one call do not overlap, and nothing else touches them before the call returns.
 *   - The library is linked for x86-64 Linux (System V). It needs memcpy and memset, and under 2 KiB of stack.
 *
 * What a call returns
 *   0 STAMP_OK                done, or answered in the out-parameters
 *   1 STAMP_UNMARKED          fewer than 4 bytes, or the first two bytes are not the mark
 *   2 STAMP_WRONG_N           N is not 2 to 8 (in the header, in rows to be written, or asked of fresh)
 *   3 STAMP_WRONG_LENGTH      the length is not exactly that of the record or table for this N
 *   4 STAMP_NOT_WELL_FORMED   lengths right, but not well formed
 *   5 STAMP_NO_SUCH_COPY      a copy number is N or more
 *   6 STAMP_SAME_COPY         one copy named twice in a meeting, or two loose records with the same own number
 *   7 STAMP_UNRELATED         an unrelated slice between the pair: forged or mixed records
 *   8 STAMP_DIFFERENT_N       two loose records with different N
 * The first that applies is returned, in the order given at each call. */
#ifndef STAMPS_H
#define STAMPS_H

#include <stddef.h>
#include <stdint.h>

#ifdef __cplusplus
extern "C" {
#endif

enum {
    STAMP_OK = 0,
    STAMP_UNMARKED = 1,
    STAMP_WRONG_N = 2,
    STAMP_WRONG_LENGTH = 3,
    STAMP_NOT_WELL_FORMED = 4,
    STAMP_NO_SUCH_COPY = 5,
    STAMP_SAME_COPY = 6,
    STAMP_UNRELATED = 7,
    STAMP_DIFFERENT_N = 8
};

/* The order of a comparison: of the first copy against the second. */
enum { STAMP_EQUAL = 0, STAMP_OLDER = 1, STAMP_NEWER = 2, STAMP_CONFLICTING = 3 };

/* Bytes of one record and of a table of n copies. */
#define STAMP_RECORD_SIZE(n) (4 + (size_t)(n) * ((size_t)(n) * ((size_t)(n) + 1)))
#define STAMP_TABLE_SIZE(n) ((size_t)(n) * STAMP_RECORD_SIZE(n))

/* ---- A table of N copies */

/* Makes a fresh table of n copies; the old bytes are ignored. 2, then 3. */
uint8_t stamp_make_fresh(uint8_t *table, size_t length, size_t n);

/* Checks a table. 1, 2, 3, 4. */
uint8_t stamp_check(const uint8_t *table, size_t length);

/* Copy i was edited. 1 to 4, then 5. */
uint8_t stamp_update(uint8_t *table, size_t length, size_t i);

/* Copies a and b meet, a named first. 1 to 4, then 5, 6, 7. */
uint8_t stamp_meet(uint8_t *table, size_t length, size_t a, size_t b);

/* Compares copy a with copy b; the order's number goes to *order. 1 to 4, then 5, 7. */
uint8_t stamp_compare(const uint8_t *table, size_t length, size_t a, size_t b, uint8_t *order);

/* Lends record i: it is the *size bytes from table + *start on. 1 to 4, then 5. */
uint8_t stamp_lend(const uint8_t *table, size_t length, size_t i, size_t *start, size_t *size);

/* Lists the superfluous copies: bit i of *mask for copy i, and *count of them. 1 to 4, then 7 of any pair. */
uint8_t stamp_superfluous(const uint8_t *table, size_t length, uint8_t *mask, uint8_t *count);

/* ---- Loose records, as they lie in a dock */

/* Checks one record. 1 to 4. */
uint8_t stamp_check_record(const uint8_t *record, size_t length);

/* Compares record a with record b. 1 to 4 of a, 1 to 4 of b, then 8, 6, 7. */
uint8_t stamp_compare_records(const uint8_t *a, size_t a_length, const uint8_t *b, size_t b_length, uint8_t *order);

/* Records a and b meet, a named first; each result is written over its record. 1 to 4 of a, 1 to 4 of b, then 8, 6, 7. */
uint8_t stamp_meet_records(uint8_t *a, size_t a_length, uint8_t *b, size_t b_length);

/* ---- The rows of one record: row k of slice p has its length at lengths[p * 8 + k] and its symbols from cells[(p * 8 + k) * 8] on */

/* Reads a record's rows; FF in the cells past a row's length, length 0 and FF beyond N. 1 to 4. */
uint8_t stamp_read_rows(const uint8_t *record, size_t length, size_t *n, size_t *own, uint8_t lengths[64], uint8_t cells[512]);

/* Writes rows as a record; the old bytes and what lies beyond N are ignored. 2, 3 for the buffer, then 4. */
uint8_t stamp_write_rows(uint8_t *record, size_t length, size_t n, size_t own, const uint8_t lengths[64], const uint8_t cells[512]);

#ifdef __cplusplus
}
#endif

#endif
