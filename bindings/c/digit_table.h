/* Digit tables over Z/p: the service's calls for C and C++, as crates/exports/src/lib.rt exports them.
 *
 * Every call ends, for any bytes, and answers what its contract there says. What is asked of the caller is asked of every C function:
 *  - a pointer that comes with a length leads to so many elements, aligned, and is not NULL, even where the length is 0;
 *  - a pointer that comes without one leads to one number;
 *  - what a call writes (all that is not const) overlaps nothing else that is lent to the same call.
 * Nothing is kept after a call and nothing is allocated: calls may run at the same time. A call takes less than 64 KiB of stack,
 * digit_table_write less than 16 KiB.
 *
 * A reply is a number and a place (FORMAT 9.3 and 9.18 in docs/FORMAT.md): number 0 for a list that was read or written, a table that was
 * accepted and a table that was made, 1 to 21 for a refusal, whose clause has its number (FORMAT 10.1 to 10.21). The place is a line, a
 * cell, a row or an input, by the number; of a list that was written it is the length. Lines, cells, rows, values and inputs count from 0. */
#ifndef DIGIT_TABLE_H
#define DIGIT_TABLE_H

#include <stddef.h>
#include <stdint.h>

#ifdef __cplusplus
extern "C" {
#endif

/* Reads a list (FORMAT 9.4, 9.19).
 * Reads: the list's bytes.
 * Writes: the place, 0 where the list is read; and p and its counts of values, cells and rows where 0 is returned. A refusal leaves these four
 *   as they are.
 * Returns: 0, or the number of the refusal, 1 to 12. */
uint32_t digit_table_read(const uint8_t *list, size_t list_length,
                          size_t *place, uint32_t *p, size_t *values, size_t *cells, size_t *rows);

/* Checks a table, whoever wrote it (FORMAT 9.6).
 * Reads: the list's bytes and the table's cells.
 * Writes: the place, 0 where the table is accepted. The table is left as it is.
 * Returns: 0, or the number of the refusal, 1 to 15. */
uint32_t digit_table_check(const uint8_t *list, size_t list_length,
                           const uint32_t *table, size_t table_length,
                           size_t *place);

/* Makes the table of a column of inputs (FORMAT 9.7, 9.8). The table has as many cells as digit_table_read counts.
 * Reads: the list's bytes and the inputs.
 * Writes: the place; and every cell of the table where 0 is returned, no cell where not.
 * Returns: 0, or the number of the refusal, 1 to 13 or 16 to 18. */
uint32_t digit_table_make(const uint8_t *list, size_t list_length,
                          const int64_t *inputs, size_t inputs_length,
                          uint32_t *table, size_t table_length,
                          size_t *place);

/* Shows a line (FORMAT 9.9, 9.10, 9.20): which cells of a table hold it, table[*first] to table[*first + count - 1].
 * Reads: the list's bytes. Of the table the length alone counts.
 * Writes: the first cell, 0 where there is none. *first + count is never more than table_length.
 * Returns: the count of cells. It is 0 for the field line, for a line that is not there, for a refused list and for a wrong table length. */
size_t digit_table_show(const uint8_t *list, size_t list_length,
                        const uint32_t *table, size_t table_length,
                        size_t line, size_t *first);

/* Calls a desk (FORMAT 9.11 to 9.15, 9.19), which is three counts; a fresh one has 0, 0, 0. It checks the table and counts the call.
 * Reads: the counts, the list's bytes and the table's cells.
 * Writes: the place, and the counts: heard is one more, and so is accepted where 0 is returned, else refused. Refusals 19 and 20, which come
 *   before all others, leave the counts as they are.
 * Returns: what digit_table_check returns; or 19 where heard is not accepted + refused, 20 where heard is 2^64-1. */
uint32_t digit_table_desk_call(uint64_t *heard, uint64_t *accepted, uint64_t *refused,
                               const uint8_t *list, size_t list_length,
                               const uint32_t *table, size_t table_length,
                               size_t *place);

/* Answers an input as the program does (FORMAT 9.16, 9.17): a list, the line `end`, then one input a line, by the lines of the table or by
 * one line `refused`, number, place.
 * Reads: the input's bytes.
 * Writes: the answer, at the start of the output, where it has room; the rest of the output, or all of it where the answer has no room, is
 *   left as it is.
 * Returns: the length of the answer, or 0 where it has no room. In DIGIT_TABLE_LONGEST_ANSWER bytes every answer has room. */
size_t digit_table_respond(const uint8_t *input, size_t input_length,
                           uint8_t *output, size_t output_length);

#define DIGIT_TABLE_LONGEST_ANSWER 65547

/* The codes of the words (FORMAT 3.1, 9.24). */
enum digit_table_word {
    DIGIT_TABLE_WORD_FIELD = 0,
    DIGIT_TABLE_WORD_IN = 1,
    DIGIT_TABLE_WORD_SPAN = 2,
    DIGIT_TABLE_WORD_SUM = 3,
    DIGIT_TABLE_WORD_RELU = 4,
    DIGIT_TABLE_WORD_WHICH = 5,
    DIGIT_TABLE_WORD_MAX = 6,
    DIGIT_TABLE_WORD_ROOT = 7
};

/* Writes a list (FORMAT 9.23 to 9.28) whose lines come as words and numbers: the code of each line's word, how many numbers each line has,
 * and the numbers of all lines one after another. There are as many lines as words.
 * Reads: the words, the counts and the numbers. A line with a code of no word, or with more numbers than are left, is refused 3.
 * Writes: the place, which is the text's length where 0 is returned; and the text, at the start of the buffer, where 0 is returned. The rest of
 *   the buffer, or all of it where not, is left as it is.
 * Returns: 0, or the number of the refusal: 1 to 12 where digit_table_read refuses the text, with its place; 21 where the buffer is shorter
 *   than the text. In DIGIT_TABLE_LONGEST_LIST bytes every list has room. */
uint32_t digit_table_write(const uint8_t *words, size_t words_length,
                           const size_t *counts, size_t counts_length,
                           const int64_t *numbers, size_t numbers_length,
                           uint8_t *buffer, size_t buffer_length,
                           size_t *place);

#define DIGIT_TABLE_LONGEST_LIST 65536

#ifdef __cplusplus
}
#endif

#endif
