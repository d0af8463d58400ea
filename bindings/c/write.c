/* Writes the list of P1 (FORMAT 12.1) from words and numbers, prints it, and reads it back. */
#include <inttypes.h>
#include <stdio.h>

#include "digit_table.h"

int main(void)
{
    const uint8_t words[3] = {DIGIT_TABLE_WORD_FIELD, DIGIT_TABLE_WORD_IN, DIGIT_TABLE_WORD_RELU};
    const size_t counts[3] = {1, 0, 3};
    int64_t numbers[4] = {31, 0, 2, 4};
    uint8_t buffer[DIGIT_TABLE_LONGEST_LIST];
    size_t length, place, values, cells, rows;
    uint32_t p;

    uint32_t number = digit_table_write(words, 3, counts, 3, numbers, 4, buffer, sizeof buffer, &length);
    if (number != 0) {
        printf("refused\t%" PRIu32 "\t%zu\n", number, length);
        return 1;
    }
    fwrite(buffer, 1, length, stdout);
    printf("written: %zu bytes\n", length);
    number = digit_table_read(buffer, length, &place, &p, &values, &cells, &rows);
    printf("read: %" PRIu32 ", p %" PRIu32 ", %zu values, %zu cells, %zu rows\n", number, p, values, cells, rows);

    /* Refusals: a buffer that is one byte too short, and a value that no line before has made. */
    number = digit_table_write(words, 3, counts, 3, numbers, 4, buffer, length - 1, &place);
    printf("in %zu bytes: %" PRIu32 ", %zu\n", length - 1, number, place);
    numbers[1] = 1;
    number = digit_table_write(words, 3, counts, 3, numbers, 4, buffer, sizeof buffer, &place);
    printf("of value 1: %" PRIu32 ", %zu\n", number, place);
    return 0;
}
