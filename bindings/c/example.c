/* P1 (FORMAT 12.1): makes the table of -3, prints it as the program does, and checks it at a desk. */
#include <inttypes.h>
#include <stdio.h>
#include <string.h>

#include "digit_table.h"

int main(void)
{
    const uint8_t *list = (const uint8_t *)"field\t31\nin\nrelu\t0\t2\t4\n";
    const size_t list_length = strlen((const char *)list);
    const int64_t inputs[1] = {-3};
    uint32_t table[4096];
    size_t place, values, cells, rows;
    uint32_t p;

    uint32_t number = digit_table_read(list, list_length, &place, &p, &values, &cells, &rows);
    if (number == 0)
        number = digit_table_make(list, list_length, inputs, 1, table, cells, &place);
    if (number != 0) {
        printf("refused\t%" PRIu32 "\t%zu\n", number, place);
        return 1;
    }
    printf("table\t%zu\n", cells);
    for (size_t cell = 0; cell < cells; cell++)
        printf("%zu\t%" PRIu32 "\n", cell, table[cell]);

    uint64_t heard = 0, accepted = 0, refused = 0;
    number = digit_table_desk_call(&heard, &accepted, &refused, list, list_length, table, cells, &place);
    printf("checked: %" PRIu32 ", %zu\n", number, place);

    /* P5: a table with the input in the cell of the output is refused, at row 8. */
    table[1] = table[0];
    number = digit_table_desk_call(&heard, &accepted, &refused, list, list_length, table, cells, &place);
    printf("with cell 1 = %" PRIu32 ": %" PRIu32 ", %zu\n", table[1], number, place);
    printf("heard %" PRIu64 ", accepted %" PRIu64 ", refused %" PRIu64 "\n", heard, accepted, refused);

    size_t first;
    size_t count = digit_table_show(list, list_length, table, cells, 2, &first);
    printf("line 2: %zu cells from cell %zu on\n", count, first);
    return 0;
}
