/* Calls xm_run once, and writes its result and every byte of the answers, with more bytes before and behind them.
 *
 *   answers VECTOR RECORDS ROOM
 */
#include <stdio.h>
#include <stdlib.h>
#include <string.h>

#include "file.h"
#include "xm_run.h"

enum { MARGIN = 64, FILLING = 0xA5 };

int main(int argc, char **argv)
{
    if (argc != 4)
        return 2;
    size_t vector_length = 0, records_length = 0, room = strtoul(argv[3], NULL, 10);
    uint8_t *vector = read_file(argv[1], &vector_length);
    uint8_t *records = read_file(argv[2], &records_length);
    uint8_t *bytes = malloc(MARGIN + room + MARGIN);
    if (vector == NULL || records == NULL || bytes == NULL)
        return 2;
    memset(bytes, FILLING, MARGIN + room + MARGIN);
    printf("%zu\n", xm_run(vector, vector_length, records, records_length, bytes + MARGIN, room));
    fwrite(bytes, 1, MARGIN + room + MARGIN, stdout);
    free(bytes);
    free(records);
    free(vector);
    return 0;
}
