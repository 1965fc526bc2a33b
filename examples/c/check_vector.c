/* Checks a vector file and says the verdict in words, with the record that a refusal is about.
 *
 *   check_vector FILE      the exit status is 0 where the vector is taken, 1 where it is refused, 2 where it cannot be read
 */
#include <stdio.h>
#include <stdlib.h>

#include "file.h"
#include "verdict.h"

int main(int argc, char **argv)
{
    if (argc != 2) {
        fprintf(stderr, "usage: check_vector FILE\n");
        return 2;
    }
    size_t length = 0;
    uint8_t *vector = read_file(argv[1], &length);
    if (vector == NULL) {
        fprintf(stderr, "check_vector: cannot read %s\n", argv[1]);
        return 2;
    }
    int taken = say_refusal(vector, length);
    if (taken)
        puts("taken");
    free(vector);
    return taken ? 0 : 1;
}
