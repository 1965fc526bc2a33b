/* Whole files in memory. */
#ifndef FILE_H
#define FILE_H

#include <stddef.h>
#include <stdint.h>

/* The bytes of a file, which the caller frees; NULL where it cannot be read. */
uint8_t *read_file(const char *path, size_t *length);

#endif
