/* The verdict on a vector, in words. */
#ifndef VERDICT_H
#define VERDICT_H

#include <stddef.h>
#include <stdint.h>

/* Says why a vector is refused, and in which record; says nothing where it is taken. Whether it is taken. */
int say_refusal(const uint8_t *vector, size_t length);

#endif
