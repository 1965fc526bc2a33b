/* The vector check of the partitioning core, for C.
 *
 * Link with libvector.a (`tools/archive vector` builds target/staticlib/libvector.a); it needs the C library only.
 * docs/C.md shows how, and docs/VECTOR.md has the format and each refusal with an example.
 *
 * The bytes are read and neither kept nor changed. A null pointer is not a vector: pass the length 0 with any valid pointer.
 * Nothing is allocated, and nothing is kept between calls, so several threads may call at once.
 */
#ifndef XM_VECTOR_H
#define XM_VECTOR_H

#include <stddef.h>
#include <stdint.h>

#ifdef __cplusplus
extern "C" {
#endif

/* Why a vector is refused; 0 means that it is taken.
 * Layer frame: 12 to 16; layer field: 21; layer relation: 31 to 33. */
enum xm_vector_refusal_number {
    XM_VECTOR_TAKEN = 0,
    XM_VECTOR_PAST_END = 12,     /* a record passes the end */
    XM_VECTOR_UNKNOWN_KIND = 13, /* a kind that is not 1 to 9 */
    XM_VECTOR_BODY_LENGTH = 14,  /* a body length that is wrong for the kind */
    XM_VECTOR_OUT_OF_TURN = 15,  /* a kind that may not stand here */
    XM_VECTOR_OWED = 16,         /* the end, while more is owed */
    XM_VECTOR_FIELD_RANGE = 21,  /* a field out of its range */
    XM_VECTOR_TOO_MANY = 31,     /* a 17th slot, 9th channel, 33rd port, or a queuing channel's third port */
    XM_VECTOR_REPEATED = 32,     /* a name, a partition in a channel, an IPVI, a line or an action that was given before */
    XM_VECTOR_MISPLACED = 33     /* a slot that starts before the last one's end, or ends after its frame */
};

/* The number of the first refusal of the vector, or 0 where it is taken. */
uint32_t xm_vector_refusal(const uint8_t *bytes, size_t length);

/* The place of the first refusal: the first byte of the field (21), the vector's length (16), else the first byte of the record.
 * 0 where the vector is taken. */
size_t xm_vector_place(const uint8_t *bytes, size_t length);

#ifdef __cplusplus
}
#endif

#endif
