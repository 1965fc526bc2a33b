/* Whole runs of the partitioning core, for C: a vector and event records go in, the answers come out.
 *
 * Link with libentrance.a (`tools/archive entrance` builds target/staticlib/libentrance.a); it needs the C library only.
 * docs/C.md shows how, and docs/SCRIPT.md has the format of the records.
 */
#ifndef XM_RUN_H
#define XM_RUN_H

#include <stddef.h>
#include <stdint.h>

#ifdef __cplusplus
extern "C" {
#endif

/* The kinds of event records. A record is the length of its body (2 bytes), its kind (2 bytes) and its body; all numbers have
 * their lowest byte first. */
enum xm_event_kind {
    XM_EVENT_TICK = 32,        /* time 4 */
    XM_EVENT_CALL = 33,        /* partition 1, call number 1, five arguments of 4 each */
    XM_EVENT_LOAD = 34,        /* partition 1, offset 4 */
    XM_EVENT_STORE = 35,       /* partition 1, offset 4, byte 1 */
    XM_EVENT_FAULT = 36,       /* partition 1, event 1 */
    XM_EVENT_LINE = 37,        /* line 1 */
    XM_EVENT_SYSTEM_FAULT = 38 /* event 1 */
};

/* The code of an answer: below 0 the event is refused, and nothing has changed. */
enum xm_refusal_code {
    XM_NO_ACTION = -1,         /* there is nothing to do it to */
    XM_UNKNOWN_HYPERCALL = -2, /* no call has this number */
    XM_INVALID_PARAM = -3,     /* an argument names nothing that there is */
    XM_PERM_ERROR = -4,        /* only a system partition may do this */
    XM_INVALID_CONFIG = -5,    /* it does not agree with the configuration */
    XM_INVALID_MODE = -6,      /* the port has the other direction */
    XM_NOT_AVAILABLE = -7,     /* it is full or empty */
    XM_OP_NOT_ALLOWED = -8,    /* time cannot go there */
    XM_NOT_ON_PROCESSOR = -9,  /* the core's own: the partition's slot does not run, or it is not READY */
    XM_SYSTEM_HALTED = -10     /* the core's own: the whole system is halted */
};

/* The bytes of an answer, and what they say. */
#define XM_ANSWER_BYTES 12

struct xm_answer {
    int32_t code;
    uint32_t a;
    uint32_t b;
};

/* What xm_run answers where not all events were answered. */
#define XM_RUN_FAILED SIZE_MAX

/* Boots the vector on a board of zeros, and takes the event records one after another. Each answer is put behind the one before
 * it: code, a and b, 4 bytes each, the lowest first; a code below 0 is counted from 2^32 down.
 *
 * The result is the number of events answered, if all are. It is XM_RUN_FAILED
 *   - where the vector is refused (xm_vector.h says why): nothing is written;
 *   - at a record that is cut, of no kind, or of a wrong length: the events before it are taken and answered;
 *   - where a record is left and the answers have no room for XM_ANSWER_BYTES more: the events before it are taken and answered.
 * A record's form comes before its room. Bytes of the answers that no answer was put into stay as they were.
 *
 * Vector and records are read, and neither kept nor changed. The answers must not overlap them. A null pointer is no range of
 * bytes: pass the length 0 with any valid pointer. Nothing is allocated, and nothing is kept between calls, so several threads
 * may call it at once. */
size_t xm_run(const uint8_t *vector, size_t vector_length, const uint8_t *records, size_t records_length, uint8_t *answers,
              size_t answers_length);

/* Four bytes as a number. */
static inline uint32_t xm_number_at(const uint8_t *bytes)
{
    return bytes[0] | (uint32_t)bytes[1] << 8 | (uint32_t)bytes[2] << 16 | (uint32_t)bytes[3] << 24;
}

/* An answer of xm_run, counted from 0. */
static inline struct xm_answer xm_answer_at(const uint8_t *answers, size_t number)
{
    const uint8_t *bytes = answers + XM_ANSWER_BYTES * number;
    struct xm_answer answer = {(int32_t)xm_number_at(bytes), xm_number_at(bytes + 4), xm_number_at(bytes + 8)};
    return answer;
}

#ifdef __cplusplus
}
#endif

#endif
