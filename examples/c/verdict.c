#include <stdio.h>

#include "verdict.h"
#include "xm_vector.h"

static const char *words(uint32_t number)
{
    switch (number) {
    case XM_VECTOR_PAST_END: return "a record passes the end";
    case XM_VECTOR_UNKNOWN_KIND: return "a kind that is not 1 to 9";
    case XM_VECTOR_BODY_LENGTH: return "a body length that is wrong for the kind";
    case XM_VECTOR_OUT_OF_TURN: return "a kind out of turn";
    case XM_VECTOR_OWED: return "the end comes while more is owed";
    case XM_VECTOR_FIELD_RANGE: return "a field out of its range";
    case XM_VECTOR_TOO_MANY: return "one slot, channel or port too many";
    case XM_VECTOR_REPEATED: return "given before";
    case XM_VECTOR_MISPLACED: return "a slot out of its place";
    default: return "an unknown refusal";
    }
}

/* The kinds of records, each with its fields: where they begin in the body, and what they are. */
struct field {
    size_t at;
    const char *name;
};

static const struct kind {
    const char *name;
    struct field fields[4];
} kinds[] = {
    {"a HEADER", {{0, "number of partitions"}, {1, "number of plans"}}},
    {"a PARTITION", {{0, "class"}, {1, "size"}}},
    {"a PLAN", {{0, "frame"}}},
    {"a SLOT", {{0, "partition"}, {1, "start"}, {5, "duration"}}},
    {"a CHANNEL", {{0, "type"}, {1, "longest message"}, {3, "depth"}}},
    {"a PORT", {{0, "partition"}, {1, "direction"}}},
    {"an IPVI", {{0, "number"}, {1, "source"}, {2, "mask of receivers"}}},
    {"a LINE", {{0, "line"}, {1, "owner"}}},
    {"an ACTION", {{0, "scope"}, {1, "event"}, {2, "action"}, {3, "log flag"}}},
};

static const char *field_at(const struct kind *kind, size_t at)
{
    for (size_t i = 0; i < 4 && kind->fields[i].name != NULL; i++)
        if (kind->fields[i].at == at)
            return kind->fields[i].name;
    return NULL;
}

/* Says what the record at `at` is, and its field at `place` if one begins there. */
static void say_kind(const uint8_t *vector, size_t at, unsigned number, size_t place)
{
    unsigned kind = vector[at + 2] + 256u * vector[at + 3];
    if (kind < 1 || 9 < kind) {
        printf("  in record %u, of an unknown kind, at byte %zu\n", number, at);
        return;
    }
    printf("  in record %u, %s, at byte %zu", number, kinds[kind - 1].name, at);
    const char *field = place >= at + 4 ? field_at(&kinds[kind - 1], place - at - 4) : NULL;
    if (field != NULL)
        printf(": its %s", field);
    printf("\n");
}

/* Says in which record a place lies. Up to the refused record all records are whole, so their lengths lead to it. */
static void say_record(const uint8_t *vector, size_t length, size_t place)
{
    size_t at = 0;
    for (unsigned number = 1; at < length; number++) {
        if (length - at < 4) {
            printf("  in record %u, whose head is cut, at byte %zu\n", number, at);
            return;
        }
        size_t body = vector[at] + 256u * vector[at + 1];
        if (place - at < 4 + body) {
            say_kind(vector, at, number, place);
            return;
        }
        at += 4 + body;
    }
    printf("  at the end of the vector\n");
}

int say_refusal(const uint8_t *vector, size_t length)
{
    uint32_t number = xm_vector_refusal(vector, length);
    if (number == XM_VECTOR_TAKEN)
        return 1;
    size_t place = xm_vector_place(vector, length);
    printf("refused %u at byte %zu: %s\n", (unsigned)number, place, words(number));
    say_record(vector, length, place);
    return 0;
}
