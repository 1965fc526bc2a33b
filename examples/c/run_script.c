/* Runs a script file, whose bytes `tools/xmtext encode` makes, and prints each answer, a refusal with its name.
 *
 *   run_script FILE        the exit status is 0 where all events were answered, 1 where the vector is refused, 2 where the
 *                          file is no script or cannot be read
 */
#include <stdio.h>
#include <stdlib.h>

#include "file.h"
#include "verdict.h"
#include "xm_run.h"

/* A script is the vector's length, the vector, and the event records. */
struct script {
    const uint8_t *vector;
    size_t vector_length;
    const uint8_t *records;
    size_t records_length;
};

/* Whether the bytes have as long a vector as they say. */
static int split(const uint8_t *bytes, size_t length, struct script *script)
{
    if (length < 2)
        return 0;
    script->vector = bytes + 2;
    script->vector_length = bytes[0] + 256u * bytes[1];
    if (script->vector_length > length - 2)
        return 0;
    script->records = script->vector + script->vector_length;
    script->records_length = length - 2 - script->vector_length;
    return 1;
}

/* The name of a refusal. */
static const char *refusal_name(int32_t code)
{
    switch (code) {
    case XM_NO_ACTION: return "XM_NO_ACTION";
    case XM_UNKNOWN_HYPERCALL: return "XM_UNKNOWN_HYPERCALL";
    case XM_INVALID_PARAM: return "XM_INVALID_PARAM";
    case XM_PERM_ERROR: return "XM_PERM_ERROR";
    case XM_INVALID_CONFIG: return "XM_INVALID_CONFIG";
    case XM_INVALID_MODE: return "XM_INVALID_MODE";
    case XM_NOT_AVAILABLE: return "XM_NOT_AVAILABLE";
    case XM_OP_NOT_ALLOWED: return "XM_OP_NOT_ALLOWED";
    case XM_NOT_ON_PROCESSOR: return "not on the processor";
    case XM_SYSTEM_HALTED: return "system halted";
    default: return "an unknown refusal";
    }
}

static void say_answer(size_t number, struct xm_answer answer)
{
    printf("%zu: %ld %lu %lu", number + 1, (long)answer.code, (unsigned long)answer.a, (unsigned long)answer.b);
    if (answer.code < 0)
        printf("  %s", refusal_name(answer.code));
    printf("\n");
}

/* How many records are whole, up to the end or the first that is not; *end is where that is. */
static size_t count_whole(const uint8_t *records, size_t length, size_t *end)
{
    static const size_t body_lengths[] = {4, 22, 5, 6, 2, 1, 1}; /* of the kinds 32 to 38 */
    size_t count = 0;
    for (*end = 0; length - *end >= 4; count++) {
        const uint8_t *head = records + *end;
        size_t body = head[0] + 256u * head[1];
        unsigned kind = head[2] + 256u * head[3];
        if (kind < XM_EVENT_TICK || XM_EVENT_SYSTEM_FAULT < kind || body != body_lengths[kind - XM_EVENT_TICK]
            || body > length - *end - 4)
            return count;
        *end += 4 + body;
    }
    return count;
}

/* Runs a script whose vector is taken. All whole records are answered, also where another follows that is not whole. */
static int run(const struct script *script)
{
    size_t end;
    size_t count = count_whole(script->records, script->records_length, &end);
    uint8_t *answers = malloc(XM_ANSWER_BYTES * count + 1);
    if (answers == NULL) {
        fprintf(stderr, "run_script: no memory for %zu answers\n", count);
        return 2;
    }
    size_t answered = xm_run(script->vector, script->vector_length, script->records, script->records_length, answers,
                             XM_ANSWER_BYTES * count);
    for (size_t number = 0; number < count; number++)
        say_answer(number, xm_answer_at(answers, number));
    free(answers);
    if (answered == count)
        return 0;
    printf("event record %zu, at byte %zu of the records, is cut, of no kind, or of a wrong length\n", count + 1, end);
    return 2;
}

int main(int argc, char **argv)
{
    if (argc != 2) {
        fprintf(stderr, "usage: run_script FILE\n");
        return 2;
    }
    size_t length = 0;
    uint8_t *bytes = read_file(argv[1], &length);
    if (bytes == NULL) {
        fprintf(stderr, "run_script: cannot read %s\n", argv[1]);
        return 2;
    }
    struct script script;
    int status = 2;
    if (!split(bytes, length, &script))
        puts("this is no script: it ends before its vector does");
    else
        status = say_refusal(script.vector, script.vector_length) ? run(&script) : 1;
    free(bytes);
    return status;
}
