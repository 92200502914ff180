/*
 * Cases through the C functions, for valgrind's memcheck: every byte of output and work is undefined at entry, and every slice has a block of
 * its own. The answer, what is written and the work area must be defined and right; all else must be as it was.
 */
#include "cases.h"

#include <valgrind/memcheck.h>

/* Bytes whose content is known to us and undefined to memcheck. */
static uint8_t *undefined(size_t length, uint8_t byte)
{
    uint8_t *block = malloc(length);
    if (length > 0)
        memset(block, byte, length);
    VALGRIND_MAKE_MEM_UNDEFINED(block, length);
    return block;
}

/* Whether all bytes are this one. */
static int all(const uint8_t *bytes, size_t length, uint8_t byte)
{
    for (size_t i = 0; i < length; i++)
        if (bytes[i] != byte)
            return 0;
    return 1;
}

static int fails(const struct call *call)
{
    uint8_t *output = undefined(call->output_length, 0xA5), *work = undefined(call->work_length, 0x5A);
    size_t written = call->written.length;
    int short_work = call->answer == (uint64_t)1 << 32;
    int ok = run(call, output, work) == call->answer;
    if (written > 0)
        ok = ok && memcmp(output, call->written.bytes, written) == 0;
    VALGRIND_MAKE_MEM_DEFINED(output + written, call->output_length - written);
    ok = ok && all(output + written, call->output_length - written, 0xA5);
    if (short_work)
        VALGRIND_MAKE_MEM_DEFINED(work, call->work_length);
    ok = ok && all(work, call->work_length, short_work ? 0x5A : 0);
    free(output);
    free(work);
    return !ok;
}

int main(int count, char **names)
{
    unsigned failed = 0, ran = 0;
    for (int i = 1; i < count; i++) {
        uint32_t cases = open_cases(names[i]);
        for (uint32_t j = 0; j < cases; j++) {
            struct call call = next_case();
            if (fails(&call)) {
                printf("C: case %u of %s failed\n", j, names[i]);
                failed++;
            }
            ran++;
            release(&call);
        }
    }
    printf("C: %u cases, %u failed, memcheck %s, %u errors\n", ran, failed, RUNNING_ON_VALGRIND ? "on" : "off",
           (unsigned)VALGRIND_COUNT_ERRORS);
    return failed != 0 || VALGRIND_COUNT_ERRORS != 0;
}
