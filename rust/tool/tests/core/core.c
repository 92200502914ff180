/*
 * A core that answers what CORE_ANSWER says (hexadecimal, packed as in include/levtosziv.h); where CORE_CHECK_ONLY is set, drawing and
 * canonical form are the real ones. The linker puts these in the calls' place (--wrap).
 */
#include <stddef.h>
#include <stdint.h>
#include <stdlib.h>

typedef uint64_t two_files(const uint8_t *, size_t, const uint8_t *, size_t, uint8_t *, size_t, uint8_t *, size_t);

two_files __real_levtosziv_draw, __real_levtosziv_canonical;
two_files __wrap_levtosziv_draw, __wrap_levtosziv_canonical;
uint64_t __wrap_levtosziv_check(const uint8_t *, size_t, const uint8_t *, size_t, const uint8_t *, size_t, uint8_t *, size_t);

static uint64_t told(void)
{
    const char *answer = getenv("CORE_ANSWER");
    if (answer == NULL)
        abort();
    return strtoull(answer, NULL, 16);
}

uint64_t __wrap_levtosziv_check(const uint8_t *protocol, size_t protocol_length, const uint8_t *property, size_t property_length,
                                const uint8_t *graph, size_t graph_length, uint8_t *work, size_t work_length)
{
    (void)protocol, (void)protocol_length, (void)property, (void)property_length;
    (void)graph, (void)graph_length, (void)work, (void)work_length;
    return told();
}

uint64_t __wrap_levtosziv_draw(const uint8_t *protocol, size_t protocol_length, const uint8_t *steps, size_t steps_length,
                               uint8_t *output, size_t output_length, uint8_t *work, size_t work_length)
{
    if (getenv("CORE_CHECK_ONLY") == NULL)
        return told();
    return __real_levtosziv_draw(protocol, protocol_length, steps, steps_length, output, output_length, work, work_length);
}

uint64_t __wrap_levtosziv_canonical(const uint8_t *protocol, size_t protocol_length, const uint8_t *term, size_t term_length,
                                    uint8_t *output, size_t output_length, uint8_t *work, size_t work_length)
{
    if (getenv("CORE_CHECK_ONLY") == NULL)
        return told();
    return __real_levtosziv_canonical(protocol, protocol_length, term, term_length, output, output_length, work, work_length);
}
