/*
 * Drawing from C, by the header alone: the steps of document 01's printed case, whose graph is then checked; a short output, a step list that is
 * no run, a name made twice, a short work area, a recorded variable that no premise has; equal facts, of which the lowest are taken; numbers
 * of four groups; rules 97 to 101.
 */
#include "levtosziv.h"

#include <stdio.h>
#include <string.h>

static uint8_t work[65536];

static int asked;

static int fails(const char *what, int ok)
{
    asked++;
    if (!ok)
        printf("C: %s failed\n", what);
    return !ok;
}

int main(void)
{
    const uint8_t protocol[] = {0, 1, 1, 0, 1, 1, 1, 1, 0, 0, 0, 1, 4, 0, 0, 1, 2, 0, 0};
    const uint8_t property[] = {12, 2, 0, 3, 4, 0, 0, 1, 12, 1, 3, 3, 0, 0, 2, 0};
    const uint8_t steps[] = {4, 0, 2, 7, 31, 2, 7, 1, 2, 7, 2, 2, 7};
    const uint8_t graph[] = {4, 0, 2, 7, 31, 2, 7, 1, 2, 7, 2, 2, 7, 3, 1, 1, 2, 1, 2, 1, 3, 1, 3, 1, 4, 1};
    /* The rule of the protocol, without the name that it takes; a name twice. */
    const uint8_t no_run[] = {1, 31, 2, 7};
    const uint8_t twice[] = {2, 0, 2, 7, 0, 2, 7};
    /* Nothing --[ K(x) ]-> nothing, x a message. */
    const uint8_t unbound[] = {0, 0, 1, 1, 0, 0, 1, 3, 0, 0, 0};
    /* Nothing to L, L; L, L to nothing. Both premises of node 3 are fed by node 1. */
    const uint8_t doubled[] = {0, 1, 0, 0, 2, 0, 0, 0, 2, 4, 4, 0, 2, 4, 4, 0, 0};
    const uint8_t equal_facts[] = {3, 31, 31, 32};
    const uint8_t earliest[] = {3, 31, 31, 32, 2, 1, 1, 3, 1, 1, 2, 3, 2};
    /* The largest name twice; a rule number and a variable in a value of four groups. */
    const uint8_t largest_twice[] = {2, 0, 2, 255, 255, 255, 127, 0, 2, 255, 255, 255, 127};
    const uint8_t wide_rule[] = {1, 133, 128, 128, 1};
    const uint8_t wide_variable[] = {1, 8, 0, 128, 128, 128, 1};
    /* p0 signed by itself and verified. */
    const uint8_t verified[] = {4, 3, 1, 0, 97, 1, 0, 98, 1, 0, 1, 0, 99, 32, 1, 0, 1, 0, 1, 0, 31, 1, 0};
    const uint8_t sources[] = {6, 1, 1, 2, 1, 1, 1, 3, 1, 1, 1, 3, 2, 3, 1, 4, 1, 1, 1, 4, 2, 2, 1, 4, 3};
    const uint8_t no_rule[] = {1, 101};
    uint8_t large[sizeof verified + sizeof sources];
    uint8_t output[32], other[sizeof earliest];
    int failed = 0;

    memset(output, 0xA5, sizeof output);
    memset(work, 0x5A, sizeof work);
    uint64_t answer = levtosziv_draw(protocol, sizeof protocol, steps, sizeof steps, output, sizeof graph - 1, work, sizeof work);
    failed += fails("a short output", answer == ((uint64_t)15 << 32 | sizeof graph) && output[0] == 0xA5);
    failed += fails("the work area", work[0] == 0 && memcmp(work, work + 1, sizeof work - 1) == 0);

    answer = levtosziv_draw(protocol, sizeof protocol, steps, sizeof steps, output, sizeof output, work, sizeof work);
    failed += fails("the length", answer == ((uint64_t)3 << 56 | sizeof graph));
    failed += fails("the graph", memcmp(output, graph, sizeof graph) == 0 && output[sizeof graph] == 0xA5);

    answer = levtosziv_check(protocol, sizeof protocol, property, sizeof property, output, sizeof graph, work, sizeof work);
    failed += fails("the ruling on the graph drawn", answer == ((uint64_t)1 << 56 | (uint64_t)4 << 32 | 2 << 16 | 3));

    answer = levtosziv_draw(protocol, sizeof protocol, no_run, sizeof no_run, output, sizeof output, work, sizeof work);
    failed += fails("no run", answer == ((uint64_t)14 << 32 | 1));

    answer = levtosziv_draw(protocol, sizeof protocol, twice, sizeof twice, output, sizeof output, work, sizeof work);
    failed += fails("a name twice", answer == ((uint64_t)9 << 32 | 2));

    memset(work, 0x5A, sizeof work);
    answer = levtosziv_draw(protocol, sizeof protocol, steps, sizeof steps, output, sizeof output, work, sizeof work - 1);
    failed += fails("a short work area", answer == (uint64_t)1 << 32 && work[0] == 0x5A);

    answer = levtosziv_draw(protocol, sizeof protocol, NULL, 0, output, sizeof output, work, sizeof work);
    failed += fails("an empty step list", answer == ((uint64_t)3 << 32 | 5));

    answer = levtosziv_draw(unbound, sizeof unbound, steps, sizeof steps, output, sizeof output, work, sizeof work);
    failed += fails("refused 4 1", answer == ((uint64_t)4 << 32 | 1));

    answer = levtosziv_draw(doubled, sizeof doubled, equal_facts, sizeof equal_facts, output, sizeof output, work, sizeof work);
    failed += fails("the length of the earliest", answer == ((uint64_t)3 << 56 | sizeof earliest));
    failed += fails("the earliest", memcmp(output, earliest, sizeof earliest) == 0);
    answer = levtosziv_draw(doubled, sizeof doubled, equal_facts, sizeof equal_facts, other, sizeof other, work, sizeof work);
    failed += fails("another output", answer == ((uint64_t)3 << 56 | sizeof earliest) && memcmp(output, other, sizeof other) == 0);
    answer = levtosziv_draw(doubled, sizeof doubled, equal_facts, sizeof equal_facts, other, sizeof other - 1, work, sizeof work);
    failed += fails("the need", answer == ((uint64_t)15 << 32 | sizeof earliest));

    answer = levtosziv_draw(protocol, sizeof protocol, largest_twice, sizeof largest_twice, output, sizeof output, work, sizeof work);
    failed += fails("the largest name twice", answer == ((uint64_t)9 << 32 | 2));
    answer = levtosziv_draw(protocol, sizeof protocol, wide_rule, sizeof wide_rule, output, sizeof output, work, sizeof work);
    failed += fails("a rule number of four groups", answer == ((uint64_t)6 << 32 | 1));
    answer = levtosziv_draw(protocol, sizeof protocol, wide_variable, sizeof wide_variable, output, sizeof output, work, sizeof work);
    failed += fails("a variable of four groups in a value", answer == ((uint64_t)7 << 32 | 1));

    answer = levtosziv_draw(protocol, sizeof protocol, verified, sizeof verified, large, sizeof large, work, sizeof work);
    failed += fails("a signature", answer == ((uint64_t)3 << 56 | sizeof large));
    failed += fails("its sources", memcmp(large, verified, sizeof verified) == 0 && memcmp(large + sizeof verified, sources, sizeof sources) == 0);
    answer = levtosziv_draw(protocol, sizeof protocol, no_rule, sizeof no_rule, output, sizeof output, work, sizeof work);
    failed += fails("rule 101", answer == ((uint64_t)6 << 32 | 1));
    printf("C, drawing: %d of %d as document 01 says\n", asked - failed, asked);
    return failed != 0;
}
