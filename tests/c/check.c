/* Checking from C, by the header alone: document 01's printed case, without its last edge, no nodes at all, a short work area, a recorded
   variable that no premise has; numbers of four groups; rules 100 and 101, and true in a property. */
#include "levtosziv.h"

#include <stdio.h>
#include <string.h>

static uint8_t work[65536];

static int asked;

static int fails(const char *what, int ok)
{
    asked++;
    if (!ok)
        printf("C: %s failed\n", what);
    return !ok;
}

int main(void)
{
    const uint8_t protocol[] = {0, 1, 1, 0, 1, 1, 1, 1, 0, 0, 0, 1, 4, 0, 0, 1, 2, 0, 0};
    const uint8_t property[] = {12, 2, 0, 3, 4, 0, 0, 1, 12, 1, 3, 3, 0, 0, 2, 0};
    uint8_t graph[] = {4, 0, 2, 7, 31, 2, 7, 1, 2, 7, 2, 2, 7, 3, 1, 1, 2, 1, 2, 1, 3, 1, 3, 1, 4, 1};
    const uint8_t nothing[] = {0, 0};
    const uint8_t never[] = {0};
    /* Nothing --[ K(x) ]-> nothing, x a message. */
    const uint8_t unbound[] = {0, 0, 1, 1, 0, 0, 1, 3, 0, 0, 0};
    /* A property's variable, a rule number and a target node of four groups, each right in its lower three; the largest name. */
    const uint8_t wide_variable[] = {11, 2, 0, 3, 3, 0, 0, 1, 1, 0, 128, 128, 128, 1, 1, 0};
    const uint8_t wide_rule[] = {1, 131, 128, 128, 1, 1, 0, 0};
    const uint8_t wide_target[] = {2, 3, 1, 0, 2, 1, 0, 1, 1, 1, 130, 128, 128, 1, 1};
    const uint8_t wide_name[] = {2, 3, 1, 255, 255, 255, 127, 2, 1, 255, 255, 255, 127, 1, 1, 1, 2, 1};
    const uint8_t true_sent[] = {2, 100, 2, 34, 1, 1, 1, 2, 1};
    const uint8_t no_rule[] = {1, 101, 0};
    const uint8_t true_equal[] = {1, 34, 34};
    int failed = 0;

    memset(work, 0x5A, sizeof work);
    uint64_t answer = levtosziv_check(protocol, sizeof protocol, property, sizeof property, graph, sizeof graph, work, sizeof work);
    failed += fails("attack 4 2 3", answer == ((uint64_t)1 << 56 | (uint64_t)4 << 32 | 2 << 16 | 3));
    failed += fails("the work area", work[0] == 0 && memcmp(work, work + 1, sizeof work - 1) == 0);

    graph[13] = 2;
    answer = levtosziv_check(protocol, sizeof protocol, property, sizeof property, graph, sizeof graph - 4, work, sizeof work);
    failed += fails("refused 12 4", answer == ((uint64_t)12 << 32 | 4));

    answer = levtosziv_check(protocol, sizeof protocol, never, sizeof never, nothing, sizeof nothing, work, sizeof work);
    failed += fails("attack 0 0 0", answer == (uint64_t)1 << 56);

    memset(work, 0x5A, sizeof work);
    answer = levtosziv_check(protocol, sizeof protocol, never, sizeof never, nothing, sizeof nothing, work, sizeof work - 1);
    failed += fails("a short work area", answer == (uint64_t)1 << 32 && work[0] == 0x5A);

    answer = levtosziv_check(protocol, sizeof protocol, NULL, 0, nothing, sizeof nothing, work, sizeof work);
    failed += fails("an empty property", answer == ((uint64_t)3 << 32 | 2));

    answer = levtosziv_check(unbound, sizeof unbound, never, sizeof never, nothing, sizeof nothing, work, sizeof work);
    failed += fails("refused 4 1", answer == ((uint64_t)4 << 32 | 1));

    answer = levtosziv_check(protocol, sizeof protocol, wide_variable, sizeof wide_variable, nothing, sizeof nothing, work, sizeof work);
    failed += fails("refused 5 0", answer == (uint64_t)5 << 32);
    answer = levtosziv_check(protocol, sizeof protocol, never, sizeof never, wide_rule, sizeof wide_rule, work, sizeof work);
    failed += fails("refused 6 1", answer == ((uint64_t)6 << 32 | 1));
    answer = levtosziv_check(protocol, sizeof protocol, never, sizeof never, wide_target, sizeof wide_target, work, sizeof work);
    failed += fails("refused 10 1", answer == ((uint64_t)10 << 32 | 1));
    answer = levtosziv_check(protocol, sizeof protocol, never, sizeof never, wide_name, sizeof wide_name, work, sizeof work);
    failed += fails("attack 2 1 1", answer == ((uint64_t)1 << 56 | (uint64_t)2 << 32 | 1 << 16 | 1));

    answer = levtosziv_check(protocol, sizeof protocol, never, sizeof never, true_sent, sizeof true_sent, work, sizeof work);
    failed += fails("rule 100", answer == ((uint64_t)1 << 56 | (uint64_t)2 << 32 | 1 << 16 | 1));
    answer = levtosziv_check(protocol, sizeof protocol, never, sizeof never, no_rule, sizeof no_rule, work, sizeof work);
    failed += fails("rule 101", answer == ((uint64_t)6 << 32 | 1));
    answer = levtosziv_check(protocol, sizeof protocol, true_equal, sizeof true_equal, nothing, sizeof nothing, work, sizeof work);
    failed += fails("true in a property", answer == ((uint64_t)3 << 32 | 2));
    printf("C, checking: %d of %d as document 01 says\n", asked - failed, asked);
    return failed != 0;
}
