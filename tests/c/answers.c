/* Answers taken apart by the header's functions, from C and from C++. */
#include "levtosziv.h"

#include <stdio.h>
#include <string.h>

static uint8_t work[LEVTOSZIV_WORK_BYTES], output[LEVTOSZIV_GRAPH_BYTES];

static int failed;

static void holds(const char *what, int ok)
{
    if (!ok) {
        printf("C: %s failed\n", what);
        failed = 1;
    }
}

int main(void)
{
    const uint8_t protocol[] = {0, 1, 1, 0, 1, 1, 1, 1, 0, 0, 0, 1, 4, 0, 0, 1, 2, 0, 0};
    const uint8_t property[] = {12, 2, 0, 3, 4, 0, 0, 1, 12, 1, 3, 3, 0, 0, 2, 0};
    const uint8_t graph[] = {4, 0, 2, 7, 31, 2, 7, 1, 2, 7, 2, 2, 7, 3, 1, 1, 2, 1, 2, 1, 3, 1, 3, 1, 4, 1};
    const uint8_t not_false[] = {1, 1, 0, 1, 0};
    const size_t steps = 13;

    uint64_t answer = levtosziv_check(protocol, sizeof protocol, property, sizeof property, graph, sizeof graph, work, sizeof work);
    holds("an attack", levtosziv_is_attack(answer) && !levtosziv_is_run(answer) && !levtosziv_is_refused(answer) && !levtosziv_is_written(answer));
    holds("its counts", levtosziv_nodes(answer) == 4 && levtosziv_nodes_with_action(answer) == 2 && levtosziv_edges(answer) == 3);

    answer = levtosziv_check(protocol, sizeof protocol, not_false, sizeof not_false, graph, sizeof graph, work, sizeof work);
    holds("a run", levtosziv_is_run(answer) && levtosziv_nodes(answer) == 4);

    answer = levtosziv_check(protocol, sizeof protocol, property, sizeof property, graph, steps, work, sizeof work);
    holds("a refusal", levtosziv_is_refused(answer) && levtosziv_refusal(answer) == LEVTOSZIV_LAYOUT && levtosziv_item(answer) == LEVTOSZIV_GRAPH);
    holds("in words", strcmp(levtosziv_words(levtosziv_refusal(answer)), "a file is not laid out as one of its kind") == 0);

    answer = levtosziv_draw(protocol, sizeof protocol, graph, steps, output, sizeof output, work, sizeof work);
    holds("a graph", levtosziv_is_written(answer) && levtosziv_length(answer) == sizeof graph && memcmp(output, graph, steps) == 0);

    answer = levtosziv_draw(protocol, sizeof protocol, graph, steps, output, 25, work, sizeof work);
    holds("a short output", levtosziv_refusal(answer) == LEVTOSZIV_OUTPUT_SHORT && levtosziv_item(answer) == sizeof graph);

    for (unsigned refusal = 1; refusal <= 15; refusal++)
        holds("words for each refusal", levtosziv_words(refusal)[0] != 0);
    holds("none for others", levtosziv_words(0)[0] == 0 && levtosziv_words(16)[0] == 0);
    if (!failed)
        printf("C: answers taken apart\n");
    return failed;
}
