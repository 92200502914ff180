/* The calls from C, by the header alone: document 01's first case of canonical form, a short output, a short work area, a recorded
   variable that no premise has; numbers of four groups and of five, and the term file's limit; the equations of adec and verify. */
#include "levtosziv.h"

#include <stdio.h>
#include <string.h>

static uint8_t work[65536];

/* h over h and so on, over a fresh name. */
static uint8_t nested[LEVTOSZIV_TERM_BYTES + 1];

static int asked;

static int fails(const char *what, int ok)
{
    asked++;
    if (!ok)
        printf("C: %s failed\n", what);
    return !ok;
}

int main(void)
{
    const uint8_t protocol[] = {0, 0, 0};
    /* exp(exp(exp(g,a),b),inv(a)) with g public name 0, a and b fresh names 0 and 1 */
    const uint8_t term[] = {10, 10, 10, 1, 0, 2, 0, 2, 1, 11, 2, 0};
    /* exp(g,b) */
    const uint8_t form[] = {10, 1, 0, 2, 1};
    /* Nothing --[ K(x) ]-> nothing, x a message. */
    const uint8_t unbound[] = {0, 0, 1, 1, 0, 0, 1, 3, 0, 0, 0};
    const uint8_t largest[] = {1, 255, 255, 255, 127};
    const uint8_t fifth_group[] = {1, 255, 255, 255, 255, 127};
    const uint8_t not_shortest[] = {1, 128, 128, 128, 0};
    /* Fresh names 129, 2,097,152 and 128, and as their bytes sort them. */
    const uint8_t product[] = {12, 2, 129, 1, 12, 2, 128, 128, 128, 1, 2, 128, 1};
    const uint8_t sorted[] = {12, 2, 128, 1, 12, 2, 128, 128, 128, 1, 2, 129, 1};
    /* adec(aenc(n0,pk(mul(n1,n2))),mul(n2,n1)), and with n1 as the key; verify(sign(n0,n1),n0,pk(n1)); mul(true,n0); a tag that no function has */
    const uint8_t decrypted[] = {30, 29, 2, 0, 31, 12, 2, 1, 2, 2, 12, 2, 2, 2, 1};
    const uint8_t other_key[] = {30, 29, 2, 0, 31, 12, 2, 1, 2, 2, 2, 1};
    const uint8_t verified[] = {33, 32, 2, 0, 2, 1, 2, 0, 31, 2, 1};
    const uint8_t with_true[] = {12, 34, 2, 0};
    const uint8_t true_behind[] = {12, 2, 0, 34};
    const uint8_t no_function[] = {35};
    uint8_t output[16];
    int failed = 0;

    memset(output, 0xA5, sizeof output);
    memset(work, 0x5A, sizeof work);
    uint64_t answer = levtosziv_canonical(protocol, sizeof protocol, term, sizeof term, output, sizeof output, work, sizeof work);
    failed += fails("the answer", answer == ((uint64_t)3 << 56 | 5));
    failed += fails("the output", memcmp(output, form, 5) == 0 && output[5] == 0xA5);
    failed += fails("the work area", work[0] == 0 && memcmp(work, work + 1, sizeof work - 1) == 0);

    answer = levtosziv_canonical(protocol, sizeof protocol, term, sizeof term, output, 4, work, sizeof work);
    failed += fails("a short output", answer == ((uint64_t)15 << 32 | 5));

    answer = levtosziv_canonical(protocol, sizeof protocol, term, sizeof term, output, sizeof output, work, sizeof work - 1);
    failed += fails("a short work area", answer == (uint64_t)1 << 32);

    answer = levtosziv_canonical(NULL, 0, term, sizeof term, output, sizeof output, work, sizeof work);
    failed += fails("an empty protocol", answer == ((uint64_t)3 << 32 | 1));

    answer = levtosziv_canonical(unbound, sizeof unbound, term, sizeof term, output, sizeof output, work, sizeof work);
    failed += fails("refused 4 1", answer == ((uint64_t)4 << 32 | 1));

    answer = levtosziv_canonical(protocol, sizeof protocol, largest, sizeof largest, output, sizeof output, work, sizeof work);
    failed += fails("the largest name", answer == ((uint64_t)3 << 56 | 5) && memcmp(output, largest, 5) == 0);
    answer = levtosziv_canonical(protocol, sizeof protocol, fifth_group, sizeof fifth_group, output, sizeof output, work, sizeof work);
    failed += fails("a fifth group", answer == ((uint64_t)3 << 32 | 4));
    answer = levtosziv_canonical(protocol, sizeof protocol, not_shortest, sizeof not_shortest, output, sizeof output, work, sizeof work);
    failed += fails("four groups that are not the shortest form", answer == ((uint64_t)3 << 32 | 4));
    answer = levtosziv_canonical(protocol, sizeof protocol, product, sizeof product, output, sizeof output, work, sizeof work);
    failed += fails("a product", answer == ((uint64_t)3 << 56 | sizeof sorted) && memcmp(output, sorted, sizeof sorted) == 0);

    answer = levtosziv_canonical(protocol, sizeof protocol, decrypted, sizeof decrypted, output, sizeof output, work, sizeof work);
    failed += fails("adec", answer == ((uint64_t)3 << 56 | 2) && output[0] == 2 && output[1] == 0);
    answer = levtosziv_canonical(protocol, sizeof protocol, other_key, sizeof other_key, output, sizeof output, work, sizeof work);
    failed += fails("adec with another key", answer == ((uint64_t)3 << 56 | sizeof other_key) && memcmp(output, other_key, sizeof other_key) == 0);
    answer = levtosziv_canonical(protocol, sizeof protocol, verified, sizeof verified, output, sizeof output, work, sizeof work);
    failed += fails("verify", answer == ((uint64_t)3 << 56 | 1) && output[0] == 34);
    answer = levtosziv_canonical(protocol, sizeof protocol, with_true, sizeof with_true, output, sizeof output, work, sizeof work);
    failed += fails("true as a factor", answer == ((uint64_t)3 << 56 | 4) && memcmp(output, true_behind, 4) == 0);
    answer = levtosziv_canonical(protocol, sizeof protocol, no_function, sizeof no_function, output, sizeof output, work, sizeof work);
    failed += fails("tag 35", answer == ((uint64_t)3 << 32 | 4));

    memset(nested, 6, sizeof nested);
    nested[LEVTOSZIV_TERM_BYTES - 2] = 2;
    nested[LEVTOSZIV_TERM_BYTES - 1] = 0;
    answer = levtosziv_canonical(protocol, sizeof protocol, nested, LEVTOSZIV_TERM_BYTES, output, sizeof output, work, sizeof work);
    failed += fails("a term file at its limit", answer == (uint64_t)8 << 32);
    answer = levtosziv_canonical(protocol, sizeof protocol, nested, LEVTOSZIV_TERM_BYTES - 1, output, sizeof output, work, sizeof work);
    failed += fails("one that is cut off", answer == ((uint64_t)3 << 32 | 4));
    answer = levtosziv_canonical(protocol, sizeof protocol, nested, sizeof nested, output, sizeof output, work, sizeof work);
    failed += fails("one above its limit", answer == ((uint64_t)2 << 32 | 4));
    failed += fails("the limits", LEVTOSZIV_TERM_BYTES == 1280 && LEVTOSZIV_LARGEST_NUMBER == (1 << 28) - 1);
    printf("C, canonical form: %d of %d as document 01 says\n", asked - failed, asked);
    return failed != 0;
}
