/* Canonical forms of the terms on standard input, each a line in hexadecimal, under a protocol with two free functions, of one argument and of
   two. Writes a line for each: the form, or "refused NUMBER ITEM". */
#include "levtosziv.h"

#include <ctype.h>
#include <stdio.h>
#include <string.h>

static uint8_t work[LEVTOSZIV_WORK_BYTES];

/* The bytes of a line; their number. */
static size_t read_bytes(const char *line, uint8_t *bytes, size_t most)
{
    size_t length = 0;
    unsigned byte;
    while (length < most && isxdigit((unsigned char)line[0]) && sscanf(line, "%2x", &byte) == 1) {
        bytes[length++] = (uint8_t)byte;
        line += 2;
    }
    return length;
}

int main(void)
{
    const uint8_t protocol[] = {2, 1, 2, 0, 0};
    static char line[2 * LEVTOSZIV_TERM_BYTES + 2];
    static uint8_t term[LEVTOSZIV_TERM_BYTES], form[LEVTOSZIV_TERM_BYTES];

    while (fgets(line, sizeof line, stdin)) {
        size_t length = read_bytes(line, term, sizeof term);
        uint64_t answer = levtosziv_canonical(protocol, sizeof protocol, term, length, form, sizeof form, work, sizeof work);
        if (answer >> 56 == LEVTOSZIV_WRITTEN) {
            for (size_t i = 0; i < (uint32_t)answer; i++)
                printf("%02x", form[i]);
            putchar('\n');
        } else {
            printf("refused %u %u\n", (unsigned)(answer >> 32), (unsigned)(uint32_t)answer);
        }
    }
    return 0;
}
