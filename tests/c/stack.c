/* The most stack that each call needs on the cases of the given files: each case runs on a painted stack of its own. */
#include "cases.h"

#include <pthread.h>

enum { STACK = 4 << 20, PAINT = 0xC5 };

static uint8_t stack[STACK] __attribute__((aligned(4096)));
static uint8_t output[1 << 17], work[1 << 17];

static void *start(void *call)
{
    uint8_t here;
    run(call, output, work);
    return (void *)(&here - stack);
}

/* Bytes between the frame that calls and the lowest byte that is no paint any more. */
static size_t stack_of(struct call *call)
{
    pthread_attr_t attributes;
    pthread_t thread;
    void *top;
    size_t lowest = 0;
    memset(stack, PAINT, STACK);
    pthread_attr_init(&attributes);
    pthread_attr_setstack(&attributes, stack, STACK);
    if (pthread_create(&thread, &attributes, start, call) != 0)
        broken("no thread");
    pthread_join(thread, &top);
    pthread_attr_destroy(&attributes);
    while (lowest < STACK && stack[lowest] == PAINT)
        lowest++;
    return (size_t)top - lowest;
}

int main(int count, char **names)
{
    static const char *const calls[KINDS] = {"check", "draw", "canonical form"};
    for (int i = 1; i < count; i++) {
        size_t most[KINDS] = {0};
        uint32_t which[KINDS] = {0}, cases = open_cases(names[i]);
        for (uint32_t j = 0; j < cases; j++) {
            struct call call = next_case();
            size_t bytes = call.work_length <= sizeof work && call.output_length <= sizeof output ? stack_of(&call) : 0;
            if (bytes > most[call.kind]) {
                most[call.kind] = bytes;
                which[call.kind] = j;
            }
            release(&call);
        }
        for (int kind = 0; kind < KINDS; kind++)
            if (most[kind] > 0)
                printf("%s: %s %zu bytes of stack (case %u)\n", names[i], calls[kind], most[kind], which[kind]);
    }
    return 0;
}
