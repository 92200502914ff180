/* The cases of tests/corpus/cases.bin, or of a file like it, whose layout tests/corpus/README.md says; and the calls on them. */
#ifndef CASES_H
#define CASES_H

#include "levtosziv.h"

#include <stdio.h>
#include <stdlib.h>
#include <string.h>

enum { CHECK, DRAW, CANONICAL, KINDS };

struct slice {
    const uint8_t *bytes;
    size_t length;
};

struct call {
    uint32_t kind;
    uint32_t work_length, output_length;
    uint32_t files;
    struct slice file[3];
    uint64_t answer;
    struct slice written;
};

static const uint8_t *at, *end;

static void broken(const char *what)
{
    fprintf(stderr, "no file of cases: %s\n", what);
    exit(2);
}

static struct slice take(size_t length)
{
    struct slice taken = {at, length};
    if ((size_t)(end - at) < length)
        broken("it is too short");
    at += length;
    return taken;
}

static uint32_t number(void)
{
    const uint8_t *b = take(4).bytes;
    return b[0] | (uint32_t)b[1] << 8 | (uint32_t)b[2] << 16 | (uint32_t)b[3] << 24;
}

/* The answer as levtosziv.h packs it. */
static uint64_t answer(void)
{
    uint64_t outcome = number(), a = number(), b = number(), c = number();
    switch (outcome) {
    case 0: return a << 32 | b;
    case 3: return outcome << 56 | a;
    default: return outcome << 56 | a << 32 | b << 16 | c;
    }
}

/* A copy of its own, so that a read behind it is seen. */
static struct slice own(struct slice slice)
{
    uint8_t *copy = malloc(slice.length);
    if (slice.length > 0)
        memcpy(copy, slice.bytes, slice.length);
    return (struct slice){copy, slice.length};
}

static struct call next_case(void)
{
    struct call call;
    call.kind = number();
    call.work_length = number();
    call.output_length = number();
    call.files = number();
    if (call.kind >= KINDS || call.files > 3)
        broken("no such case");
    for (uint32_t i = 0; i < call.files; i++)
        call.file[i] = own(take(number()));
    call.answer = answer();
    call.written = take(number());
    return call;
}

static void release(struct call *call)
{
    for (uint32_t i = 0; i < call->files; i++)
        free((void *)call->file[i].bytes);
}

/* How many cases a file has. */
static uint32_t open_cases(const char *name)
{
    FILE *file = fopen(name, "rb");
    static uint8_t bytes[1 << 24];
    if (file == NULL)
        broken(name);
    at = bytes;
    end = bytes + fread(bytes, 1, sizeof bytes, file);
    fclose(file);
    if (memcmp(take(4).bytes, "H5C1", 4) != 0)
        broken(name);
    return number();
}

static uint64_t run(const struct call *call, uint8_t *output, uint8_t *work)
{
    const struct slice *file = call->file;
    switch (call->kind) {
    case CHECK:
        return levtosziv_check(file[0].bytes, file[0].length, file[1].bytes, file[1].length, file[2].bytes, file[2].length, work,
                               call->work_length);
    case DRAW:
        return levtosziv_draw(file[0].bytes, file[0].length, file[1].bytes, file[1].length, output, call->output_length, work,
                              call->work_length);
    default:
        return levtosziv_canonical(file[0].bytes, file[0].length, file[1].bytes, file[1].length, output, call->output_length, work,
                                   call->work_length);
    }
}

#endif
