/*
 * The calls of the checker. What their contracts prove is in crates/checker; what no contract can say is here. What the files hold, the
 * tags of functions and the numbers of rules among it, is in docs/FORMATS.md.
 *
 * A slice is a pointer and a length; a length of 0 may come with any pointer. The slices of one call do not overlap, and nothing else
 * reads or writes them while the call runs. A work area of LEVTOSZIV_WORK_BYTES is long enough for every call.
 *
 * Stack that a call was measured to need at most (./bench): check 573 KB, draw 289 KB, canonical form 120 KB. A thread that has
 * LEVTOSZIV_STACK_BYTES left when it calls has enough.
 *
 * The answer packs the outcome. Bits 56 up: 0 refused, 1 attack, 2 run, 3 written. Refused: bits 32 to 39 the number of document 01's
 * refusal table, bits 0 to 31 the item. Attack and run: bits 32 to 47 the nodes, bits 16 to 31 the nodes with an action, bits 0 to 15
 * the edges. Written: bits 0 to 31 the length. All other bits are zero. The functions behind the calls take an answer apart.
 */
#ifndef LEVTOSZIV_H
#define LEVTOSZIV_H

#include <stddef.h>
#include <stdint.h>

#ifdef __cplusplus
extern "C" {
#endif

/* Bytes that the lent slices and the files have at most. */
enum {
    LEVTOSZIV_WORK_BYTES = 65536,
    LEVTOSZIV_STACK_BYTES = 1048576,
    LEVTOSZIV_PROTOCOL_BYTES = 4096,
    LEVTOSZIV_PROPERTY_BYTES = 1024,
    LEVTOSZIV_STEPS_BYTES = 32768,
    LEVTOSZIV_GRAPH_BYTES = 61440,
    LEVTOSZIV_TERM_BYTES = 1280
};

/* The largest number that a file can hold, be it a name's or any other: FF FF FF 7F (hexadecimal), four groups of seven bits. */
enum {
    LEVTOSZIV_LARGEST_NUMBER = 268435455
};

/* What an answer is. */
enum levtosziv_kind {
    LEVTOSZIV_REFUSED = 0,
    LEVTOSZIV_ATTACK = 1,
    LEVTOSZIV_RUN = 2,
    LEVTOSZIV_WRITTEN = 3
};

/* The numbers of the refusal table. */
enum levtosziv_cause {
    LEVTOSZIV_WORK_AREA_SHORT = 1,
    LEVTOSZIV_FILE_TOO_LONG = 2,
    LEVTOSZIV_LAYOUT = 3,
    LEVTOSZIV_CONDITIONS_BROKEN = 4,
    LEVTOSZIV_VARIABLE = 5,
    LEVTOSZIV_NO_SUCH_RULE = 6,
    LEVTOSZIV_VALUE = 7,
    LEVTOSZIV_TERM_TOO_LARGE = 8,
    LEVTOSZIV_NAME_MADE_TWICE = 9,
    LEVTOSZIV_EDGE_END = 10,
    LEVTOSZIV_FACTS_DIFFER = 11,
    LEVTOSZIV_PREMISE_EDGES = 12,
    LEVTOSZIV_USED_TWICE = 13,
    LEVTOSZIV_NOT_IN_STATE = 14,
    LEVTOSZIV_OUTPUT_SHORT = 15
};

/* The item of refusals 2 and 3. */
enum levtosziv_file {
    LEVTOSZIV_PROTOCOL = 1,
    LEVTOSZIV_PROPERTY = 2,
    LEVTOSZIV_GRAPH = 3,
    LEVTOSZIV_TERM = 4,
    LEVTOSZIV_STEPS = 5
};

/* Rules on the graph under the protocol, and judges the property over its trace: attack (the property is false), run, or a refusal. */
uint64_t levtosziv_check(const uint8_t *protocol, size_t protocol_length, const uint8_t *property, size_t property_length,
                         const uint8_t *graph, size_t graph_length, uint8_t *work, size_t work_length);

/*
 * Writes the graph of the steps, which are a run of the protocol, to the start of the output: the steps' bytes, then the edges. For each
 * premise, nodes in order and premises in order, an edge comes from the lowest node and then the lowest conclusion that is equal and, if
 * linear, still unused. So the same steps give the same bytes, whatever output and work area are lent. An output of
 * LEVTOSZIV_GRAPH_BYTES is always long enough; a shorter one that is too short is refused with 15 and the bytes needed.
 */
uint64_t levtosziv_draw(const uint8_t *protocol, size_t protocol_length, const uint8_t *steps, size_t steps_length,
                        uint8_t *output, size_t output_length, uint8_t *work, size_t work_length);

/*
 * Writes the canonical form of the term file's term, read under the protocol, to the start of the output. An output of
 * LEVTOSZIV_TERM_BYTES is always long enough: a term has at most 256 symbols, and these take at most 1,024 bytes. So a term file that is
 * longer than that, though not over its limit, is refused with 3 or 8. The functions of tags 3 to 12, and those of public keys and
 * signatures, 29 to 34, are there under every protocol; tags 13 to 28 are those that it declares.
 */
uint64_t levtosziv_canonical(const uint8_t *protocol, size_t protocol_length, const uint8_t *term, size_t term_length,
                             uint8_t *output, size_t output_length, uint8_t *work, size_t work_length);

/* Which of enum levtosziv_kind an answer is. */
static inline unsigned levtosziv_kind(uint64_t answer) { return (unsigned)(answer >> 56); }
static inline int levtosziv_is_refused(uint64_t answer) { return levtosziv_kind(answer) == LEVTOSZIV_REFUSED; }
static inline int levtosziv_is_attack(uint64_t answer) { return levtosziv_kind(answer) == LEVTOSZIV_ATTACK; }
static inline int levtosziv_is_run(uint64_t answer) { return levtosziv_kind(answer) == LEVTOSZIV_RUN; }
static inline int levtosziv_is_written(uint64_t answer) { return levtosziv_kind(answer) == LEVTOSZIV_WRITTEN; }

/* Of a refusal: which of enum levtosziv_cause, and its item. */
static inline unsigned levtosziv_refusal(uint64_t answer) { return (unsigned)(answer >> 32 & 0xFF); }
static inline uint32_t levtosziv_item(uint64_t answer) { return (uint32_t)answer; }

/* Of an attack or a run. */
static inline unsigned levtosziv_nodes(uint64_t answer) { return (unsigned)(answer >> 32 & 0xFFFF); }
static inline unsigned levtosziv_nodes_with_action(uint64_t answer) { return (unsigned)(answer >> 16 & 0xFFFF); }
static inline unsigned levtosziv_edges(uint64_t answer) { return (unsigned)(answer & 0xFFFF); }

/* Of drawing and canonical form: the bytes that were written. */
static inline uint32_t levtosziv_length(uint64_t answer) { return (uint32_t)answer; }

/* A cause of the refusal table in words; the empty string for a number that it does not have. */
static inline const char *levtosziv_words(unsigned refusal)
{
    switch (refusal) {
    case LEVTOSZIV_WORK_AREA_SHORT: return "the work area is short";
    case LEVTOSZIV_FILE_TOO_LONG: return "a file is over its byte limit";
    case LEVTOSZIV_LAYOUT: return "a file is not laid out as one of its kind";
    case LEVTOSZIV_CONDITIONS_BROKEN: return "a rule breaks one of the conditions P1 to P5";
    case LEVTOSZIV_VARIABLE: return "a variable of the property is out of scope, of the wrong sort, or new and not in its guard";
    case LEVTOSZIV_NO_SUCH_RULE: return "there is no such rule";
    case LEVTOSZIV_VALUE: return "a value is not canonical, holds a variable, has the wrong sort, or is too large";
    case LEVTOSZIV_TERM_TOO_LARGE: return "a filled-in term is too large";
    case LEVTOSZIV_NAME_MADE_TWICE: return "a fresh name is made twice";
    case LEVTOSZIV_EDGE_END: return "an edge's end is missing, or its source is not earlier";
    case LEVTOSZIV_FACTS_DIFFER: return "the two facts of an edge differ";
    case LEVTOSZIV_PREMISE_EDGES: return "a premise has not exactly one edge";
    case LEVTOSZIV_USED_TWICE: return "a linear conclusion is used twice";
    case LEVTOSZIV_NOT_IN_STATE: return "a premise is not in the state";
    case LEVTOSZIV_OUTPUT_SHORT: return "the output is short";
    default: return "";
    }
}

#ifdef __cplusplus
}
#endif

#endif
