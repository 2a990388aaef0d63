/* The scoper of Penne scripts, for C. Link libhurdlebraid.a, which `rt lib` in crates/hurdlebraid writes, on x86-64 Linux.
 *
 * Each pointer comes with the number of elements behind it, and is not NULL, not even for 0 elements. What a call
 * writes to overlaps nothing else that it is lent. The calls keep nothing, allocate nothing and need no more than
 * 256 KB of stack.
 *
 * `outcome` gets, as far as it has room: the refusal's number, or 0; the place of the fault in the tree, or 0; then two
 * values of the call, 0 where it refuses; then zeros. Four words hold all there is.
 */
#ifndef HURDLEBRAID_H
#define HURDLEBRAID_H

#include <stddef.h>
#include <stdint.h>

#ifdef __cplusplus
extern "C" {
#endif

enum {
    HURDLEBRAID_TREE_BYTES = 65535, /* no tree may be longer */
    HURDLEBRAID_WORK_WORDS = 16384, /* no less work memory will do */
    HURDLEBRAID_LIST_WORDS = 16384, /* no list needs more */
    HURDLEBRAID_OUTCOME_WORDS = 4
};

/* Scopes a tree. Values: the answer's length in bytes, the number of records in the list. A record is two words: the
 * offset of a use in the tree, and the offset of the declaration that a goto may skip. All that was lent is zero behind
 * these lengths, work memory as a whole; after a refusal answer, list and work memory are all zero. All may hold
 * anything before. */
void hurdlebraid_analyze(const uint8_t *tree, size_t tree_bytes, uint8_t *answer, size_t answer_bytes, uint32_t *list,
                         size_t list_words, uint32_t *work, size_t work_words, uint64_t *outcome,
                         size_t outcome_words);

/* Of an answered tree, a declaration's depth, or `max` where it has none. Values: the depth; 1 for a constant or
 * structure that has one, else 0. */
void hurdlebraid_container_depth(const uint8_t *tree, size_t tree_bytes, uint32_t declaration, uint32_t max,
                                 uint64_t *outcome, size_t outcome_words);

/* Of an answered tree, a structure's name as a part of the tree. Values: where it starts, its length; 0 and 0 for
 * another declaration. */
void hurdlebraid_structure_name(const uint8_t *tree, size_t tree_bytes, uint32_t declaration, uint64_t *outcome,
                                size_t outcome_words);

#ifdef __cplusplus
}
#endif

#endif
