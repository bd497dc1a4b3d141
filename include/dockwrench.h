/*
 * dockwrench.h: findings over a packed book of bcachefs keys. Link with libdockwrench.a.
 *
 * The functions are pure in their arguments: no allocation, no globals, no I/O, no state kept between calls, so any
 * number of threads may call them at once. The caller owes only this: each pointer is good for its length, `work` is
 * aligned to 8 bytes, and of one call's areas `findings` and `work` overlap nothing else. Where a length is 0 its
 * pointer may be null: nothing is read or written through it then. Any bytes may be a book: all are answered, none is
 * undefined.
 *
 * The archive is for x86-64 alone (ELF, the System V calling convention, no registers beyond those of SSE2). It needs
 * three C functions of its environment, memcpy, memmove and memset, and nothing else. A call takes at most
 * DOCKWRENCH_STACK bytes of stack: measured, not proved (tests/stack.c).
 */
#ifndef DOCKWRENCH_H
#define DOCKWRENCH_H

#include <stddef.h>
#include <stdint.h>

#ifdef __cplusplus
extern "C" {
#endif

#define DOCKWRENCH_BOOK_MAX 1048576     /* bytes of a book at most */
#define DOCKWRENCH_PARENTS_MAX 4096     /* entries of a parents table at most */
#define DOCKWRENCH_FINDING_BYTES 17     /* a finding: kind 1 byte, subject 8, object 8, most significant first */
#define DOCKWRENCH_WORDS_PER_KEY 2      /* work words for each key of the book */
#define DOCKWRENCH_STACK 24576          /* bytes of stack that a call takes at most: measured, and rounded up */

/*
 * Judges a book. The number of the answer is
 *
 *    0   all findings are in the buffer; count() is how many
 *   10   the buffer is too short for all of them; count() is how many there are in full
 *
 * and both times the buffer holds the whole findings that fit, from the first, its other bytes are as they were, and
 * every word of the work area is zero, however many were lent. An answer 0 with count 0 says that no rule found
 * anything. The links between snapshots are judged only where the book's trees mark is set (dockwrench_trees), and that
 * nothing is found there says that the snapshots are sound only in a forest book (README.md, "What an empty list
 * means"). Otherwise it is a refusal
 *
 *    1   over 1,048,576 bytes                              place 0
 *    2   under 32 bytes                                    place 0
 *    3   layout not 1, or a spare header bit set           place 0
 *    4   an entry, key head or value runs past the end     where the entry starts
 *    5   a spare bit, or a data type without has-type      where the entry starts
 *    6   a first field not above the one before            where the entry starts
 *    7   a key of btree 15 without the trees mark          where the key starts
 *    8   bytes after the last key                          the first of them
 *    9   work area short: under two words a key            place 0
 *   12   a parents table with the drawn mark               place 0
 *   13   a parents table of more than 4,096 entries        place 0
 *
 * with count() 0, and both areas are untouched. The first that applies is given: 1, 2, 3, 12, 13; then entries and
 * keys from front to back, at each 4, 5, 6, 7 before the next is looked at; then 8, 9.
 *
 * The parents of snapshots are those of the parents table, or in a drawn book (dockwrench_drawn) those that the keys
 * name: each key of btree 9 and type 22 with 8 value bytes or more gives the id in its offset's low 32 bits the parent
 * in bytes 4 to 7 of its value, least significant first. Of keys with one id the last gives the parent. They are not
 * counted: a drawn book may have more than 4,096 snapshots.
 */
uint64_t dockwrench_check(const uint8_t *book, size_t bytes, uint8_t *findings, size_t room, uint64_t *work, size_t words);

/*
 * The root above a snapshot id, by the book's parents: number 0, root() and links(), the number of parent links
 * followed, from 0 to 1,024; or number 11, where no such number of links leads to a root; or a refusal 1 to 8, 12 or 13
 * as above. What has no meaning is zero.
 *
 * Over a drawn book whose snapshots stand in rising order of id, with ids that rise towards the root, a call costs
 * about one pass over the keys. In any other order it may cost a pass for each link, of which there are 1,024 at most.
 */
uint64_t dockwrench_ancestor(const uint8_t *book, size_t bytes, uint32_t id);

/*
 * Whether a subvolume id is unavailable, by the state words of the book's keys: number 0 and yes(), which is 1 or 0; or
 * a refusal 1 to 8, 12 or 13. What has no meaning is zero.
 */
uint64_t dockwrench_unavailable(const uint8_t *book, size_t bytes, uint32_t id);

/* An answer taken apart: the top 8 bits, the next 24, the low 32. */
static inline unsigned dockwrench_number(uint64_t answer) { return (unsigned)(answer >> 56); }
static inline uint32_t dockwrench_place(uint64_t answer) { return (uint32_t)(answer >> 32) & 0xffffff; }
static inline uint32_t dockwrench_links(uint64_t answer) { return (uint32_t)(answer >> 32) & 0xffffff; }
static inline uint32_t dockwrench_count(uint64_t answer) { return (uint32_t)answer; }
static inline uint32_t dockwrench_root(uint64_t answer) { return (uint32_t)answer; }
static inline int dockwrench_yes(uint64_t answer) { return (uint32_t)answer == 1; }

/* The words of work area that a book needs: 131,070 at most, and 0 for bytes too few for a header. */
static inline size_t dockwrench_words(const uint8_t *book, size_t bytes) {
    return bytes < 32 ? 0 : DOCKWRENCH_WORDS_PER_KEY * ((size_t)book[6] << 8 | book[7]);
}

/* Whether the trees mark is set: the chains of snapshots are judged only then. 0 for bytes too few for a header. */
static inline int dockwrench_trees(const uint8_t *book, size_t bytes) { return bytes < 32 ? 0 : book[0] >> 3 & 1; }

/* Whether the drawn mark is set: the parents are those that the keys name. 0 for bytes too few for a header. */
static inline int dockwrench_drawn(const uint8_t *book, size_t bytes) { return bytes < 32 ? 0 : book[0] >> 2 & 1; }

/* A finding taken apart, from its first byte. Of kinds 23 and 26 the object is a state word: that of the known state that is nearest to the key's. */
static inline uint64_t dockwrench_word(const uint8_t *at) {
    uint64_t word = 0;
    for (int i = 0; i < 8; i++)
        word = word << 8 | at[i];
    return word;
}
static inline unsigned dockwrench_kind(const uint8_t *finding) { return finding[0]; }
static inline uint64_t dockwrench_subject(const uint8_t *finding) { return dockwrench_word(finding + 1); }
static inline uint64_t dockwrench_object(const uint8_t *finding) { return dockwrench_word(finding + 9); }

#ifdef __cplusplus
}
#endif

#endif
