/* A book that a test writes, byte after byte; one byte more than a book may have fits. */
#ifndef WRITING_H
#define WRITING_H

#include "dockwrench.h"

#include <string.h>

#define HEADER 32
#define KEY_HEAD 28
#define TREES 0x0800 /* marks in the first two bytes of the header */
#define DRAWN 0x0400

static uint8_t book[DOCKWRENCH_BOOK_MAX + 1];
static size_t end; /* of what is written in the book */

/* A number of so many bytes, the most significant first. */
static inline void be(int bytes, uint64_t value) {
    for (int i = bytes - 1; i >= 0; i--)
        book[end++] = (uint8_t)(value >> 8 * i);
}

/* A word of a value, the least significant byte first. */
static inline void le32(uint32_t value) {
    for (int i = 0; i < 4; i++)
        book[end++] = (uint8_t)(value >> 8 * i);
}

static inline void put16(uint8_t *at, unsigned value) {
    at[0] = (uint8_t)(value >> 8);
    at[1] = (uint8_t)value;
}

/* A header of version 1,062 for a device 0 without buckets; all after it is zero. */
static inline void header(unsigned marks, unsigned key_count, unsigned parents, unsigned subvolumes) {
    memset(book, 0, sizeof book);
    put16(book, 0x1000 | marks);
    put16(book + 2, 1062);
    put16(book + 6, key_count);
    put16(book + 24, parents);
    put16(book + 26, subvolumes);
    end = HEADER;
}

/* An entry of the parents or the subvolumes. */
static inline void entry(uint32_t id, uint32_t word) {
    be(4, id);
    be(4, word);
}

static inline void key(unsigned btree, unsigned type, unsigned value_length, uint64_t offset) {
    be(1, btree);
    be(1, type);
    be(2, value_length << 5);
    be(4, 0); /* size */
    be(8, 0); /* inode */
    be(8, offset);
    be(4, 0); /* snapshot */
}

/* ---- sound forests */

/* So many trees, each a chain of so many links below its root. Ids start at 1; the trees take turns in them, and they
   rise towards the roots or away from them. Every snapshot has its root as a skip word. */
struct forest {
    unsigned marks; /* with DRAWN there is no parents table */
    uint32_t trees, links;
    int rises;       /* ids rise towards the roots */
    uint32_t stride; /* of ids, from a snapshot's key to the next; 1 is their rising order */
};

static inline uint32_t id_at(const struct forest *forest, uint32_t tree, uint32_t depth) {
    return (forest->rises ? forest->links - depth : depth) * forest->trees + tree;
}

static inline uint32_t tree_of(const struct forest *forest, uint32_t id) { return (id - 1) % forest->trees + 1; }

static inline uint32_t depth_of(const struct forest *forest, uint32_t id) {
    uint32_t turn = (id - 1) / forest->trees;
    return forest->rises ? forest->links - turn : turn;
}

static inline uint32_t parent_of(const struct forest *forest, uint32_t id) {
    uint32_t depth = depth_of(forest, id);
    return depth > 0 ? id_at(forest, tree_of(forest, id), depth - 1) : 0;
}

static inline void write_parents(const struct forest *forest, uint32_t snapshots) {
    for (uint32_t id = 1; id <= snapshots; id++)
        entry(id, parent_of(forest, id));
}

/* A subvolume for each tree, in its root. */
static inline void write_subvolumes(const struct forest *forest) {
    for (uint32_t tree = 1; tree <= forest->trees; tree++)
        entry(tree, id_at(forest, tree, 0));
}

static inline void write_trees(const struct forest *forest) {
    for (uint32_t tree = 1; tree <= forest->trees; tree++) {
        key(15, 31, 8, tree);
        le32(tree); /* subvolume */
        le32(id_at(forest, tree, 0));
    }
}

static inline void write_snapshot(const struct forest *forest, uint32_t id) {
    uint32_t tree = tree_of(forest, id), depth = depth_of(forest, id);
    key(9, 22, 40, id);
    le32(0); /* flags */
    le32(parent_of(forest, id));
    le32(depth < forest->links ? id_at(forest, tree, depth + 1) : 0); /* children */
    le32(0);
    le32(0); /* subvolume */
    le32(tree);
    le32(depth);
    le32(id_at(forest, tree, 0)); /* skip */
    le32(0);
    le32(0);
}

static inline void write_forest(const struct forest *forest) {
    uint32_t snapshots = forest->trees * (forest->links + 1);
    uint32_t parents = forest->marks & DRAWN ? 0 : snapshots;
    header(forest->marks, snapshots + forest->trees, parents, forest->trees);
    write_parents(forest, parents);
    write_subvolumes(forest);
    write_trees(forest);
    for (uint64_t i = 0; i < snapshots; i++)
        write_snapshot(forest, (uint32_t)(i * forest->stride % snapshots) + 1);
}

#endif
