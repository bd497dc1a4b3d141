/* Hands books to the three entries at the limits of what they promise, and writes each answer with what became of the two areas lent. */
#include "writing.h"

#include <inttypes.h>
#include <stdio.h>

#define LONGEST_VALUE 2047
#define ROOM (65535 * DOCKWRENCH_FINDING_BYTES)
#define WORDS 131070
#define BEYOND 64 /* bytes and words past what is lent at most: no call may write there */
#define FILL 0xa5
#define LINKS 1024   /* to a root at most */
#define CHAINS 15    /* of so many links in the longest book */
#define NO_ORDER 389 /* as a stride: prime to each number of snapshots here */

static uint8_t findings[ROOM + BEYOND];
static uint64_t work[WORDS + BEYOND];

/* ---- writing a book */

/* The book of the listing: one run of free buckets, of size 0, at bucket 2 of the buckets 1 to 3. */
static void listing(void) {
    header(TREES, 1, 0, 0);
    put16(book + 2, 0x0427);
    put16(book + 4, 1);
    book[23] = 4;
    key(11, 25, 0, 2);
}

static void subvolume(uint64_t id, uint32_t state) {
    key(8, 21, 44, id);
    end += 40;
    le32(state);
}

/* ---- calling */

static int filled(const void *area, size_t bytes) {
    const uint8_t *at = area;
    for (size_t i = 0; i < bytes; i++)
        if (at[i] != FILL)
            return 0;
    return 1;
}

static const char *state_of_work(size_t words) {
    if (!filled(work + words, sizeof work - 8 * words))
        return "written past its end";
    if (filled(work, 8 * words))
        return words ? "untouched" : "empty";
    for (size_t i = 0; i < words; i++)
        if (work[i])
            return "not zero";
    return "zero";
}

/* The findings in the buffer: all of up to four, or the first and the last. */
static void show(size_t count) {
    for (size_t i = 0; i < count; i++) {
        const uint8_t *at = findings + i * DOCKWRENCH_FINDING_BYTES;
        if (count <= 4 || i == 0 || i == count - 1)
            printf("; %u %" PRIu64 " %" PRIu64, dockwrench_kind(at), dockwrench_subject(at), dockwrench_object(at));
    }
}

/* The main call over the first `bytes` of the book, with `room` bytes and `words` words lent. */
static void judge(const char *what, size_t bytes, size_t room, size_t words) {
    memset(findings, FILL, sizeof findings);
    memset(work, FILL, sizeof work);
    uint64_t answer = dockwrench_check(book, bytes, findings, room, work, words);
    size_t whole = dockwrench_count(answer);
    if (whole > room / DOCKWRENCH_FINDING_BYTES)
        whole = room / DOCKWRENCH_FINDING_BYTES;
    size_t used = whole * DOCKWRENCH_FINDING_BYTES;
    printf("%s, %zu bytes, room %zu, %zu words: %u %u %u; work %s; other bytes %s", what, bytes, room, words, dockwrench_number(answer),
           dockwrench_place(answer), dockwrench_count(answer), state_of_work(words),
           filled(findings + used, sizeof findings - used) ? "untouched" : "written");
    show(whole);
    putchar('\n');
}

static void check(const char *what, size_t bytes) { judge(what, bytes, ROOM, WORDS); }

static void ancestor(const char *what, uint32_t id) {
    uint64_t answer = dockwrench_ancestor(book, end, id);
    printf("%s, root above %u: %u, links %u, root %u\n", what, id, dockwrench_number(answer), dockwrench_links(answer), dockwrench_root(answer));
}

static void unavailable(const char *what, uint32_t id) {
    uint64_t answer = dockwrench_unavailable(book, end, id);
    printf("%s, %u unavailable: %u %u, %s\n", what, id, dockwrench_number(answer), dockwrench_place(answer), dockwrench_yes(answer) ? "yes" : "no");
}

/* A refused book: both areas are untouched, and the questions answer the same number and place. */
static void refused(const char *what, size_t bytes) {
    check(what, bytes);
    uint64_t root = dockwrench_ancestor(book, bytes, 7);
    uint64_t state = dockwrench_unavailable(book, bytes, 7);
    printf("%s, the questions: %u %u %u, %u %u %u\n", what, dockwrench_number(root), dockwrench_place(root), dockwrench_root(root),
           dockwrench_number(state), dockwrench_place(state), dockwrench_count(state));
}

/* ---- the limits */

/* A table of `count` entries of `size` bytes, whose count stands at byte `count_at` of the header: entry i has i in the two bytes from its
   byte `low` on. It is judged whole, cut by a byte, and with its last entry equal to the one before. */
static void table(const char *of, unsigned count, int count_at, size_t size, size_t low) {
    char what[64];
    size_t bytes = HEADER + count * size;
    snprintf(what, sizeof what, "%u %s", count, of);
    header(0, 0, 0, 0);
    put16(book + count_at, count);
    for (unsigned i = 0; i < count; i++)
        put16(book + HEADER + size * i + low, i);
    check(what, bytes);
    check(what, bytes - 1);
    put16(book + HEADER + size * (count - 1) + low, count - 2);
    check(what, bytes);
}

/* Tables as long as their counts can say; that of the parents has a limit of its own. */
static void tables(void) {
    table("parents", DOCKWRENCH_PARENTS_MAX - 1, 24, 8, 2);
    table("parents", DOCKWRENCH_PARENTS_MAX, 24, 8, 2);
    table("parents", DOCKWRENCH_PARENTS_MAX + 1, 24, 8, 2);
    table("parents", 65535, 24, 8, 2);
    table("subvolumes", 65535, 26, 8, 2);
    table("gens", 65535, 28, 9, 6);
    table("alloc entries", 65535, 30, 10, 6);
}

/* 65,535 buckets whose generation 1 no key records: a finding each. */
static void generations(void) {
    header(0, 0, 0, 0);
    put16(book + 28, 65535);
    for (unsigned i = 0; i < 65535; i++) {
        be(8, i);
        be(1, 1);
    }
    judge("65535 generations", end, ROOM, 0);
    judge("65535 generations", end, ROOM - 1, 0);
}

/* Fills the book up to the longest one with keys of the longest values, and a last one whose value ends it; returns
   their number. */
static unsigned fill(void) {
    unsigned count = 0;
    while (end < DOCKWRENCH_BOOK_MAX) {
        size_t left = DOCKWRENCH_BOOK_MAX - end - KEY_HEAD;
        unsigned length = left > LONGEST_VALUE ? LONGEST_VALUE : (unsigned)left;
        key(0, 0, length, 0);
        end += length;
        count++;
    }
    return count;
}

static void lengths(void) {
    check("zeros", DOCKWRENCH_BOOK_MAX + 1);
    check("zeros", DOCKWRENCH_BOOK_MAX);
    tables();
    generations();
    header(0, 0, 0, 0);
    unsigned count = fill();
    put16(book + 6, count);
    check("506 keys", DOCKWRENCH_BOOK_MAX);
    check("506 keys", DOCKWRENCH_BOOK_MAX + 1);
    check("506 keys, the last cut", DOCKWRENCH_BOOK_MAX - 1);
    put16(book + 6, count - 1);
    check("506 keys, counted one less", DOCKWRENCH_BOOK_MAX);
    header(0, 37448, 0, 0);
    judge("37448 keys without a value", DOCKWRENCH_BOOK_MAX, 0, 74896);
    judge("37448 keys without a value", DOCKWRENCH_BOOK_MAX, 0, 74895);
    header(0, 65535, 0, 0);
    check("65535 keys that do not fit", DOCKWRENCH_BOOK_MAX);
}

static void areas(void) {
    listing();
    judge("the listing's book", end, 34, 2);
    judge("the listing's book", end, 1000, 100);
    judge("the listing's book", end, 33, 2);
    judge("the listing's book", end, 33, 100);
    judge("the listing's book", end, 17, 3);
    judge("the listing's book", end, 16, 2);
    judge("the listing's book", end, 0, 2);
    judge("the listing's book", end, 34, 1);
    judge("the listing's book", end, 0, 0);
    header(0, 0, 0, 0);
    judge("an empty book", end, 0, 0);
    judge("an empty book", end, 34, 5);
}

static void refusals(void) {
    header(0, 0, 0, 0);
    refused("1: a byte too long", DOCKWRENCH_BOOK_MAX + 1);
    refused("2: no bytes", 0);
    memset(book, 0, sizeof book);
    refused("3: 32 zeros", HEADER);
    header(0, 1, 0, 0);
    refused("4: key count 1 in 32 bytes", end);
    key(0, 0, 0, 0);
    book[HEADER + 3] = 1;
    refused("5: key spare 1", end);
    header(0, 0, 2, 0);
    entry(5, 0);
    entry(5, 0);
    refused("6: parents 5, 5", end);
    header(0, 1, 0, 0);
    key(15, 0, 0, 0);
    refused("7: mark 0, tree key", end);
    header(0, 0, 0, 0);
    refused("8: 33 bytes, all counts 0", end + 1);
    header(DRAWN, 0, 1, 0);
    entry(5, 0);
    refused("12: drawn mark, parent 5", end);
    put16(book + 24, 65535);
    refused("12: drawn mark, 65535 parents that do not fit", end);
    header(DRAWN, 0, 5000, 0);
    refused("12: drawn mark, 5000 parents", HEADER + 8 * 5000);
    header(DRAWN, 0, 0, 0);
    check("the drawn mark alone", end);
    header(0, 0, DOCKWRENCH_PARENTS_MAX + 1, 0);
    refused("13: 4097 parents, all of id 0", HEADER + 8 * (DOCKWRENCH_PARENTS_MAX + 1));
    refused("13: 4097 parents that do not fit", end);
    put16(book + 24, 65535);
    refused("13: 65535 parents that do not fit", end);
    put16(book + 24, DOCKWRENCH_PARENTS_MAX);
    refused("4: 4096 parents that do not fit", end);
    refused("6: 4096 parents, all of id 0", HEADER + 8 * DOCKWRENCH_PARENTS_MAX);
}

/* Four chains with as many snapshots as a parents table has room for, and with a link more each: then there is room for
   none, but drawn they are judged. */
static void most_parents(const char *order, uint32_t stride) {
    struct forest forest = {TREES, 4, DOCKWRENCH_PARENTS_MAX / 4 - 1, 1, stride};
    char what[64];
    for (int i = 0; i < 3; i++) {
        forest.links += i == 1;
        forest.marks |= i == 2 ? DRAWN : 0;
        snprintf(what, sizeof what, "%u snapshots%s %s", 4 * (unsigned)(forest.links + 1), i == 2 ? ", drawn," : "", order);
        write_forest(&forest);
        judge(what, end, 0, dockwrench_words(book, end));
        ancestor(what, id_at(&forest, 1, forest.links));
        ancestor(what, id_at(&forest, 4, 0));
    }
}

/* Chains of about as many links as lead to a root: the root above the last snapshot, and the findings. */
static void chains(const char *name, struct forest chain) {
    for (uint32_t links = LINKS - 1; links <= LINKS + 2; links++) {
        char what[64];
        snprintf(what, sizeof what, "%s of %u links", name, (unsigned)links);
        chain.links = links;
        write_forest(&chain);
        ancestor(what, id_at(&chain, 1, links));
        judge(what, end, 68, 2 * links + 4);
    }
    ancestor("the same", id_at(&chain, 1, 1));
    ancestor("the same", id_at(&chain, 1, 0));
    ancestor("the same", 0);
    ancestor("the same", LINKS + 4);
}

/* A key whose value has a parent word, of its bytes as many as there are. */
static void parent_key(unsigned btree, unsigned type, unsigned value_length, uint64_t offset, uint32_t parent) {
    key(btree, type, value_length, offset);
    size_t value = end;
    le32(0); /* flags */
    le32(parent);
    end = value + value_length;
}

/* A parent in the table, or in a key that it is drawn from. */
static void put_parent(unsigned mark, uint32_t id, uint32_t parent) {
    if (mark)
        parent_key(9, 22, 8, id, parent);
    else
        entry(id, parent);
}

/* A book of two parents and nothing else. */
static void two_parents(unsigned mark, uint32_t first, uint32_t first_parent, uint32_t second, uint32_t second_parent) {
    char what[80];
    snprintf(what, sizeof what, "%sparents %u to %u, %u to %u", mark ? "drawn " : "", (unsigned)first,
             (unsigned)first_parent, (unsigned)second, (unsigned)second_parent);
    header(mark, mark ? 2 : 0, mark ? 0 : 2, 0);
    put_parent(mark, first, first_parent);
    put_parent(mark, second, second_parent);
    ancestor(what, first);
    ancestor(what, second);
    ancestor(what, 9);
}

static void sources(void) {
    chains("chain", (struct forest){TREES, 1, 0, 0, 1});
    two_parents(0, 7, 7, 8, 9);
    two_parents(0, 0, 0, 4294967295, 0);
    chains("drawn chain", (struct forest){TREES | DRAWN, 1, 0, 0, 1});
    chains("drawn rising chain", (struct forest){TREES | DRAWN, 1, 0, 1, 1});
    chains("drawn scattered chain", (struct forest){TREES | DRAWN, 1, 0, 1, NO_ORDER});
    two_parents(DRAWN, 7, 7, 8, 9);
    two_parents(DRAWN, 0, 0, 4294967295, 0);
}

/* Which keys parents are drawn from, and which of several with one id. */
static void drawn_keys(void) {
    header(DRAWN, 11, 0, 0);
    parent_key(9, 22, 7, 1, 0);
    parent_key(9, 22, 8, 2, 0);
    parent_key(9, 21, 8, 3, 0);
    parent_key(8, 22, 8, 4, 0);
    parent_key(9, 22, 8, 4294967296 + 5, 2);
    parent_key(9, 22, 40, 6, 0);
    parent_key(9, 22, 8, 6, 2); /* the last of 8 bytes or more */
    parent_key(9, 22, 7, 6, 0);
    parent_key(9, 22, 8, 4294967296 + 7, 0);
    parent_key(9, 22, 8, 7, 6); /* the last, though of a lesser offset */
    parent_key(9, 22, LONGEST_VALUE, 8, 7);
    for (uint32_t id = 1; id <= 8; id++)
        ancestor("drawn keys", id);
}

/* Ids that rise from key to key, among keys that no parents are drawn from, and links that rise towards a root, to no
   id, back and to themselves. */
static void drawn_in_order(void) {
    header(DRAWN, 11, 0, 0);
    parent_key(9, 22, 8, 1, 3);
    parent_key(9, 21, 8, 2, 0);
    parent_key(9, 22, 7, 3, 0);
    parent_key(9, 22, 8, 4294967296 + 3, 5);
    parent_key(8, 22, 8, 4, 0);
    parent_key(9, 22, 8, 5, 7);
    parent_key(9, 22, 40, 7, 0);
    parent_key(9, 22, 8, 8, 10);
    parent_key(9, 22, 8, 9, 11);
    parent_key(9, 22, 8, 11, 7);
    parent_key(9, 22, 8, 12, 12);
    for (uint32_t id = 1; id <= 12; id++)
        ancestor("drawn keys in order", id);
}

/* The longest book of drawn chains, with keys behind them that no rule reads. */
static void longest_forest(const char *what, uint32_t stride) {
    struct forest forest = {TREES | DRAWN, CHAINS, LINKS, 1, stride};
    uint32_t snapshots = CHAINS * (LINKS + 1);
    write_forest(&forest);
    put16(book + 6, snapshots + CHAINS + fill());
    judge(what, end, 0, dockwrench_words(book, end));
    ancestor(what, id_at(&forest, 1, LINKS));
    ancestor(what, id_at(&forest, CHAINS, LINKS));
    ancestor(what, snapshots);
    ancestor(what, snapshots + 1);
}

static void states(void) {
    header(0, 6, 0, 0);
    subvolume(2, 0x2d358e8f);              /* unlinked */
    subvolume(3, 0x3c6b2d4c);              /* deleted */
    subvolume(4, 0x4ad5447e);              /* live */
    subvolume(5, 0x3c6b2d4d);              /* deleted but for a bit */
    subvolume(4294967295, 0x2d358e8f);     /* unlinked, the largest id */
    subvolume(4294967296 + 6, 0x3c6b2d4c); /* deleted, at no id of 32 bits */
    static const uint32_t ids[] = {0, 2, 3, 4, 5, 6, 4294967295};
    for (size_t i = 0; i < sizeof ids / sizeof *ids; i++)
        unavailable("subvolumes", ids[i]);
}

/* Three keys for one deleted subvolume and four live snapshots of it: twelve findings, of which some do not fit. */
static void deleted(void) {
    header(0, 7, 0, 0);
    for (int i = 0; i < 3; i++)
        subvolume(5, 0x3c6b2d4c);
    for (uint64_t id = 4; id > 0; id--) {
        key(9, 22, 60, 10 * id);
        le32(2); /* flags */
        end += 12;
        le32(5); /* subvolume */
        end += 36;
        le32(0x757c47a2); /* live */
    }
    judge("a deleted subvolume", end, 12 * 17, 14);
    judge("a deleted subvolume", end, 12 * 17 - 1, 14);
    judge("a deleted subvolume", end, 6 * 17, 14);
    judge("a deleted subvolume", end, 2 * 17, 14);
    judge("a deleted subvolume", end, 0, 14);
}

int main(void) {
    lengths();
    areas();
    refusals();
    sources();
    drawn_keys();
    drawn_in_order();
    most_parents("in rising order", 1);
    most_parents("in no order", NO_ORDER);
    longest_forest("15 drawn chains in rising order", 1);
    longest_forest("15 drawn chains in no order", NO_ORDER);
    states();
    deleted();
    return 0;
}
