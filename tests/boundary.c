/*
 * The C boundary: holds the three entries to what include/dockwrench.h promises of slices that are empty, null, at odd
 * addresses, too short by one or longer than needed. Every byte and word lent is looked at, and some before and behind
 * them. Each group writes a line with its number of calls; the first promise that is not kept is written and ends the
 * run with status 1.
 */
#include "dockwrench.h"

#include <inttypes.h>
#include <stdio.h>
#include <stdlib.h>
#include <string.h>

#define GUARD 40 /* bytes, and words, behind what is lent */
#define LONGEST 256
#define DRAWN 0x0400 /* the drawn mark, in the first two bytes of the header */
#define SPARE 10     /* bits, the lowest of these two bytes */

static unsigned long calls;
static int by_null; /* what has no bytes or words is lent as a null pointer */

#define HOLD(claim) \
    do { \
        if (!(claim)) { \
            printf("line %d: not so: %s\n", __LINE__, #claim); \
            exit(1); \
        } \
    } while (0)

/* A book, and what the entries must say of it. */
struct book {
    size_t length;
    uint8_t bytes[LONGEST];
    unsigned number; /* the refusal, or 0 */
    uint32_t place;
    uint32_t count; /* of findings */
    uint8_t findings[2 * DOCKWRENCH_FINDING_BYTES];
};

/* ---- the books */

static void be(struct book *book, int bytes, uint64_t value) {
    for (int i = bytes - 1; i >= 0; i--)
        book->bytes[book->length++] = i < 8 ? (uint8_t)(value >> 8 * i) : 0;
}

/* A header for device 0, with the counts of keys, parents, subvolumes, gens and alloc entries, a digit each. */
static void header(struct book *book, unsigned first, unsigned version, unsigned buckets, unsigned counts) {
    memset(book, 0, sizeof *book);
    be(book, 2, first);
    be(book, 2, version);
    be(book, 2, buckets ? 1 : 0); /* first bucket */
    be(book, 2, counts >> 16);
    be(book, 8, 0); /* device */
    be(book, 8, buckets);
    for (int i = 12; i >= 0; i -= 4)
        be(book, 2, counts >> i & 15);
}

static void key(struct book *book, unsigned btree, unsigned type, unsigned length, uint64_t offset) {
    be(book, 1, btree);
    be(book, 1, type);
    be(book, 2, length << 5);
    be(book, 12, 0); /* size and inode */
    be(book, 8, offset);
    be(book, 4, 0); /* snapshot */
}

static void finding(struct book *book, unsigned kind, uint64_t subject, uint64_t object) {
    uint8_t *at = book->findings + book->count++ * DOCKWRENCH_FINDING_BYTES;
    *at = (uint8_t)kind;
    for (int i = 0; i < 8; i++) {
        at[1 + i] = (uint8_t)(subject >> (56 - 8 * i));
        at[9 + i] = (uint8_t)(object >> (56 - 8 * i));
    }
}

static struct book empty(void) {
    struct book book;
    header(&book, 0x1000, 0, 0, 0);
    return book;
}

static struct book listing(void) {
    struct book book;
    header(&book, 0x1800, 1063, 4, 0x10000);
    key(&book, 11, 25, 0, 2);
    finding(&book, 50, 1, 2);
    finding(&book, 50, 2, 4);
    return book;
}

/* An entry in each table, whose bucket 3 has a generation that no key records; and subvolume 9, which is deleted. */
static struct book tables(void) {
    struct book book;
    header(&book, 0x1000, 1062, 0, 0x12111);
    be(&book, 8, 5ull << 32 | 7); /* parents */
    be(&book, 8, 7ull << 32 | 0);
    be(&book, 8, 1ull << 32 | 5); /* subvolume */
    be(&book, 8, 3);              /* generation 7 */
    be(&book, 1, 7);
    be(&book, 8, 9); /* alloc, data type 2 */
    be(&book, 2, 0x8100);
    key(&book, 8, 21, 44, 9);
    be(&book, 40, 0);
    be(&book, 4, 0x4c2d6b3c); /* deleted, least significant byte first */
    finding(&book, 46, 3, 7);
    return book;
}

/* Snapshots 5 and 7, whose values are too short but hold what is drawn from them: their parents, 7 and 0. */
static struct book drawn(void) {
    struct book book;
    header(&book, 0x1000 | DRAWN, 1062, 0, 0x20000);
    for (unsigned id = 5; id <= 7; id += 2) {
        finding(&book, 5, book.count, 0);
        key(&book, 9, 22, 8, id);
        be(&book, 4, 0);
        be(&book, 4, id == 5 ? 7u << 24 : 0); /* least significant byte first */
    }
    return book;
}

/* A book without keys that has a finding: bucket 3 has a generation that no key records. */
static struct book generation(void) {
    struct book book;
    header(&book, 0x1000, 0, 0, 0x00010);
    be(&book, 8, 3);
    be(&book, 1, 7);
    finding(&book, 46, 3, 7);
    return book;
}

/* More parents than a table may have. */
static void put_parents(struct book *book) {
    book->bytes[24] = (DOCKWRENCH_PARENTS_MAX + 1) >> 8;
    book->bytes[25] = (DOCKWRENCH_PARENTS_MAX + 1) & 255;
}

/* Books for the refusals 3 to 8, 12 and 13. */
static struct book refused(unsigned number) {
    struct book book;
    unsigned counts = number == 6 ? 0x02000 : number == 8 ? 0 : number >= 12 ? 0x01000 : 0x10000;
    header(&book, number == 3 ? 0x1001 : number == 12 ? 0x1000 | DRAWN : 0x1000, 0, 0, counts);
    if (number == 6) {
        be(&book, 8, 5ull << 32);
        be(&book, 8, 5ull << 32);
    } else if (number == 8) {
        be(&book, 1, 0);
    } else if (number >= 12) {
        be(&book, 8, 5ull << 32);
        if (number == 13)
            put_parents(&book);
    } else if (number != 4) {
        key(&book, number == 7 ? 15 : 0, 0, 0, 0);
        book.bytes[35] = number == 5;
    }
    book.number = number;
    book.place = number == 3 || number >= 12 ? 0 : number == 6 ? 40 : 32;
    return book;
}

/* ---- the calls */

static int all(const uint8_t *at, size_t bytes, uint8_t value) {
    for (size_t i = 0; i < bytes; i++)
        if (at[i] != value)
            return 0;
    return 1;
}

static void *area(size_t bytes) {
    void *made = malloc(bytes ? bytes : 1);
    if (!made)
        exit(2);
    return made;
}

/* The book's bytes at `shift` bytes behind an aligned address, with nothing behind them. */
static uint8_t *lend(const struct book *book, size_t shift) {
    uint8_t *at = area(shift + book->length);
    memcpy(at + shift, book->bytes, book->length);
    return at;
}

/* What is lent of an area: null in place of its address where that is to be tried. */
static void *or_null(void *at, size_t length) { return by_null && length == 0 ? NULL : at; }

/* What the main call promises of its answer: number, place and count. */
static unsigned answered(const struct book *book, size_t room, size_t words, uint64_t answer) {
    unsigned number = book->number                                              ? book->number
                      : words < dockwrench_words(book->bytes, book->length)     ? 9
                      : room < (size_t)book->count * DOCKWRENCH_FINDING_BYTES ? 10
                                                                              : 0;
    HOLD(dockwrench_number(answer) == number);
    HOLD(dockwrench_place(answer) == (number == 0 || number > 8 ? 0 : book->place));
    HOLD(dockwrench_count(answer) == (number == 0 || number == 10 ? book->count : 0));
    return number;
}

/* The main call with areas that hold `fill` everywhere, the book and the findings `shift` bytes behind aligned addresses. */
static void call(const struct book *book, size_t shift, size_t room, size_t words, uint8_t fill) {
    uint8_t *lent = lend(book, shift), *buffer = area(shift + room + GUARD), *findings = buffer + shift;
    uint64_t *work = area((words + GUARD) * sizeof *work);
    const uint8_t *from = or_null(lent + shift, book->length);
    memset(buffer, fill, shift + room + GUARD);
    memset(work, fill, (words + GUARD) * sizeof *work);
    uint64_t answer = dockwrench_check(from, book->length, or_null(findings, room), room, or_null(work, words), words);
    int judged = answered(book, room, words, answer) % 10 == 0;
    size_t whole = room / DOCKWRENCH_FINDING_BYTES < book->count ? room / DOCKWRENCH_FINDING_BYTES : book->count;
    size_t used = judged ? whole * DOCKWRENCH_FINDING_BYTES : 0;
    HOLD(memcmp(findings, book->findings, used) == 0);
    HOLD(all(buffer, shift, fill));
    HOLD(all(findings + used, room - used + GUARD, fill));
    HOLD(all((uint8_t *)work, words * sizeof *work, judged ? 0 : fill));
    HOLD(all((uint8_t *)(work + words), GUARD * sizeof *work, fill));
    HOLD(memcmp(lent + shift, book->bytes, book->length) == 0);
    HOLD(dockwrench_check(from, book->length, or_null(findings, room), room, or_null(work, words), words) == answer);
    calls += 2;
    free(lent);
    free(buffer);
    free(work);
}

/* Two fills, so that a byte written with what it held shows. */
static void check(const struct book *book, size_t shift, size_t room, size_t words) {
    call(book, shift, room, words, 0xa5);
    call(book, shift, room, words, 0x5a);
}

/* Both questions: `root` above `id` after `links` links, or number 11 for links over 1,024; and whether `id` is unavailable. */
static void ask(const struct book *book, size_t shift, uint32_t id, uint32_t root, uint32_t links, int yes) {
    uint8_t *lent = lend(book, shift);
    const uint8_t *from = or_null(lent + shift, book->length);
    uint64_t above = dockwrench_ancestor(from, book->length, id);
    uint64_t state = dockwrench_unavailable(from, book->length, id);
    int none = book->number != 0 || links > 1024;
    HOLD(dockwrench_number(above) == (book->number ? book->number : links > 1024 ? 11 : 0));
    HOLD(dockwrench_root(above) == (none ? 0 : root));
    HOLD(book->number ? dockwrench_place(above) == book->place : dockwrench_links(above) == (none ? 0 : links));
    HOLD(dockwrench_number(state) == book->number);
    HOLD(dockwrench_place(state) == book->place);
    HOLD((uint32_t)state == (uint32_t)(book->number == 0 && yes));
    HOLD(dockwrench_yes(state) == (book->number == 0 && yes));
    HOLD(memcmp(lent + shift, book->bytes, book->length) == 0);
    calls += 2;
    free(lent);
}

/* All three entries, with areas that suffice. */
static void entries(const struct book *book, size_t shift) {
    check(book, shift, sizeof book->findings, dockwrench_words(book->bytes, book->length));
    ask(book, shift, 8, 0, 9999, 0);
}

static void done(const char *group) {
    printf("%s: as promised, %lu calls\n", group, calls);
    calls = 0;
}

/* ---- the groups */

/* Slices of no bytes and no words, at addresses of all sorts; and books that end within the header. */
static void lengths(void) {
    struct book book = listing();
    uint64_t word = 0xa5a5;
    for (int i = 0; i < 2; i++) {
        const uint8_t *none = i ? book.bytes : book.bytes + LONGEST; /* one past the end of an array too */
        HOLD(dockwrench_check(none, 0, book.findings, 0, &word, 0) == (uint64_t)2 << 56);
        HOLD(dockwrench_check(none, 0, book.findings + 1, 1, &word, 1) == (uint64_t)2 << 56);
        HOLD(dockwrench_ancestor(none, 0, 7) == (uint64_t)2 << 56);
        HOLD(dockwrench_unavailable(none, 0, 7) == (uint64_t)2 << 56);
        HOLD(dockwrench_words(none, 0) == 0);
        HOLD(word == 0xa5a5);
        calls += 4;
    }
    done("empty slices");
    book.number = 2;
    for (book.length = 0; book.length < 32; book.length++) {
        HOLD(dockwrench_words(book.bytes, book.length) == 0);
        entries(&book, 0);
        check(&book, 0, 0, 0);
    }
    done("books of 0 to 31 bytes");
    for (unsigned number = 12; number <= 13; number++) {
        book = refused(number);
        book.number = 2;
        for (book.length = 0; book.length < 32; book.length++)
            entries(&book, 0);
        book.number = number;
        for (book.length = 32; book.length < 40; book.length++)
            entries(&book, 0);
    }
    done("a drawn book with a parent and one with 4,097 parents, cut to 0 to 39 bytes");
    book = listing();
    book.number = 4;
    book.place = 32;
    for (book.length = 32; book.length < 60; book.length++)
        entries(&book, 0);
    done("the listing's book cut to 32 to 59 bytes");
}

/* Null for what is empty: the book, and either area or both, over books that are judged and that are refused. */
static void nulls(void) {
    struct book books[] = {empty(),    listing(),  tables(),   drawn(),     generation(),
                           refused(3), refused(4), refused(8), refused(12), refused(13), empty()};
    struct book *none = &books[sizeof books / sizeof *books - 1];
    none->length = 0;
    none->number = 2;
    by_null = 1;
    for (struct book *book = books; book <= none; book++) {
        check(book, 0, 0, 0);
        check(book, 0, 0, 2);
        check(book, 0, sizeof book->findings, 0);
        entries(book, 0);
    }
    HOLD(dockwrench_words(NULL, 0) == 0 && dockwrench_trees(NULL, 0) == 0 && dockwrench_drawn(NULL, 0) == 0);
    by_null = 0;
    done("null for what is empty");
}

/* A book of the longest length, which is refused by `number`, and one byte more. */
static void longest(uint8_t *book, unsigned number) {
    uint8_t findings[17] = {1};
    uint64_t work[1] = {1};
    for (size_t bytes = DOCKWRENCH_BOOK_MAX; bytes <= DOCKWRENCH_BOOK_MAX + 1; bytes++) {
        uint64_t answer = (uint64_t)(bytes == DOCKWRENCH_BOOK_MAX ? number : 1) << 56;
        HOLD(dockwrench_check(book, bytes, findings, 17, work, 1) == answer);
        HOLD(dockwrench_ancestor(book, bytes, 0) == answer && dockwrench_unavailable(book, bytes, 0) == answer);
        HOLD(findings[0] == 1 && work[0] == 1);
        calls += 3;
    }
}

static void longest_books(void) {
    struct book start = refused(12);
    uint8_t *book = calloc(DOCKWRENCH_BOOK_MAX + 1, 1);
    HOLD(book);
    longest(book, 3);
    done("1,048,576 zeros and one more");
    memcpy(book, start.bytes, start.length);
    longest(book, 12);
    done("a drawn book with a parent, of 1,048,576 bytes and one more");
    start = refused(13);
    memcpy(book, start.bytes, start.length);
    longest(book, 13);
    done("a book with 4,097 parents, of 1,048,576 bytes and one more");
    free(book);
}

static void addresses(void) {
    struct book books[] = {empty(), listing(), tables(), drawn(), refused(5), refused(6), refused(12), refused(13)};
    for (size_t shift = 0; shift < 16; shift++) {
        for (size_t i = 0; i < sizeof books / sizeof *books; i++)
            entries(&books[i], shift);
        for (int i = 2; i < 4; i++) { /* parents in a table, and drawn */
            ask(&books[i], shift, 5, 7, 1, 0);
            ask(&books[i], shift, 7, 7, 0, 0);
            ask(&books[i], shift, 9, 0, 9999, i == 2);
        }
    }
    done("books and buffers at 0 to 15 bytes behind an aligned address");
}

static void work_areas(void) {
    struct book books[] = {empty(), listing(), tables(), drawn(), refused(8), refused(12), refused(13)};
    for (size_t i = 0; i < sizeof books / sizeof *books; i++) {
        for (size_t words = 0; words <= 40; words++) {
            check(&books[i], 0, sizeof books[i].findings, words);
            check(&books[i], 0, 0, words);
        }
        check(&books[i], 0, sizeof books[i].findings, 131070);
    }
    done("work areas of 0 to 40 and 131,070 words");
}

static void findings_buffers(void) {
    struct book book = listing();
    for (size_t room = 0; room <= 33; room++) {
        check(&book, 0, room, 2);
        check(&book, 1, room, 3);
        check(&book, 0, room, 1); /* refusal 9 comes before 10 */
    }
    done("the listing's book, findings buffers of 0 to 33 bytes");
    for (size_t room = 34; room <= 100; room++)
        check(&book, 0, room, 2);
    done("the listing's book, findings buffers of 34 to 100 bytes");
}

static void gives(struct book book, unsigned number, uint32_t place) {
    book.number = number;
    book.place = place;
    entries(&book, 0);
    check(&book, 0, 0, 0);
}

static void refusals(void) {
    static const unsigned numbers[] = {3, 4, 5, 6, 7, 8, 12, 13};
    for (size_t i = 0; i < sizeof numbers / sizeof *numbers; i++) {
        struct book book = refused(numbers[i]);
        gives(book, book.number, book.place);
    }
    done("refusals 3 to 8, 12 and 13");
}

/* Several refusals in one book: the first entry's is given, and of one entry the first of 4, 5, 6, 7. */
static void orders(void) {
    struct book book;
    header(&book, 0x1000, 0, 0, 0x10000);
    key(&book, 15, 0, 1, 0);
    book.bytes[35] |= 1;
    gives(book, 4, 32); /* a value past the end, a spare bit and btree 15 */
    book.bytes[35] = 1;
    gives(book, 5, 32); /* a spare bit and btree 15 */
    header(&book, 0x1000, 0, 0, 0x10002);
    be(&book, 8, 9);
    be(&book, 2, 0x8100);
    be(&book, 8, 9);
    be(&book, 2, 0x8101);
    key(&book, 15, 0, 0, 0);
    gives(book, 5, 42); /* a spare bit and a bucket that does not rise; then btree 15 */
    book.bytes[51] = 0;
    gives(book, 6, 42); /* the bucket; then btree 15 */
    book.bytes[49] = 10;
    gives(book, 7, 52);
    done("the first of several refusals");
}

/* Any of the spare bits beside the drawn mark and a parent, and beside 4,097 parents: 3 is given before 12 and 13. */
static void spare_bits(void) {
    for (int bit = 0; bit < SPARE; bit++) {
        for (unsigned number = 12; number <= 13; number++) {
            struct book book = refused(number);
            book.bytes[0] |= (uint8_t)(1 << bit >> 8);
            book.bytes[1] |= (uint8_t)(1 << bit);
            gives(book, 3, 0);
        }
    }
    done("spare bits beside the drawn mark, and beside 4,097 parents");
}

/* 4,097 parents in a book that is refused for something else: 13 is given before all of these but 3. The drawn mark in
   such a book, which stays refused as it was; with a parent too, or 4,097, 12 is given before all but 3. */
static void marks(void) {
    for (unsigned number = 3; number <= 8; number++) {
        struct book book = refused(number), many = book;
        put_parents(&many);
        gives(many, number == 3 ? 3 : 13, 0);
        many.bytes[0] |= DRAWN >> 8;
        gives(many, number == 3 ? 3 : 12, 0);
        book.bytes[0] |= DRAWN >> 8;
        if (number != 6) /* has parents */
            gives(book, number, book.place);
        book.bytes[25] = 1; /* parent */
        gives(book, number == 3 ? 3 : 12, 0);
    }
    struct book book = empty();
    book.bytes[0] |= DRAWN >> 8;
    entries(&book, 0);
    done("the drawn mark and 4,097 parents beside other refusals, and the mark alone");
}

/* Any bytes are answered: a bit of a book is flipped; a refusal leaves both areas as they were, and is the questions'
   too. */
static void flip(struct book book, size_t bit) {
    uint8_t findings[64];
    uint64_t work[8], old = 0xa5a5a5a5a5a5a5a5;
    book.bytes[bit / 8] ^= (uint8_t)(1 << bit % 8);
    memset(findings, 0xa5, sizeof findings);
    memset(work, 0xa5, sizeof work);
    uint64_t answer = dockwrench_check(book.bytes, book.length, findings, sizeof findings, work, 8);
    unsigned number = dockwrench_number(answer);
    HOLD(number <= 10 || number == 12 || number == 13);
    HOLD(number % 10 == 0 || (dockwrench_count(answer) == 0 && all(findings, sizeof findings, 0xa5)));
    for (int i = 0; i < 8; i++)
        HOLD(work[i] == (number % 10 == 0 ? 0 : old));
    int by_bytes = number != 0 && number != 9 && number != 10;
    HOLD(dockwrench_number(dockwrench_unavailable(book.bytes, book.length, 9)) == (by_bytes ? number : 0));
    HOLD((dockwrench_ancestor(book.bytes, book.length, 5) == answer) == by_bytes);
    calls += 3;
}

static void flips(void) {
    struct book books[] = {listing(), tables(), drawn()};
    for (size_t i = 0; i < sizeof books / sizeof *books; i++)
        for (size_t bit = 0; bit < 8 * books[i].length; bit++)
            flip(books[i], bit);
    done("each bit flipped");
}

/* The functions of the header that take numbers apart. */
static void parts(void) {
    static const uint8_t finding[] = {50, 1, 2, 3, 4, 5, 6, 7, 8, 255, 254, 253, 252, 251, 250, 249, 248};
    uint8_t most[32] = {[6] = 255, [7] = 255}, marked[32] = {8}, unmarked[32] = {255 - 8};
    uint8_t from_keys[32] = {DRAWN >> 8}, from_table[32] = {255 - (DRAWN >> 8)};
    uint64_t answer = 0x0b123456fedcba98;
    _Static_assert(DOCKWRENCH_BOOK_MAX == 1048576 && DOCKWRENCH_PARENTS_MAX == 4096 && DOCKWRENCH_FINDING_BYTES == sizeof finding &&
                       DOCKWRENCH_WORDS_PER_KEY == 2,
                   "sizes");
    HOLD(dockwrench_number(answer) == 11);
    HOLD(dockwrench_place(answer) == 0x123456 && dockwrench_links(answer) == 0x123456);
    HOLD(dockwrench_count(answer) == 0xfedcba98 && dockwrench_root(answer) == 0xfedcba98);
    HOLD(!dockwrench_yes(answer) && !dockwrench_yes(0) && dockwrench_yes(1) && !dockwrench_yes((uint64_t)1 << 32));
    HOLD(dockwrench_words(most, 32) == 131070 && dockwrench_words(most, 31) == 0);
    HOLD(dockwrench_trees(marked, 32) == 1 && dockwrench_trees(unmarked, 32) == 0 && dockwrench_trees(marked, 31) == 0);
    HOLD(dockwrench_drawn(from_keys, 32) == 1 && dockwrench_drawn(from_table, 32) == 0);
    HOLD(dockwrench_drawn(from_keys, 31) == 0);
    HOLD(dockwrench_kind(finding) == 50);
    HOLD(dockwrench_subject(finding) == 0x0102030405060708 && dockwrench_object(finding) == 0xfffefdfcfbfaf9f8);
    done("numbers taken apart");
}

int main(void) {
    lengths();
    nulls();
    longest_books();
    addresses();
    work_areas();
    findings_buffers();
    refusals();
    orders();
    spare_bits();
    marks();
    flips();
    parts();
    return 0;
}
