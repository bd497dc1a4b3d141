/*
 * book: packed books as text that people read and write. docs/BOOK.md describes both forms.
 *
 *   book pack TEXT         writes the book that a text describes
 *   book text BOOK         writes the text that describes a book
 *   book roundtrip LINES   each line is a book in hexadecimal: writes how many are whole books, and how many of these pack to the same bytes
 *                          again from their text
 *
 * Without a file, or for -, standard input is read. Exit status: 0; 1 where a book does not come back the same; 2, with
 * a message, for what is wrong in the input or cannot be read or written. What the checker judges or refuses is not
 * looked at here: only what cannot be packed is an error.
 */
#include <errno.h>
#include <inttypes.h>
#include <stdarg.h>
#include <stdint.h>
#include <stdio.h>
#include <stdlib.h>
#include <string.h>

#define BOOK_MAX 1048576
#define VALUE_MAX 2047
#define LINES_MAX 65535
#define SHOWN_MAX 60 /* bytes of the input in a message */

/* ---- the layout */

static const char *const btrees[256] = {
    "extents", "inodes", "dirents", "xattrs", "alloc", "quotas", "stripes", "reflink", "subvolumes", "snapshots", "lru",
    "freespace", "need_discard", "backpointers", "bucket_gens", "snapshot_trees", "deleted_inodes", "logged_ops",
    "rebalance_work", "subvolume_children", "accounting", "reconcile_hipri", "reconcile_pending", "reconcile_scan",
    "reconcile_work_phys", "reconcile_hipri_phys", "bucket_to_stripe", "stripe_backpointers", "damage",
};
static const char *const types[256] = {
    [0] = "deleted", [1] = "whiteout", [2] = "error", [3] = "cookie", [4] = "hash_whiteout", [6] = "extent",
    [7] = "reservation", [8] = "inode", [9] = "inode_generation", [10] = "dirent", [11] = "xattr", [12] = "alloc",
    [13] = "quota", [14] = "stripe", [15] = "reflink_p", [16] = "reflink_v", [17] = "inline_data",
    [19] = "indirect_inline_data", [20] = "alloc_v2", [21] = "subvolume", [22] = "snapshot", [23] = "inode_v2",
    [24] = "alloc_v3", [25] = "set", [27] = "alloc_v4", [28] = "backpointer", [29] = "inode_v3", [30] = "bucket_gens",
    [31] = "snapshot_tree", [32] = "logged_op_truncate", [33] = "logged_op_finsert", [34] = "accounting",
    [35] = "inode_alloc_cursor", [36] = "extent_whiteout",
};

/* How a field stands in the text. */
enum rule {
    MUST,     /* always */
    MAY,      /* always, but may be left out for 0 */
    RARE,     /* where it is not as usual */
    MARK,     /* its name alone, where it is 1 */
    HAS_TYPE, /* where a type is given and it is 0; otherwise it says whether a type is given */
    TYPE,     /* where it is given */
    MADE,     /* never: a count of lines or a length */
    WORDS,    /* the value's first part, of words */
    BYTES,    /* the rest of the value */
};
struct field {
    const char *name;
    unsigned bits;
    enum rule rule;
    uint64_t usual;
    const char *const *names;
};
static const struct field book_fields[] = {
    {"layout", 4, RARE, 1, 0},  {"trees", 1, MARK, 0, 0},        {"drawn", 1, MARK, 0, 0},       {"spare", 10, RARE, 0, 0},
    {"version", 16, MAY, 0, 0}, {"first_bucket", 16, MAY, 0, 0}, {"keys", 16, MADE, 0, 0},       {"device", 64, MAY, 0, 0},
    {"buckets", 64, MAY, 0, 0}, {"parents", 16, MADE, 0, 0},     {"subvolumes", 16, MADE, 0, 0}, {"gens", 16, MADE, 0, 0},
    {"alloc", 16, MADE, 0, 0},
};
static const struct field parent_fields[] = {{"id", 32, MUST, 0, 0}, {"parent", 32, MAY, 0, 0}};
static const struct field subvolume_fields[] = {{"id", 32, MUST, 0, 0}, {"snapshot", 32, MUST, 0, 0}};
static const struct field gen_fields[] = {{"bucket", 64, MUST, 0, 0}, {"generation", 8, MAY, 0, 0}};
static const struct field alloc_fields[] = {
    {"bucket", 64, MUST, 0, 0}, {"has_type", 1, HAS_TYPE, 0, 0}, {"type", 8, TYPE, 0, 0}, {"spare", 7, RARE, 0, 0},
};
static const struct field key_fields[] = {
    {"btree", 8, MUST, 0, btrees}, {"type", 8, MUST, 0, types}, {"length", 11, MADE, 0, 0},  {"spare", 5, RARE, 0, 0}, {"size", 32, MAY, 0, 0},
    {"inode", 64, MAY, 0, 0},      {"offset", 64, MUST, 0, 0},  {"snapshot", 32, MAY, 0, 0}, {"words", 0, WORDS, 0, 0}, {"value", 0, BYTES, 0, 0},
};
#define FIELDS_MAX 13
#define LENGTH 2 /* the key's field */

/* The kinds of lines, in the order of the packed tables. */
enum { BOOK, PARENT, SUBVOLUME, GEN, ALLOC, KEY, KINDS };
#define FIELDS(fields) fields, sizeof fields / sizeof *fields
static const struct kind {
    const char *name;
    size_t bytes, counted; /* of an entry; the field of the header that counts the lines */
    const struct field *fields;
    size_t count;
} kinds[KINDS] = {
    {"book", 32, 0, FIELDS(book_fields)}, {"parent", 8, 9, FIELDS(parent_fields)}, {"subvolume", 8, 10, FIELDS(subvolume_fields)},
    {"gen", 9, 11, FIELDS(gen_fields)},   {"alloc", 10, 12, FIELDS(alloc_fields)}, {"key", 28, 6, FIELDS(key_fields)},
};

/* Takes an entry's fields from its bytes, most significant bit first. */
static void take(const struct kind *kind, const uint8_t *at, uint64_t *values) {
    size_t bit = 0;
    for (size_t i = 0; i < kind->count; i++) {
        values[i] = 0;
        for (unsigned b = 0; b < kind->fields[i].bits; b++, bit++)
            values[i] = values[i] << 1 | (at[bit / 8] >> (7 - bit % 8) & 1);
    }
}

/* Puts an entry's fields into its bytes. */
static void put(const struct kind *kind, uint8_t *at, const uint64_t *values) {
    size_t bit = 0;
    memset(at, 0, kind->bytes);
    for (size_t i = 0; i < kind->count; i++)
        for (unsigned b = kind->fields[i].bits; b-- > 0; bit++)
            at[bit / 8] |= (uint8_t)((values[i] >> b & 1) << (7 - bit % 8));
}

/* ---- from a text to a book */

struct part { /* of the text */
    const char *at;
    size_t length;
};
#define SHOWN(part) escaped((part).at, (part).length)

static const char *file;       /* the input's name */
static size_t line;            /* the line that is read, from 1 */
static const char *line_start; /* its first character */
static struct part here;       /* what is read of it: the line's first word or a field */

static struct entry { /* the line, as far as it is read */
    int kind;
    uint64_t values[FIELDS_MAX];
    unsigned given; /* a bit for each field */
    uint8_t value[2][VALUE_MAX];
    size_t length[2];
} entry;
static uint8_t packed[KINDS][BOOK_MAX]; /* the lines of each kind so far */
static size_t bytes_of[KINDS], lines_of[KINDS];

/* A byte as messages show it: printable ASCII but the backslash as it is, others in hexadecimal, so that a terminal
   takes none as a command. */
static size_t escape(char *to, char byte) {
    if (byte >= ' ' && byte <= '~' && byte != '\\')
        return *to = byte, 1;
    return (size_t)sprintf(to, "\\x%02x", (unsigned)(unsigned char)byte);
}

/* A part of the input as messages show it, which is cut where it is long. */
static const char *escaped(const char *at, size_t length) {
    static char to[4 * SHOWN_MAX + sizeof "..."];
    size_t end = 0;
    for (size_t i = 0; i < length && i < SHOWN_MAX; i++)
        end += escape(to + end, at[i]);
    strcpy(to + end, length > SHOWN_MAX ? "..." : "");
    return to;
}

/* Starts a message with the input's name. */
static void name_file(void) {
    char one[5];
    for (const char *at = file; *at; at++)
        fwrite(one, 1, escape(one, *at), stderr);
}

static _Noreturn void wrong(const char *format, ...) {
    va_list list;
    va_start(list, format);
    name_file();
    fprintf(stderr, ":%zu:%zu: ", line, (size_t)(here.at - line_start) + 1);
    vfprintf(stderr, format, list);
    fputc('\n', stderr);
    exit(2);
}

static int is(struct part part, const char *name) { return part.length == strlen(name) && !memcmp(part.at, name, part.length); }

static unsigned digit(char c) {
    static const char digits[] = "0123456789abcdef0123456789ABCDEF";
    const char *at = c ? strchr(digits, c) : NULL;
    return at ? (unsigned)(at - digits) % 16 : 16;
}

/* A number, decimal or hexadecimal, or one of the names that the field has. */
static uint64_t number(struct part part, const struct field *field) {
    for (unsigned i = 0; field->names && i < 256; i++)
        if (field->names[i] && is(part, field->names[i]))
            return i;
    unsigned base = part.length > 2 && part.at[0] == '0' && (part.at[1] | 32) == 'x' ? 16 : 10;
    uint64_t most = UINT64_MAX >> (64 - field->bits), value = 0;
    int wide = 0, none = part.length == 0;
    for (size_t i = base == 16 ? 2 : 0; i < part.length; i++) {
        unsigned d = digit(part.at[i]);
        none |= d >= base;
        wide |= d > most || value > (most - d) / base;
        value = value * base + d;
    }
    if (none)
        wrong("'%s' is no %s", SHOWN(part), field->names ? "name or number" : "number");
    if (wide)
        wrong("%s is too wide for %s, whose width in bits is %u", SHOWN(part), field->name, field->bits);
    return value;
}

static void append(int list, unsigned byte) {
    if (entry.length[0] + entry.length[1] == VALUE_MAX)
        wrong("the value is over 2,047 bytes");
    entry.value[list][entry.length[list]++] = (uint8_t)byte;
}

/* The words of a value, least significant byte first. */
static void read_words(struct part part) {
    static const struct field word = {"words", 32, MUST, 0, 0};
    for (size_t from = 0, to; from <= part.length; from = to + 1) {
        for (to = from; to < part.length && part.at[to] != ',';)
            to++;
        uint64_t value = number((struct part){part.at + from, to - from}, &word);
        for (int i = 0; i < 4; i++)
            append(0, (unsigned)(value >> 8 * i) & 255);
    }
}

/* The bytes of a value. */
static void read_bytes(struct part part) {
    for (size_t i = 0; i < part.length; i += 2) {
        unsigned high = digit(part.at[i]), low = i + 1 < part.length ? digit(part.at[i + 1]) : 16;
        if (high > 15 || low > 15)
            wrong("'%s' is no byte in hexadecimal", escaped(part.at + i, i + 1 < part.length ? 2 : 1));
        append(1, high << 4 | low);
    }
}

/* Reads the field that stands here. */
static void read_field(void) {
    const struct kind *kind = &kinds[entry.kind];
    struct part name = {here.at, 0};
    while (name.length < here.length && name.at[name.length] != '=')
        name.length++;
    size_t i = 0;
    while (i < kind->count && (kind->fields[i].rule == MADE || !is(name, kind->fields[i].name)))
        i++;
    if (i == kind->count)
        wrong("a line of '%s' has no field '%s'", kind->name, SHOWN(name));
    if (entry.given >> i & 1)
        wrong("'%s' is given twice", SHOWN(name));
    entry.given |= 1u << i;
    enum rule rule = kind->fields[i].rule;
    if (rule == MARK && name.length < here.length)
        wrong("'%s' takes no value", SHOWN(name));
    if (rule != MARK && name.length + 1 >= here.length)
        wrong("'%s' has no value", SHOWN(name));
    struct part text = {name.at + name.length + 1, here.length - name.length - 1};
    if (rule == WORDS)
        read_words(text);
    else if (rule == BYTES)
        read_bytes(text);
    else
        entry.values[i] = rule == MARK ? 1 : number(text, &kind->fields[i]);
}

/* Gives what was left out its usual value, and puts the entry behind those of its kind. */
static void keep(void) {
    const struct kind *kind = &kinds[entry.kind];
    size_t all = entry.length[0] + entry.length[1] + kind->bytes;
    uint8_t *at = packed[entry.kind] + bytes_of[entry.kind];
    for (size_t i = 0; i < kind->count; i++) {
        const struct field *field = &kind->fields[i];
        if (entry.given >> i & 1)
            continue;
        if (field->rule == MUST)
            wrong("'%s' is missing", field->name);
        entry.values[i] = field->rule == HAS_TYPE ? entry.given >> (i + 1) & 1 : field->usual;
    }
    if (entry.kind == KEY)
        entry.values[LENGTH] = all - kind->bytes;
    if (lines_of[entry.kind]++ == LINES_MAX)
        wrong("more than 65,535 lines of '%s'", kind->name);
    bytes_of[entry.kind] += all;
    all = 0;
    for (int k = 0; k < KINDS; k++)
        all += bytes_of[k];
    if (all > BOOK_MAX)
        wrong("the book is over 1,048,576 bytes");
    put(kind, at, entry.values);
    memcpy(at + kind->bytes, entry.value[0], entry.length[0]);
    memcpy(at + kind->bytes + entry.length[0], entry.value[1], entry.length[1]);
}

/* The next word of the line, of length 0 at its end. */
static struct part next_word(const char *at) {
    at += strspn(at, " \t\r");
    return (struct part){at, strcspn(at, " \t\r\n#")};
}

/* Reads a line from its first word on. */
static void read_line(struct part first) {
    memset(&entry, 0, sizeof entry);
    here = first;
    while (entry.kind < KINDS && !is(first, kinds[entry.kind].name))
        entry.kind++;
    if (entry.kind == KINDS)
        wrong("no line starts with '%s'", SHOWN(first));
    if ((entry.kind == BOOK) != (lines_of[BOOK] == 0))
        wrong(lines_of[BOOK] ? "a second line of 'book'" : "the first line is not that of 'book'");
    while ((here = next_word(here.at + here.length)).length > 0)
        read_field();
    here = first;
    keep();
}

/* Packs a text, which a zero byte ends, into `book`; returns the book's length. */
static size_t pack(const char *text, size_t length, uint8_t *book) {
    uint64_t header[FIELDS_MAX];
    size_t end = 0;
    memset(bytes_of, 0, sizeof bytes_of);
    memset(lines_of, 0, sizeof lines_of);
    for (line = 1, line_start = text;; line++) {
        here.at = line_start + strcspn(line_start, "\n");
        const char *next = here.at + 1;
        if (!*here.at && next <= text + length)
            wrong("a zero byte");
        struct part first = next_word(line_start);
        if (first.length > 0)
            read_line(first);
        if (next > text + length)
            break;
        line_start = next;
    }
    if (!lines_of[BOOK])
        wrong("there is no line of 'book'");
    take(&kinds[BOOK], packed[BOOK], header);
    for (int k = PARENT; k < KINDS; k++)
        header[kinds[k].counted] = lines_of[k];
    put(&kinds[BOOK], packed[BOOK], header);
    for (int k = 0; k < KINDS; end += bytes_of[k], k++)
        memcpy(book + end, packed[k], bytes_of[k]);
    return end;
}

/* ---- from a book to a text */

static char *text;
static size_t text_length, text_room;

static _Noreturn void stop(const char *what) {
    name_file();
    fprintf(stderr, ": %s\n", what);
    exit(2);
}

/* The same with the reason that errno has. */
static _Noreturn void stop_for(const char *what) {
    int reason = errno;
    name_file();
    fprintf(stderr, ": %s: %s\n", what, strerror(reason));
    exit(2);
}

static void say(const char *format, ...) {
    va_list list;
    va_start(list, format);
    if (text_room - text_length < 128 && !(text = realloc(text, text_room = 2 * text_room + 65536)))
        stop("no memory");
    text_length += (size_t)vsnprintf(text + text_length, text_room - text_length, format, list);
    va_end(list);
}

static int shown(const struct field *field, const uint64_t *value) {
    switch (field->rule) {
    case RARE:
    case MARK: return *value != field->usual;
    case HAS_TYPE: return value[0] == 0 && value[1] != 0;
    case TYPE: return value[-1] != 0 || value[0] != 0;
    default: return field->rule == MUST || field->rule == MAY;
    }
}

/* The common fields of an entry, then those that are not as usual. */
static void say_fields(const struct kind *kind, const uint64_t *values) {
    say("%s", kind->name);
    for (int unusual = 0; unusual < 2; unusual++)
        for (size_t i = 0; i < kind->count; i++) {
            const struct field *field = &kind->fields[i];
            int last = field->rule == RARE || field->rule == MARK || field->rule == HAS_TYPE;
            if (last != unusual || !shown(field, values + i))
                continue;
            if (field->rule == MARK)
                say(" %s", field->name);
            else if (field->names && field->names[values[i]])
                say(" %s=%s", field->name, field->names[values[i]]);
            else
                say(" %s=%" PRIu64, field->name, values[i]);
        }
}

/* Small words and those of ids, which count down from the largest, are decimal; others, as the words of states, hexadecimal. */
static void say_value(const uint8_t *at, size_t length) {
    for (size_t i = 0; i + 4 <= length; i += 4) {
        uint32_t word = at[i] | (uint32_t)at[i + 1] << 8 | (uint32_t)at[i + 2] << 16 | (uint32_t)at[i + 3] << 24;
        say(word < 0x10000 || word >= 0xf0000000 ? "%s%" PRIu32 : "%s0x%" PRIx32, i ? "," : " words=", word);
    }
    for (size_t i = length / 4 * 4; i < length; i++)
        say("%s%02x", i % 4 ? "" : " value=", at[i]);
}

/* Writes the text of a book. For bytes that are not a whole book it returns why, and at which byte that shows. */
static const char *say_book(const uint8_t *book, size_t bytes, size_t *place) {
    uint64_t header[FIELDS_MAX], values[FIELDS_MAX];
    text_length = *place = 0;
    if (bytes > BOOK_MAX)
        return *place = BOOK_MAX, "the book is over 1,048,576 bytes";
    if (bytes < kinds[BOOK].bytes)
        return "the header runs past the end";
    take(&kinds[BOOK], book, header);
    say_fields(&kinds[BOOK], header);
    say("\n");
    *place = kinds[BOOK].bytes;
    for (int k = PARENT; k < KINDS; k++)
        for (uint64_t i = 0; i < header[kinds[k].counted]; i++) {
            if (bytes - *place < kinds[k].bytes)
                return k == KEY ? "a key's head runs past the end" : "an entry runs past the end";
            take(&kinds[k], book + *place, values);
            size_t length = k == KEY ? values[LENGTH] : 0;
            if (bytes - *place - kinds[k].bytes < length)
                return "a key's value runs past the end";
            say_fields(&kinds[k], values);
            say_value(book + *place + kinds[k].bytes, length);
            say("\n");
            *place += kinds[k].bytes + length;
        }
    return *place < bytes ? "there are bytes after the last key" : NULL;
}

/* ---- the commands */

static char *all; /* the input, with a zero byte after it */

/* Reads the whole input, and returns its length. */
static size_t read_all(void) {
    FILE *in = strcmp(file, "-") ? fopen(file, "rb") : stdin;
    if (!in)
        stop_for("cannot be opened");
    size_t length = 0, room = 0, more = 0;
    do {
        length += more;
        if (length == room && !(all = realloc(all, (room = 2 * room + 65536) + 1)))
            stop("no memory");
    } while ((more = fread(all + length, 1, room - length, in)) > 0);
    if (ferror(in))
        stop_for("cannot be read");
    if (in != stdin)
        fclose(in);
    all[length] = 0;
    return length;
}

/* Writes bytes to standard output, and sees that they are written. */
static void write_all(const void *at, size_t bytes) {
    if (fwrite(at, 1, bytes, stdout) == bytes && !fflush(stdout))
        return;
    fprintf(stderr, "standard output cannot be written: %s\n", strerror(errno));
    exit(2);
}

static uint8_t made[BOOK_MAX];

/* Each line's digits are made into bytes where they stand. */
static int roundtrip(size_t length) {
    size_t lines = 0, whole = 0, same = 0, place;
    for (char *at = all, *end; at < all + length; at = end + 1, lines++) {
        size_t bytes = (strcspn(at, "\n") + 1) / 2;
        end = at + strcspn(at, "\n");
        if (!*end && end < all + length)
            stop("a zero byte");
        for (size_t i = 0; i < bytes; i++) {
            unsigned high = digit(at[2 * i]), low = digit(at[2 * i + 1]);
            if (high > 15 || low > 15)
                stop("a line is not in hexadecimal");
            at[i] = (char)(high << 4 | low);
        }
        if (say_book((uint8_t *)at, bytes, &place))
            continue;
        whole++;
        same += pack(text, text_length, made) == bytes && !memcmp(made, at, bytes);
    }
    text_length = 0;
    say("%zu books, %zu of them whole, %zu of these the same again\n", lines, whole, same);
    write_all(text, text_length);
    return whole != same;
}

/* The text of a book that is whole. */
static int show(size_t length) {
    size_t place;
    const char *why = say_book((uint8_t *)all, length, &place);
    if (!why)
        return write_all(text, text_length), 0;
    name_file();
    fprintf(stderr, ": byte %zu: %s\n", place, why);
    return 2;
}

int main(int argc, char **argv) {
    const char *command = argc == 2 || argc == 3 ? argv[1] : "";
    int status = 0;
    file = argc == 3 ? argv[2] : "-";
    if (strcmp(command, "pack") && strcmp(command, "text") && strcmp(command, "roundtrip")) {
        fputs("usage: book pack TEXT | book text BOOK | book roundtrip LINES\n", stderr);
        return 2;
    }
    size_t length = read_all();
    if (*command == 'p')
        write_all(made, pack(all, length, made));
    else
        status = *command == 'r' ? roundtrip(length) : show(length);
    free(text);
    free(all);
    return status;
}
