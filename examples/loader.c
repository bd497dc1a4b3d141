/*
 * loader [--explain] BOOK: what a loader does before it merges snapshots. Judges a book file and writes its findings, each with its kind, the
 * kind's name, subject and object, or says why the book is refused. With --explain a sentence follows each finding that says what it means;
 * keys are numbered from 0 there.
 *
 * Exit status: 0 accepted, nothing found and the chains of snapshots judged, 1 findings, 2 refused or not read,
 * 3 accepted and nothing found, but the chains were not judged: the trees mark is clear.
 *
 * Only 0 may lead to a merge, and only for a forest book, of which it is proved that an empty list says that the chains
 * are sound (README.md, "What an empty list means"). The mark is one premise of that; this program looks at no other.
 */
#include "dockwrench.h"

#include <inttypes.h>
#include <stdio.h>
#include <stdlib.h>
#include <string.h>

/* The kinds: a name, and what a finding means, where @ stands for its subject, # for its object and $ for the state that its object is the word of. */
static const struct {
    const char *name, *meaning;
} kinds[] = {
    {NULL, NULL},
    {"pointer_to_nonexistent_device", "key number @, of the alloc or the bucket_gens btree, is on another device than the book's"},
    {"backpointer_for_missing_device", "key number @, of the backpointers btree, is on another device than the book's"},
    {"bkey_size_nonzero", "key number @ has a size, and keys of its btree and type must have none"},
    {"bkey_snapshot_nonzero", "key number @ has a snapshot in its position, and keys of its btree and type must have none"},
    {"bkey_val_size_too_small",
     "the value of key number @ is shorter than the least for a backpointer (32 bytes), snapshot (24) or subvolume (16)"},
    {"accounting_key_junk_at_end", "accounting key number @ has bits set in its position behind the fields of its kind"},
    {"accounting_replicas_bad", "accounting key number @ names no devices, devices that do not rise, or too many required copies for them"},
    {"accounting_key_counters_bad", "accounting key number @ has more than three counters, or none where it needs one"},
    {"inode_str_hash_invalid", "the inode at key number @ has a string hash type above 3"},
    {"inode_fields_start_bad", "the inode at key number @ says that its fields start before word 6, of 8 bytes each, or past the end of its value"},
    {"snapshot_pad_nonzero", "the snapshot at key number @ has bits set in its reserved word"},
    {"alloc_v4_val_size_bad", "the alloc_v4 value of key number @ is shorter than 48 bytes, or than its start and its backpointers need"},
    {"inode_pos_inode_nonzero", "key number @ is an inode that is not at inode 0; its number belongs in the offset"},
    {"subvol_pos_bad", "key number @ is a subvolume that is not at inode 0, or whose offset is not from 1 to 4,294,967,295"},
    {"snapshot_pos_bad", "key number @ is a snapshot that is not at inode 0, or whose offset is not from 1 to 4,294,967,295"},
    {"reflink_v_pos_bad", "key number @ is an extent that files share (reflink_v), and is not at inode 0"},
    {"reflink_p_front_pad_bad", "key number @ points to an extent that files share (reflink_p), and its index is below its front pad"},
    {"inode_alloc_cursor_inode_bad", "key number @ is a cursor for new inodes that is not at inode 1"},
    {"snapshot_tree_pos_bad", "key number @ is a snapshot tree that is not at inode 0, or whose offset is not from 1 to 4,294,967,295"},
    {"backpointer_level_bad", "key number @ is a backpointer with a level above 4"},
    {"xattr_val_size_too_small", "key number @ is an extended attribute whose name and value do not fit into its bytes"},
    {"bkey_invalid_type_for_btree", "key number @ has a type that its btree cannot hold"},
    {"snapshot_state_bitflip", "the state of the snapshot at key number @ is $ but for one or two bits"},
    {"snapshot_state_bad", "the state of the snapshot at key number @ is missing, or differs from every known one by more than two bits"},
    {"subvol_state_bad",
     "the state of the subvolume at key number @ is missing or 0, or differs from the nearest known one by three to six bits"},
    {"subvol_state_bitflip", "the state of the subvolume at key number @ is $ but for one or two bits"},
    {"subvol_state_invalid", "the state of the subvolume at key number @ differs from every known one by more than six bits"},
    {"subvol_pad_nonzero", "the subvolume at key number @ has bits set in its reserved word"},
    {"root_subvol_missing", "subvolume @, the root, is unlinked or deleted"},
    {"snapshot_subvol_state_mismatch", "snapshot @ is live, but its subvolume # is deleted"},
    {"snapshot_tree_to_missing_subvol", "snapshot tree @ names subvolume #, which is deleted or not there"},
    {"snapshot_claimed_twice", "snapshot @ is claimed by # subvolumes that are not deleted"},
    {"snapshot_deleted_but_subvol_live", "snapshot @ is to be deleted, but its subvolume is live"},
    {"snapshot_deleted_has_live_children", "snapshot @ is to be deleted, but both its children are live"},
    {"snapshot_deleted_but_has_data", "snapshot @ is marked as deleted or as without keys, but keys are accounted to it"},
    {"snapshot_subvol_flag_wrong", "snapshot @ names subvolume # (0 is none), and its flag for having one says the opposite"},
    {"subvol_children_entry_missing", "subvolume @ has the parent subvolume #, but the subvolume_children btree does not list it there"},
    {"subvol_children_entry_wrong",
     "the subvolume_children btree lists subvolume @ under a parent that is not its own, which is # (0: it has none, or is deleted or not there)"},
    {"snapshot_tree_to_bad_root_snapshot", "snapshot tree @ names the root snapshot #, which is not there or names another tree"},
    {"snapshot_tree_to_wrong_subvol", "snapshot tree @ names subvolume #, whose snapshot is in another tree"},
    {"snapshot_to_bad_snapshot_tree",
     "snapshot @ names tree #, but there is no such tree, or the snapshot's parents lead to no root or to another root than the tree's"},
    {"snapshot_bad_depth", "snapshot @ says that its depth is #, but it has another number of ancestors"},
    {"snapshot_subvol_backref_wrong", "snapshot @ names subvolume #, which names another snapshot"},
    {"snapshot_bad_child", "snapshot @ names the child #, which is not there or has another parent"},
    {"snapshot_bad_skiplist", "snapshot @ has skip words that are not 0, nor itself, nor an ancestor; their number is #"},
    {"incorrect_gen_in_bucket_gens",
     "the bucket_gens btree gives bucket @ generation # and its alloc key another (0 without one), or has no key for it and # is its alloc key's"},
    {"freespace_entry_for_nonexistent_bucket",
     "the free run that ends before bucket @, of size #, is on another device or reaches outside the device's buckets"},
    {"bucket_incorrectly_set_in_freespace_btree",
     "a free run holds bucket @, which is in use or below the first bucket; of the run's buckets # are not free, those below the first counted as one"},
    {"bucket_incorrectly_unset_in_freespace_btree", "bucket @ is free by its alloc key, but no free run holds it"},
    {"hole_in_alloc_btree_missing_in_freespace_btree",
     "buckets @ to #, the last not included, have no alloc key, and no free run holds them"},
};
_Static_assert(sizeof kinds / sizeof *kinds == 51, "a name and a meaning for each of the kinds 1 to 50");

/* The state words of snapshots and of subvolumes; no word is in both. */
static const struct {
    uint32_t word;
    const char *name;
} states[] = {
    {0x757c47a2, "live"}, {0x3316a8d2, "will_delete"}, {0x372b5a01, "no_keys"}, {0x7cd4a225, "deleted"},
    {0x4ad5447e, "live"}, {0x2d358e8f, "unlinked"},    {0x3c6b2d4c, "deleted"},
};

static const char *state_name(uint64_t word) {
    for (size_t i = 0; i < sizeof states / sizeof *states; i++)
        if (states[i].word == word)
            return states[i].name;
    return "unknown";
}

static const char *const refusals[] = {
    NULL,
    "the book is over 1,048,576 bytes",
    "the book is under 32 bytes",
    "the layout is not 1, or a spare header bit is set",
    "an entry, key head or value runs past the end",
    "a spare bit is set, or there is a data type without has-type",
    "an entry's first field is not above the one before",
    "there is a snapshot tree key, but the trees mark is clear",
    "there are bytes after the last key",
    "the work area is short",
    [12] = "the drawn mark is set, but there is a parents table",
    [13] = "the parents table has more than 4,096 entries",
};

/* Calls with room for one finding, since most books have none, and once more with room for all of them if they did not fit. */
static uint64_t check(const uint8_t *book, size_t bytes, uint8_t **findings) {
    size_t words = dockwrench_words(book, bytes);
    uint64_t *work = malloc((words + 1) * sizeof *work);
    size_t room = DOCKWRENCH_FINDING_BYTES;
    uint64_t answer;
    for (;;) {
        uint8_t *more = realloc(*findings, room);
        if (!work || !more) {
            fputs("loader: no memory\n", stderr);
            exit(2);
        }
        *findings = more;
        answer = dockwrench_check(book, bytes, *findings, room, work, words);
        if (dockwrench_number(answer) != 10)
            break;
        room = (size_t)dockwrench_count(answer) * DOCKWRENCH_FINDING_BYTES;
    }
    free(work);
    return answer;
}

static void explain(const uint8_t *finding) {
    fputs("    ", stdout);
    for (const char *at = kinds[dockwrench_kind(finding)].meaning; *at; at++)
        if (*at == '@')
            printf("%" PRIu64, dockwrench_subject(finding));
        else if (*at == '#')
            printf("%" PRIu64, dockwrench_object(finding));
        else if (*at == '$')
            fputs(state_name(dockwrench_object(finding)), stdout);
        else
            putchar(*at);
    putchar('\n');
}

/* Writes an answer, for a book whose trees mark is set or clear, and returns the exit status. */
static int tell(uint64_t answer, const uint8_t *findings, int trees, int explained) {
    uint32_t count = dockwrench_count(answer);
    if (dockwrench_number(answer) != 0) {
        printf("refused at byte %" PRIu32 ": %s\n", dockwrench_place(answer), refusals[dockwrench_number(answer)]);
        return 2;
    }
    printf("findings: %" PRIu32 "\n", count);
    for (uint32_t i = 0; i < count; i++) {
        const uint8_t *at = findings + (size_t)i * DOCKWRENCH_FINDING_BYTES;
        printf("%u %s %" PRIu64 " %" PRIu64 "\n", dockwrench_kind(at), kinds[dockwrench_kind(at)].name, dockwrench_subject(at), dockwrench_object(at));
        if (explained)
            explain(at);
    }
    if (!trees)
        puts("the chains of snapshots were not judged: the trees mark is clear");
    return count ? 1 : trees ? 0 : 3;
}

/* The file's bytes; of a file longer than any book, a byte more than a book may have. */
static size_t take(const char *name, uint8_t *book) {
    FILE *file = fopen(name, "rb");
    size_t bytes = file ? fread(book, 1, DOCKWRENCH_BOOK_MAX + 1, file) : 0;
    if (!file || ferror(file)) {
        perror(name);
        exit(2);
    }
    fclose(file);
    return bytes;
}

int main(int argc, char **argv) {
    int explained = argc > 1 && strcmp(argv[1], "--explain") == 0;
    if (argc != 2 + explained) {
        fputs("usage: loader [--explain] BOOK\n", stderr);
        return 2;
    }
    uint8_t *book = malloc(DOCKWRENCH_BOOK_MAX + 1);
    if (!book)
        return 2;
    uint8_t *findings = NULL;
    size_t bytes = take(argv[argc - 1], book);
    uint64_t answer = check(book, bytes, &findings);
    int status = tell(answer, findings, dockwrench_trees(book, bytes), explained);
    free(findings);
    free(book);
    return status;
}
