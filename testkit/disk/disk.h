/*
 * A disk that loses power, for tests: a folder of files. Each file has what can be read, and what the disk has stored.
 *
 * - After a loss of power, pieces of what was written since the last sync are as they were to be, as they were before,
 *   zeros, or garbage. A size is the new one or an old one.
 * - A sync that fails behaves as on Linux, or worse. The disk stores any part of the changes, all of them can be read,
 *   and no later sync stores them. Worse than Linux, a later sync may not even store what is written over them, until
 *   disk_forget makes reads return what is stored. A deaf disk stores it, and forgets nothing. A disk that lies stores
 *   nothing in a sync.
 * - A name that was made, replaced or removed may be the old one after a loss of power, until its folder is synced.
 *
 * The disk is memory without pointers, so that programs share it, and a copy is another disk.
 */
#ifndef DISK_H
#define DISK_H

#include <stddef.h>
#include <stdint.h>

enum {
    NODES = 16,
    NAMES = 8,
    NAME_BYTES = 48,
    MOST_BYTES = 1 << 17,
    MOST_CHANGES = 256,
    MOST_PENDING = 1 << 19,
    NOTHING = -1
};

/* A change since the last sync: bytes that are written, or a new size, which is `place`. */
struct change {
    uint32_t place, length;
    int is_size;
};

/* A file. Its number is that of the file of the system which shows it, or 0 if the place is free. */
struct node {
    uint64_t number;
    uint32_t length, stored_length, change_count, pending_bytes, failure_count;
    /* The changes since the last sync, and those that a sync has failed to store. */
    struct change changes[MOST_CHANGES], failures[MOST_CHANGES];
    uint8_t now[MOST_BYTES], stored[MOST_BYTES], pending[MOST_PENDING];
};

/* A name leads to a node, or to NOTHING. */
struct name {
    char text[NAME_BYTES];
    int now, stored;
};

/* A change of up to two names, which is made in one. The second name is NOTHING if there is none. */
struct renaming {
    int name[2], node[2];
};

struct disk {
    /* The folder, without a slash at its end, and what the system knows it by. */
    char folder[256];
    uint64_t device, folder_number;
    /* The plan: which of the calls that change something fail, counted from 0, and the bits of the syncs that fail. */
    int calls, first_failure, last_failure, stop, syncs, stops_at_sync;
    uint64_t failing_syncs, random;
    int is_deaf, is_lying;
    int renaming_count;
    struct renaming renamings[MOST_CHANGES];
    struct name names[NAMES];
    struct node nodes[NODES];
};

/* Ends the program if the test, and not what it tests, is wrong. */
void disk_must(int holds, const char *what);

/* Maps the disk in a file, which is made if it is not there. */
struct disk *disk_map(const char *path);
/* Makes the disk that of an empty folder. */
void disk_begin(struct disk *disk, const char *folder, int is_deaf, int is_lying);
void disk_copy(struct disk *to, const struct disk *from);
/* From the call `stop` on all fail, and if `stops_at_sync` is set, those after the first sync that does. */
void disk_plan(
    struct disk *disk, int first_failure, int last_failure, int stop, uint64_t failing_syncs, int stops_at_sync);

/* Counts a call. Returns whether it fails. */
int disk_fails(struct disk *disk);

struct node *disk_find(struct disk *disk, uint64_t number);
/* Returns the node that a name leads to, or a null pointer. */
struct node *disk_at(struct disk *disk, const char *name);
struct node *disk_create(struct disk *disk, const char *name, uint64_t number);
void disk_remove(struct disk *disk, const char *name);
/* Gives a node another name, in place of the node that has it, or one more if `from` is null. */
void disk_rename(struct disk *disk, const char *from, const char *to, struct node *node);

/* Writes bytes: all, or the first half of them if the call fails, which sets `length`. Returns whether it succeeds. */
int disk_write(struct disk *disk, struct node *node, size_t place, const uint8_t *bytes, size_t *length);
/* The size was changed. */
void disk_resize(struct node *node, size_t size);
/* Each returns whether it succeeds. */
int disk_sync(struct disk *disk, struct node *node);
int disk_sync_names(struct disk *disk);
void disk_forget(struct disk *disk, struct node *node);

/* The power fails. What is read now is what the disk has. */
void disk_crash(struct disk *disk, uint64_t seed);

#endif
