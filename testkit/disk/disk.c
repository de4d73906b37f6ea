/* The disk of disk.h. */
#ifndef _GNU_SOURCE
#define _GNU_SOURCE
#endif
#include "disk.h"

#include <fcntl.h>
#include <limits.h>
#include <stdio.h>
#include <stdlib.h>
#include <string.h>
#include <sys/mman.h>
#include <sys/syscall.h>
#include <unistd.h>

#define COUNT(array) (sizeof(array) / sizeof *(array))

void disk_must(int holds, const char *what)
{
    if (!holds) {
        fprintf(stderr, "the disk: %s\n", what);
        abort();
    }
}

static uint64_t draw(struct disk *disk, uint64_t below)
{
    disk->random ^= disk->random << 13;
    disk->random ^= disk->random >> 7;
    disk->random ^= disk->random << 17;
    return (disk->random >> 11) % below;
}

/* Calls of the system are made directly: a program may have the disk in the place of those of its C library. */
struct disk *disk_map(const char *path)
{
    int fd = (int)syscall(SYS_openat, AT_FDCWD, path, O_RDWR | O_CREAT | O_CLOEXEC, 0600);
    disk_must(fd >= 0 && syscall(SYS_ftruncate, fd, sizeof(struct disk)) == 0, "no memory");
    void *memory = mmap(NULL, sizeof(struct disk), PROT_READ | PROT_WRITE, MAP_SHARED, fd, 0);
    disk_must(memory != MAP_FAILED && syscall(SYS_close, fd) == 0, "no memory");
    return memory;
}

void disk_begin(struct disk *disk, const char *folder, int is_deaf, int is_lying)
{
    memset(disk, 0, offsetof(struct disk, nodes));
    for (int i = 0; i < NODES; i++) {
        disk->nodes[i].number = 0;
    }
    disk_must(strlen(folder) < sizeof disk->folder, "a long path");
    strcpy(disk->folder, folder);
    disk->is_deaf = is_deaf;
    disk->is_lying = is_lying;
    disk_plan(disk, INT_MAX, INT_MAX, INT_MAX, 0, 0);
}

void disk_copy(struct disk *to, const struct disk *from)
{
    memcpy(to, from, offsetof(struct disk, nodes));
    for (int i = 0; i < NODES; i++) {
        struct node *node = &to->nodes[i];
        const struct node *of = &from->nodes[i];
        memcpy(node, of, offsetof(struct node, changes));
        memcpy(node->changes, of->changes, of->change_count * sizeof *of->changes);
        memcpy(node->failures, of->failures, of->failure_count * sizeof *of->failures);
        memcpy(node->now, of->now, of->length);
        memcpy(node->stored, of->stored, of->stored_length);
        memcpy(node->pending, of->pending, of->pending_bytes);
    }
}

void disk_plan(
    struct disk *disk, int first_failure, int last_failure, int stop, uint64_t failing_syncs, int stops_at_sync)
{
    disk->calls = disk->syncs = 0;
    disk->first_failure = first_failure;
    disk->last_failure = last_failure;
    disk->stop = stop;
    disk->stops_at_sync = stops_at_sync;
    disk->failing_syncs = failing_syncs;
}

int disk_fails(struct disk *disk)
{
    int call = disk->calls++;
    return (disk->first_failure <= call && call < disk->last_failure) || disk->stop <= call;
}

/* ---- Names */

struct node *disk_find(struct disk *disk, uint64_t number)
{
    for (int i = 0; i < NODES; i++) {
        if (disk->nodes[i].number == number) {
            return &disk->nodes[i];
        }
    }
    return NULL;
}

/* Returns the number of a name, which is added if it is new. */
static int name_of(struct disk *disk, const char *text)
{
    for (int i = 0; i < NAMES; i++) {
        struct name *name = &disk->names[i];
        if (name->text[0] == 0) {
            disk_must(strlen(text) < NAME_BYTES, "a long name");
            strcpy(name->text, text);
            name->now = name->stored = NOTHING;
        }
        if (strcmp(name->text, text) == 0) {
            return i;
        }
    }
    disk_must(0, "too many names");
    return NOTHING;
}

struct node *disk_at(struct disk *disk, const char *name)
{
    int node = disk->names[name_of(disk, name)].now;
    return node == NOTHING ? NULL : &disk->nodes[node];
}

/* Whether a name leads to a node, or may after a loss of power. */
static int is_named(const struct disk *disk, int node)
{
    int count = 0;
    for (int i = 0; i < NAMES; i++) {
        const struct name *name = &disk->names[i];
        count += name->text[0] != 0 && (name->now == node || name->stored == node);
    }
    for (int i = 0; i < disk->renaming_count; i++) {
        count += disk->renamings[i].node[0] == node;
    }
    return count > 0;
}

static void lead(struct disk *disk, int name, int node, int other, int other_node)
{
    disk_must(disk->renaming_count < MOST_CHANGES, "too many names");
    disk->renamings[disk->renaming_count++] = (struct renaming){{name, other}, {node, other_node}};
    disk->names[name].now = node;
    if (other != NOTHING) {
        disk->names[other].now = other_node;
    }
}

struct node *disk_create(struct disk *disk, const char *name, uint64_t number)
{
    int free = 0;
    while (free < NODES && is_named(disk, free)) {
        free++;
    }
    disk_must(free < NODES, "too many files");
    struct node *node = &disk->nodes[free];
    node->number = number;
    node->length = node->stored_length = node->change_count = node->pending_bytes = node->failure_count = 0;
    lead(disk, name_of(disk, name), free, NOTHING, NOTHING);
    return node;
}

void disk_remove(struct disk *disk, const char *name)
{
    lead(disk, name_of(disk, name), NOTHING, NOTHING, NOTHING);
}

void disk_rename(struct disk *disk, const char *from, const char *to, struct node *node)
{
    int other = from == NULL ? NOTHING : name_of(disk, from);
    lead(disk, name_of(disk, to), (int)(node - disk->nodes), other, NOTHING);
}

/* Counts a sync. Returns whether it fails. */
static int sync_fails(struct disk *disk)
{
    int fails = (int)(disk->failing_syncs >> disk->syncs++ % 64 & 1);
    if (fails && disk->stops_at_sync) {
        disk->stop = disk->calls;
    }
    return fails;
}

int disk_sync_names(struct disk *disk)
{
    if (disk_fails(disk) || sync_fails(disk)) {
        return 0;
    }
    for (int i = 0; i < NAMES; i++) {
        disk->names[i].stored = disk->names[i].now;
    }
    disk->renaming_count = 0;
    return 1;
}

/* ---- Bytes */

static void resize(uint8_t *bytes, uint32_t *length, size_t size)
{
    disk_must(size <= MOST_BYTES, "a long file");
    memset(bytes + *length, 0, size > *length ? size - *length : 0);
    *length = (uint32_t)size;
}

static void put(uint8_t *bytes, uint32_t *length, size_t place, const uint8_t *from, size_t count)
{
    if (place + count > *length) {
        resize(bytes, length, place + count);
    }
    memcpy(bytes + place, from, count);
}

/* Makes a change of bytes that are `*length` long. */
static void apply(const struct change *change, const uint8_t *from, uint8_t *bytes, uint32_t *length)
{
    if (change->is_size) {
        resize(bytes, length, change->place);
    } else {
        put(bytes, length, change->place, from, change->length);
    }
}

static void add_change(struct node *node, size_t place, const uint8_t *bytes, size_t length, int is_size)
{
    disk_must(node->change_count < MOST_CHANGES && length <= MOST_PENDING - node->pending_bytes, "too many changes");
    node->changes[node->change_count++] = (struct change){(uint32_t)place, (uint32_t)length, is_size};
    memcpy(node->pending + node->pending_bytes, bytes, length);
    node->pending_bytes += (uint32_t)length;
}

void disk_resize(struct node *node, size_t size)
{
    add_change(node, size, node->pending, 0, 1);
    resize(node->now, &node->length, size);
    /* Nothing is kept of what was cut off. */
    node->failure_count = size == 0 ? 0 : node->failure_count;
}

int disk_write(struct disk *disk, struct node *node, size_t place, const uint8_t *bytes, size_t *length)
{
    int fails = disk_fails(disk);
    *length /= fails ? 2 : 1;
    add_change(node, place, bytes, *length, 0);
    put(node->now, &node->length, place, bytes, *length);
    return !fails;
}

/* Fills a piece of a write with what may be there in its place, unless it is what was there. */
static void store_piece(
    struct disk *disk, struct node *node, size_t place, const uint8_t *bytes, size_t length, int kind)
{
    uint8_t other[MOST_BYTES];
    if (kind == 0) {
        return;
    }
    for (size_t i = 0; kind > 1 && i < length; i++) {
        other[i] = kind == 2 ? 0 : (uint8_t)draw(disk, 256);
    }
    put(node->stored, &node->stored_length, place, kind == 1 ? bytes : other, length);
}

/* Stores a part of a write. There may be a tail that is torn, or pieces here and there. */
static void store_part(struct disk *disk, struct node *node, size_t place, const uint8_t *bytes, size_t length)
{
    static const size_t pieces[] = {16, 100, 512, 512, 4096, MOST_BYTES};
    size_t piece = pieces[draw(disk, COUNT(pieces))], end = place + length;
    uint64_t first = draw(disk, 4), kinds = 1 + draw(disk, 4);
    size_t whole = draw(disk, 3) == 0 ? place + draw(disk, length + 1) : place;
    store_piece(disk, node, place, bytes, whole - place, 1);
    for (size_t at = whole, next; at < end; at = next) {
        next = (at / piece + 1) * piece < end ? (at / piece + 1) * piece : end;
        store_piece(disk, node, at, bytes + (at - place), next - at, (int)((first + draw(disk, kinds)) % 4));
    }
}

/* Whether bytes are written over some that a sync has failed to store. */
static int is_over_failure(const struct node *node, const struct change *change)
{
    int count = 0;
    for (uint32_t i = 0; i < node->failure_count; i++) {
        const struct change *failure = &node->failures[i];
        int is_over =
            change->place < failure->place + failure->length && failure->place < change->place + change->length;
        count += !failure->is_size && is_over;
    }
    return count > 0;
}

/* Stores the changes since the last sync, or any part of them. Then none are left. */
static void store(struct disk *disk, struct node *node, int is_all)
{
    const uint8_t *bytes = node->pending;
    uint64_t habit = is_all ? 1 : draw(disk, 4);
    for (uint32_t i = 0; i < node->change_count; i++) {
        const struct change *change = &node->changes[i];
        int is_kept = disk->is_deaf || !is_over_failure(node, change);
        if ((is_kept || draw(disk, 2) == 0) && (habit == 1 || (habit > 1 && draw(disk, 2) == 0))) {
            apply(change, bytes, node->stored, &node->stored_length);
        } else if (!is_all && !change->is_size && draw(disk, 4) != 0) {
            store_part(disk, node, change->place, bytes, change->length);
        }
        bytes += change->length;
    }
    node->change_count = node->pending_bytes = 0;
}

int disk_sync(struct disk *disk, struct node *node)
{
    if (disk_fails(disk)) {
        return 0;
    }
    if (disk->is_lying) {
        return 1;
    }
    int fails = sync_fails(disk);
    if (fails) {
        disk_must(node->failure_count + node->change_count <= MOST_CHANGES, "too many failures");
        memcpy(node->failures + node->failure_count, node->changes, node->change_count * sizeof *node->changes);
        node->failure_count += node->change_count;
    }
    store(disk, node, !fails);
    return !fails;
}

/* Changes that are not synced yet stay. */
void disk_forget(struct disk *disk, struct node *node)
{
    const uint8_t *bytes = node->pending;
    if (disk->is_deaf) {
        return;
    }
    memcpy(node->now, node->stored, node->stored_length);
    node->length = node->stored_length;
    node->failure_count = 0;
    for (uint32_t i = 0; i < node->change_count; i++) {
        apply(&node->changes[i], bytes, node->now, &node->length);
        bytes += node->changes[i].length;
    }
}

/* ---- A loss of power */

/* Makes the changes of names that the disk has stored by chance: none, the first ones, all, or any. */
static void store_names(struct disk *disk)
{
    uint64_t habit = draw(disk, 4);
    int some = (int)draw(disk, (uint64_t)disk->renaming_count + 1);
    for (int i = 0; i < disk->renaming_count; i++) {
        const struct renaming *renaming = &disk->renamings[i];
        int is_stored = habit == 0 ? 0 : habit == 1 ? i < some : habit == 2 ? 1 : draw(disk, 2) == 0;
        for (int j = 0; is_stored && j < 2 && renaming->name[j] != NOTHING; j++) {
            disk->names[renaming->name[j]].stored = renaming->node[j];
        }
    }
    disk->renaming_count = 0;
}

void disk_crash(struct disk *disk, uint64_t seed)
{
    disk->random = seed * UINT64_C(0x9e3779b97f4a7c15) | 1;
    for (int i = 0; i < 4; i++) {
        draw(disk, 2);
    }
    store_names(disk);
    for (int i = 0; i < NAMES; i++) {
        disk->names[i].now = disk->names[i].stored;
    }
    for (int i = 0; i < NODES; i++) {
        struct node *node = &disk->nodes[i];
        if (!is_named(disk, i)) {
            node->number = 0;
            continue;
        }
        store(disk, node, 0);
        node->failure_count = 0;
        memcpy(node->now, node->stored, node->stored_length);
        node->length = node->stored_length;
    }
    disk_plan(disk, INT_MAX, INT_MAX, INT_MAX, 0, 0);
}
