/* The storage of storage.h. The journal and its copy have their names of c/file. The first write makes a file. */
#ifndef _GNU_SOURCE
#define _GNU_SOURCE
#endif
#include "storage.h"

#include <errno.h>
#include <stdio.h>
#include <stdlib.h>
#include <string.h>
#include <sys/random.h>

struct names {
    struct disk *disk;
    char part[2][NAME_BYTES], copy[NAME_BYTES];
    uint64_t last_number;
};

static struct node *node_of(const struct names *names, enum hunkravy_part part)
{
    return disk_at(names->disk, names->part[part]);
}

static int result(int is_made)
{
    return is_made ? HUNKRAVY_OK : EIO;
}

/* Makes an empty file. Its number is only to differ from others: no file of the system shows it. */
static struct node *make(struct names *names, const char *name)
{
    return disk_fails(names->disk) ? NULL : disk_create(names->disk, name, (uint64_t)1 << 63 | ++names->last_number);
}

static int storage_read(void *context, enum hunkravy_part part, uint64_t place, uint8_t *bytes, size_t length)
{
    const struct node *node = node_of(context, part);
    if (node == NULL || place > node->length || length > node->length - place) {
        return HUNKRAVY_DAMAGED_PAGE;
    }
    memcpy(bytes, node->now + place, length);
    return HUNKRAVY_OK;
}

static int storage_write(void *context, enum hunkravy_part part, uint64_t place, const uint8_t *bytes, size_t length)
{
    struct names *names = context;
    struct node *node = node_of(names, part);
    if (node == NULL) {
        node = make(names, names->part[part]);
    }
    return result(node != NULL && disk_write(names->disk, node, (size_t)place, bytes, &length));
}

static int storage_size(void *context, enum hunkravy_part part, uint64_t *size)
{
    const struct node *node = node_of(context, part);
    *size = node == NULL ? 0 : node->length;
    return HUNKRAVY_OK;
}

static int storage_resize(void *context, enum hunkravy_part part, uint64_t size)
{
    struct names *names = context;
    struct node *node = node_of(names, part);
    if (node != NULL && disk_fails(names->disk)) {
        return EIO;
    }
    if (node != NULL) {
        disk_resize(node, (size_t)size);
    }
    return HUNKRAVY_OK;
}

/* The name of the journal survives with it. An empty one stays. */
static int storage_sync(void *context, enum hunkravy_part part)
{
    struct names *names = context;
    struct node *node = node_of(names, part);
    if (node == NULL) {
        return HUNKRAVY_OK;
    }
    return result(disk_sync(names->disk, node) && (names->disk->renaming_count == 0 || disk_sync_names(names->disk)));
}

static int storage_replace(void *context, const uint8_t *bytes, size_t length)
{
    struct names *names = context;
    struct node *made = make(names, names->copy);
    if (made == NULL || !disk_write(names->disk, made, 0, bytes, &length) || !disk_sync(names->disk, made) ||
        disk_fails(names->disk)) {
        return EIO;
    }
    disk_rename(names->disk, names->copy, names->part[HUNKRAVY_PART_JOURNAL], made);
    return result(disk_sync_names(names->disk));
}

static int storage_forget(void *context, enum hunkravy_part part)
{
    struct names *names = context;
    struct node *node = node_of(names, part);
    if (node != NULL && !disk_sync(names->disk, node)) {
        return EIO;
    }
    if (node != NULL) {
        disk_forget(names->disk, node);
    }
    return HUNKRAVY_OK;
}

static int storage_check(void *context)
{
    struct names *names = context;
    return result(names->disk->renaming_count == 0 || disk_sync_names(names->disk));
}

static int storage_reserve(void *context, uint64_t from, uint64_t end)
{
    struct names *names = context;
    struct node *node = node_of(names, HUNKRAVY_PART_FILE);
    if (end > from && node->length < end) {
        int code = storage_resize(names, HUNKRAVY_PART_FILE, end);
        if (code != HUNKRAVY_OK) {
            return code;
        }
    }
    return result(
        node_of(names, HUNKRAVY_PART_JOURNAL) != NULL || make(names, names->part[HUNKRAVY_PART_JOURNAL]) != NULL);
}

static int storage_random(void *context, uint8_t *bytes, size_t length)
{
    (void)context;
    return result(getrandom(bytes, length, 0) == (ssize_t)length);
}

struct hunkravy_storage disk_storage(struct disk *disk, const char *name)
{
    struct names *names = calloc(1, sizeof *names);
    disk_must(names != NULL, "no memory");
    names->disk = disk;
    snprintf(names->part[HUNKRAVY_PART_FILE], NAME_BYTES, "%s", name);
    snprintf(names->part[HUNKRAVY_PART_JOURNAL], NAME_BYTES, "%s.journal", name);
    snprintf(names->copy, NAME_BYTES, "%s.jrncopy", name);
    return (struct hunkravy_storage){names, storage_read, storage_write, storage_size, storage_resize, storage_sync,
        storage_replace, storage_forget, NULL, storage_check, storage_reserve, storage_random, free};
}
