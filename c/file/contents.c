/* The contents of an open file: reading, changes in memory, and batches. */
#include "engine.h"

#include <errno.h>
#include <stdlib.h>
#include <string.h>

static uint64_t least(uint64_t one, uint64_t other)
{
    return one < other ? one : other;
}

static uint64_t most(uint64_t one, uint64_t other)
{
    return one > other ? one : other;
}

/* How many pages contents of this length have. */
uint64_t hunkravy_file_page_count(const hunkravy_file *file, uint64_t size)
{
    return size / file->page_size + (size % file->page_size != 0);
}

/* How many bytes of the contents are in a page. */
static size_t live_bytes(const hunkravy_file *file, uint64_t number)
{
    uint64_t start = number * file->page_size;
    return start >= file->size ? 0 : (size_t)least(file->size - start, file->page_size);
}

/* ---- The changed pages */

static struct page **bucket_of(const hunkravy_file *file, uint64_t number)
{
    return &file->buckets[(number * UINT64_C(0x9e3779b97f4a7c15) >> 32) & (file->bucket_count - 1)];
}

/* Returns where a changed page is linked from, or a null pointer if there is none: then the page of the last commit is right. */
static struct page **link_of(const hunkravy_file *file, uint64_t number)
{
    struct page **link = bucket_of(file, number);
    while (*link != NULL && (*link)->number != number) {
        link = &(*link)->next;
    }
    return *link == NULL ? NULL : link;
}

static struct page *changed_page(const hunkravy_file *file, uint64_t number)
{
    struct page **link = file->changed == 0 ? NULL : link_of(file, number);
    return link == NULL ? NULL : *link;
}

/* Frees a page. One that was encrypted for a commit is no secret. */
static void free_page(const hunkravy_file *file, struct page *page, int is_secret)
{
    if (is_secret) {
        hunkravy_wipe(page->bytes, file->page_bytes);
    }
    free(page);
}

static void free_pages(const hunkravy_file *file, struct page *page)
{
    while (page != NULL) {
        struct page *next = page->next;
        free_page(file, page, 1);
        page = next;
    }
}

/* Makes more lists, if there is memory: with fewer all is only slower. */
static void add_buckets(hunkravy_file *file)
{
    struct page **old = file->buckets;
    size_t count = file->bucket_count;
    struct page **buckets = calloc(count * 4, sizeof *buckets);
    if (buckets == NULL) {
        return;
    }
    file->buckets = buckets;
    file->bucket_count = count * 4;
    for (size_t i = 0; i < count; i++) {
        for (struct page *page = old[i], *next; page != NULL; page = next) {
            struct page **bucket = bucket_of(file, page->number);
            next = page->next;
            page->next = *bucket;
            *bucket = page;
        }
    }
    if (old != file->first_buckets) {
        free(old);
    }
}

static void add_page(hunkravy_file *file, struct page *page)
{
    struct page **bucket;
    if (file->changed / 2 >= file->bucket_count) {
        add_buckets(file);
    }
    bucket = bucket_of(file, page->number);
    page->next = *bucket;
    *bucket = page;
    file->changed++;
}

/* Whether a page is of the innermost batch, or of none, so that nothing goes back to it. */
static int is_own(const hunkravy_file *file, const struct page *page)
{
    return file->batch == NULL || page->batch >= file->batch->number;
}

/* Takes a page out of the changed ones. The batch keeps it if it goes back to it. */
static void take_page(hunkravy_file *file, struct page **link)
{
    struct page *page = *link;
    *link = page->next;
    file->changed--;
    if (is_own(file, page)) {
        free_page(file, page, 1);
    } else {
        page->next = file->batch->saved;
        file->batch->saved = page;
    }
}

/* Frees the changed pages that were made since a batch. */
void hunkravy_file_drop_pages(hunkravy_file *file, uint64_t since, int is_secret)
{
    for (size_t i = 0; file->changed != 0 && i < file->bucket_count; i++) {
        for (struct page **link = &file->buckets[i], *page; (page = *link) != NULL;) {
            if (page->batch < since) {
                link = &page->next;
                continue;
            }
            *link = page->next;
            file->changed--;
            free_page(file, page, is_secret);
        }
    }
}

/* ---- Reading */

/* How many pages from this one on are unchanged: from 1 to `count`, if this one is. */
static uint64_t unchanged_pages(const hunkravy_file *file, uint64_t number, uint64_t count)
{
    uint64_t found = 1;
    while (found < count && changed_page(file, number + found) == NULL) {
        found++;
    }
    return file->changed == 0 ? count : found;
}

/* Reads and decrypts pages into memory, up to `count` of them. */
static int read_pages(hunkravy_file *file, uint64_t number, uint64_t count)
{
    size_t found = (size_t)unchanged_pages(file, number, least(count, file->room)), length = file->page_bytes;
    size_t opened = 0;
    uint64_t place = hunkravy_page_place(file->variant, file->page_size, number);
    int code;
    file->shown_count = 0;
    code = file->storage.read(file->storage.context, HUNKRAVY_PART_FILE, place, file->shown, found * length);
    if (code == HUNKRAVY_DAMAGED_PAGE && found > 1) {
        /* The file ends in one of them. */
        return read_pages(file, number, 1);
    }
    while (code == HUNKRAVY_OK && opened < found) {
        uint8_t *page = file->shown + opened * length;
        if (hunkravy_page_open(file->variant, page, length, file->id, number + opened, file->key, file->key_bytes) ==
            HUNKRAVY_OK) {
            opened++;
        } else {
            code = HUNKRAVY_DAMAGED_PAGE;
        }
    }
    if (code == HUNKRAVY_OK) {
        file->shown_first = number;
        file->shown_count = found;
    } else if (code == HUNKRAVY_DAMAGED_PAGE) {
        file->damaged = number + opened;
    }
    return code;
}

/* Sets `contents` to those of a page, which others follow: with it they are `*count`, at most as many as before. */
static int show(hunkravy_file *file, uint64_t number, uint64_t *count, const uint8_t **contents)
{
    const struct page *page = changed_page(file, number);
    uint64_t at;
    if (page != NULL) {
        *contents = page->bytes + file->key_bytes;
        *count = 1;
        return HUNKRAVY_OK;
    }
    if (number - file->shown_first >= file->shown_count) {
        TRY(read_pages(file, number, *count));
    }
    at = number - file->shown_first;
    *contents = file->shown + at * file->page_bytes + file->key_bytes;
    *count = unchanged_pages(file, number, least(*count, file->shown_count - at));
    return HUNKRAVY_OK;
}

int hunkravy_file_read(hunkravy_file *file, uint64_t offset, void *out, size_t outlen, size_t *readlen)
{
    uint8_t *bytes = out;
    uint64_t size = file->page_size;
    size_t length = offset >= file->size ? 0 : (size_t)least(outlen, file->size - offset), done = 0;
    int code = hunkravy_file_check(file);
    while (code == HUNKRAVY_OK && done < length) {
        uint64_t number = (offset + done) / size, count = hunkravy_file_page_count(file, offset + length) - number;
        const uint8_t *contents;
        code = show(file, number, &count, &contents);
        for (uint64_t i = 0; code == HUNKRAVY_OK && i < count; i++) {
            size_t at = (size_t)((offset + done) % size), part = (size_t)least(size - at, length - done);
            memcpy(bytes + done, contents + i * file->page_bytes + at, part);
            done += part;
        }
    }
    *readlen = code == HUNKRAVY_OK ? length : 0;
    if (code != HUNKRAVY_OK && outlen != 0) {
        memset(bytes, 0, outlen);
    }
    return code;
}

/* ---- Changes */

/* A change: bytes that are written over the contents, or none at a place where the contents are to end. */
struct change {
    uint64_t offset, end;
    const uint8_t *data;
};

/*
 * Whether there is memory for so many pages. Without this the system may end the program before all of them are made. After
 * this glibc keeps as much freed memory, in place of giving it back to the system, which clears it for the next changes.
 */
int hunkravy_file_has_room(const hunkravy_file *file, uint64_t count)
{
    size_t each = sizeof(struct page) + file->page_bytes + 2 * sizeof(void *);
    void *volatile room = NULL;
    if (count >= 256 && count <= SIZE_MAX / 2 / each) {
        room = malloc((size_t)count * each);
    }
    free(room);
    return count < 256 || room != NULL;
}

/* Makes a page that is to be changed, with the contents that it has, if the change leaves some of them. */
static int make_page(hunkravy_file *file, uint64_t number, const struct change *change, struct page **made)
{
    uint64_t start = number * file->page_size, count = 1;
    size_t live = live_bytes(file, number);
    const uint8_t *contents = NULL;
    struct page *page;
    if (live != 0 && (change->offset > start || start + live > change->end)) {
        TRY(show(file, number, &count, &contents));
    }
    page = malloc(sizeof *page + file->page_bytes);
    if (page == NULL) {
        return ENOMEM;
    }
    page->next = NULL;
    page->number = number;
    page->batch = file->last_batch;
    if (contents != NULL) {
        memcpy(page->bytes + file->key_bytes, contents, file->page_size);
    }
    *made = page;
    return HUNKRAVY_OK;
}

/* Makes the change in a page, with zeros where the contents did not reach. */
static void change_page(const hunkravy_file *file, struct page *page, const struct change *change)
{
    uint64_t size = file->page_size, start = page->number * size, live = live_bytes(file, page->number);
    uint64_t from = change->offset > start ? least(change->offset - start, size) : 0;
    uint64_t to = least(change->end - start, size);
    uint8_t *contents = page->bytes + file->key_bytes;
    if (live < from) {
        memset(contents + live, 0, (size_t)(from - live));
    }
    if (change->data != NULL && from < to) {
        memcpy(contents + from, change->data + (start + from - change->offset), (size_t)(to - from));
    }
    memset(contents + most(to, live), 0, (size_t)(size - most(to, live)));
}

/* Makes the pages from `first` up to `after` that a change needs and the open batch has not: all of them, or none. */
static int make_pages(
    hunkravy_file *file, uint64_t first, uint64_t after, const struct change *change, struct page **made)
{
    struct page **last = made;
    int code = hunkravy_file_has_room(file, after - first) ? HUNKRAVY_OK : ENOMEM;
    for (uint64_t number = first; code == HUNKRAVY_OK && number < after; number++) {
        const struct page *own = changed_page(file, number);
        if (own == NULL || !is_own(file, own)) {
            code = make_page(file, number, change, last);
            last = *last == NULL ? last : &(*last)->next;
        }
    }
    if (code != HUNKRAVY_OK) {
        free_pages(file, *made);
    }
    return code;
}

/* Puts a page that was made in the place of the changed one of its number, if there is one. */
static void put_page(hunkravy_file *file, struct page *page)
{
    struct page **old = link_of(file, page->number);
    if (old != NULL) {
        take_page(file, old);
    }
    add_page(file, page);
}

/* Makes a change: all of it, or nothing. */
static int make_change(hunkravy_file *file, uint64_t offset, const uint8_t *data, size_t length)
{
    struct change change = {offset, offset + length, data};
    uint64_t first = least(offset, file->size) / file->page_size, after;
    struct page *made = NULL;
    if (offset > HUNKRAVY_PAGE_MAX_CONTENTS_BYTES || length > HUNKRAVY_PAGE_MAX_CONTENTS_BYTES - offset) {
        return HUNKRAVY_FILE_TOO_LONG;
    }
    if (length == 0 && offset <= file->size) {
        return HUNKRAVY_OK;
    }
    after = hunkravy_file_page_count(file, change.end);
    TRY(make_pages(file, first, after, &change, &made));
    for (uint64_t number = first; number < after; number++) {
        if (made != NULL && made->number == number) {
            struct page *next = made->next;
            put_page(file, made);
            made = next;
        }
        change_page(file, changed_page(file, number), &change);
    }
    file->size = most(file->size, change.end);
    return HUNKRAVY_OK;
}

int hunkravy_file_write(hunkravy_file *file, uint64_t offset, const void *data, size_t datalen)
{
    int code;
    TRY(hunkravy_file_check(file));
    if (data == NULL && datalen != 0) {
        return EINVAL;
    }
    code = make_change(file, offset, data, datalen);
    if (code != HUNKRAVY_OK) {
        return file->failure = code;
    }
    return file->batch == NULL && file->changed > file->limit / file->page_size ? hunkravy_file_commit(file)
                                                                                : HUNKRAVY_OK;
}

int hunkravy_file_truncate(hunkravy_file *file, uint64_t size)
{
    uint64_t count = hunkravy_file_page_count(file, size);
    TRY(hunkravy_file_check(file));
    if (size > file->size) {
        return hunkravy_file_write(file, size, NULL, 0);
    }
    for (size_t i = 0; file->changed != 0 && i < file->bucket_count; i++) {
        for (struct page **link = &file->buckets[i]; *link != NULL;) {
            if ((*link)->number < count) {
                link = &(*link)->next;
            } else {
                take_page(file, link);
            }
        }
    }
    file->size = size;
    return HUNKRAVY_OK;
}

/* ---- Batches */

static int is_open(const hunkravy_file *file, uint64_t number)
{
    const struct batch *batch = file->batch;
    while (batch != NULL && batch->number != number) {
        batch = batch->outer;
    }
    return batch != NULL;
}

int hunkravy_file_begin(hunkravy_file *file, uint64_t *number)
{
    struct batch *batch;
    TRY(hunkravy_file_check(file));
    batch = malloc(sizeof *batch);
    if (batch == NULL) {
        return ENOMEM;
    }
    *batch = (struct batch){file->batch, ++file->last_batch, file->size, NULL, file->failure};
    file->batch = batch;
    *number = batch->number;
    return HUNKRAVY_OK;
}

/* Ends the innermost batch, whose changes stay. Those that an outer one goes back to are kept for it. */
static void drop_batch(hunkravy_file *file)
{
    struct batch *batch = file->batch;
    file->batch = batch->outer;
    for (struct page *page = batch->saved, *next; page != NULL; page = next) {
        next = page->next;
        if (is_own(file, page)) {
            free_page(file, page, 1);
        } else {
            page->next = file->batch->saved;
            file->batch->saved = page;
        }
    }
    free(batch);
}

void hunkravy_file_undo(hunkravy_file *file, uint64_t number)
{
    while (hunkravy_file_seems_this(&file->owner) && is_open(file, number)) {
        struct batch *batch = file->batch;
        hunkravy_file_drop_pages(file, batch->number, 1);
        /* A page leaves one list before it enters another, since a process that is forked here may free both. */
        for (struct page *page = batch->saved; page != NULL; page = batch->saved) {
            batch->saved = page->next;
            add_page(file, page);
        }
        file->size = batch->size;
        file->failure = batch->failure;
        file->batch = batch->outer;
        free(batch);
    }
}

int hunkravy_file_end(hunkravy_file *file, uint64_t number)
{
    struct batch *batch = file->batch;
    int code = hunkravy_file_check(file);
    if (!is_open(file, number)) {
        return HUNKRAVY_WRONG_STATE;
    }
    if (code == HUNKRAVY_OK && batch->number != number) {
        code = HUNKRAVY_OPEN_BATCH;
    }
    if (code == HUNKRAVY_OK && batch->outer == NULL) {
        file->batch = NULL;
        code = hunkravy_file_commit(file);
        file->batch = batch;
    }
    if (code == HUNKRAVY_OK || file->is_broken) {
        drop_batch(file);
    } else {
        hunkravy_file_undo(file, number);
    }
    return code;
}

uint64_t hunkravy_file_open_batches(const hunkravy_file *file)
{
    uint64_t count = 0;
    for (const struct batch *batch = file->batch; batch != NULL; batch = batch->outer) {
        count++;
    }
    return count;
}

void hunkravy_file_discard(hunkravy_file *file)
{
    /* In another process they may be half changed. */
    if (!hunkravy_file_seems_this(&file->owner)) {
        return;
    }
    while (file->batch != NULL) {
        drop_batch(file);
    }
    hunkravy_file_drop_pages(file, 0, 1);
    file->size = file->stored;
    file->failure = HUNKRAVY_OK;
}

uint64_t hunkravy_file_size(const hunkravy_file *file)
{
    return file->size;
}

void hunkravy_file_set_limit(hunkravy_file *file, uint64_t limit)
{
    file->limit = limit;
}

uint64_t hunkravy_file_damaged_page(const hunkravy_file *file)
{
    return file->damaged;
}

int hunkravy_file_check(const hunkravy_file *file)
{
    if (!hunkravy_file_seems_this(&file->owner)) {
        return HUNKRAVY_FILE_LOCKED;
    }
    return __atomic_load_n(&file->is_broken, __ATOMIC_RELAXED) ? HUNKRAVY_FILE_BROKEN : HUNKRAVY_OK;
}
