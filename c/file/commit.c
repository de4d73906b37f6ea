/* Opening, committing, recovering and closing a file. */
#include "engine.h"
#include "journal.h"

#include <errno.h>
#include <pthread.h>
#include <stdlib.h>
#include <string.h>

enum {
    BEGINNING_BYTES = HUNKRAVY_JOURNAL_BEGINNING_BYTES,
    START_BYTES = HUNKRAVY_JOURNAL_START_BYTES,
    NONCE_BYTES = HUNKRAVY_JOURNAL_NONCE_BYTES,
    HEAD_BYTES = HUNKRAVY_JOURNAL_HEAD_BYTES,
    /* How many bytes are written in one call, and read. One longer write is a call of its own. */
    GATHERED_BYTES = 256 * 1024,
    READ_BYTES = 64 * 1024,
    DEFAULT_LIMIT = 16 << 20,
    /* A longer journal is read only if it begins as those of the file, or, without a header, as any: it may be no journal. */
    MOST_FOREIGN_BYTES = 64 << 20
};

/* ---- The steps of a commit or of a recovery */

struct write {
    uint64_t place;
    const uint8_t *bytes;
    size_t length;
};

/* What is to be done, and the bytes that are gathered for one call of the storage. */
struct work {
    const struct hunkravy_storage *storage;
    const struct write *writes;
    uint64_t count;
    /* Of a recovery: the journal. Of a commit: its start, and its MAC so far. */
    const uint8_t *journal;
    size_t journal_bytes;
    hunkravy_state state;
    uint8_t *buffer;
    uint64_t place;
    size_t gathered;
    enum hunkravy_part part;
    /* Whether a write to the file was tried. */
    int has_written;
};

static int flush(struct work *work)
{
    size_t length = work->gathered;
    work->gathered = 0;
    return length == 0 ? HUNKRAVY_OK
                       : work->storage->write(work->storage->context, work->part, work->place, work->buffer, length);
}

/* Writes bytes, perhaps later, with their neighbours. */
static int gather(struct work *work, enum hunkravy_part part, uint64_t place, const uint8_t *bytes, size_t length)
{
    if (part != work->part || place != work->place + work->gathered || length > GATHERED_BYTES - work->gathered) {
        TRY(flush(work));
        work->part = part;
        work->place = place;
    }
    if (length > GATHERED_BYTES) {
        work->place += length;
        return work->storage->write(work->storage->context, part, place, bytes, length);
    }
    memcpy(work->buffer + work->gathered, bytes, length);
    work->gathered += length;
    return HUNKRAVY_OK;
}

/* Writes the journal after its beginning. */
static int write_rest(struct work *work)
{
    uint8_t head[HEAD_BYTES], mac[HUNKRAVY_JOURNAL_MAC_BYTES];
    uint64_t place = START_BYTES;
    TRY(gather(work, HUNKRAVY_PART_JOURNAL, BEGINNING_BYTES, work->journal + BEGINNING_BYTES, NONCE_BYTES));
    for (uint64_t i = 0; i < work->count; i++) {
        const struct write *write = &work->writes[i];
        TRY(hunkravy_journal_entry(&work->state, write->place, write->bytes, write->length, head));
        TRY(gather(work, HUNKRAVY_PART_JOURNAL, place, head, HEAD_BYTES));
        TRY(gather(work, HUNKRAVY_PART_JOURNAL, place + HEAD_BYTES, write->bytes, write->length));
        place += HEAD_BYTES + write->length;
    }
    TRY(hunkravy_journal_final(&work->state, mac));
    TRY(gather(work, HUNKRAVY_PART_JOURNAL, place, mac, sizeof mac));
    return flush(work);
}

static int do_step(struct work *work, uint32_t step, uint64_t number)
{
    const struct hunkravy_storage *storage = work->storage;
    const struct write *write;
    switch (step) {
    case HUNKRAVY_STEP_WRITE_BEGINNING:
        return storage->write(storage->context, HUNKRAVY_PART_JOURNAL, 0, work->journal, BEGINNING_BYTES);
    case HUNKRAVY_STEP_WRITE_REST:
        return write_rest(work);
    case HUNKRAVY_STEP_SYNC_JOURNAL:
        return storage->sync(storage->context, HUNKRAVY_PART_JOURNAL);
    case HUNKRAVY_STEP_REPLACE_JOURNAL:
        return storage->replace == NULL ? HUNKRAVY_OK
                                        : storage->replace(storage->context, work->journal, work->journal_bytes);
    case HUNKRAVY_STEP_MAKE_WRITE:
        work->has_written = 1;
        write = &work->writes[number];
        return gather(work, HUNKRAVY_PART_FILE, write->place, write->bytes, write->length);
    case HUNKRAVY_STEP_SYNC_FILE:
        return storage->sync(storage->context, HUNKRAVY_PART_FILE);
    case HUNKRAVY_STEP_EMPTY_JOURNAL:
        return storage->resize(storage->context, HUNKRAVY_PART_JOURNAL, 0);
    default:
        return EINVAL;
    }
}

/* Takes steps until there are no more, or one fails. No memory is taken. */
static int take_steps(struct work *work, uint32_t (*step_of)(uint64_t, uint64_t, uint64_t *))
{
    uint64_t write = 0;
    for (uint64_t number = 0;; number++) {
        uint32_t step = step_of(number, work->count, &write);
        if (step != HUNKRAVY_STEP_MAKE_WRITE) {
            TRY(flush(work));
        }
        if (step == HUNKRAVY_STEP_DONE) {
            return HUNKRAVY_OK;
        }
        TRY(do_step(work, step, write));
    }
}

/* ---- Commits */

struct commit {
    struct work work;
    /* The changed pages by their numbers, and how many of them are encrypted. */
    struct page **pages;
    uint64_t sealed;
    uint8_t old_header[BLOCK_BYTES], new_header[BLOCK_BYTES], start[START_BYTES];
};

/* Draws random bytes for nonces. The reserved nonce is of commitments and of the keys of journals. */
static int draw(const hunkravy_file *file, uint8_t *bytes, size_t length)
{
    int code = file->storage.random(file->storage.context, bytes, length);
    for (size_t i = 0, run = 0; code == HUNKRAVY_OK && i < length; i++) {
        run = bytes[i] == 255 ? run + 1 : 0;
        code = run == HUNKRAVY_AEGIS128_NONCE_BYTES ? EIO : HUNKRAVY_OK;
    }
    return code;
}

static int compare(const void *one, const void *other)
{
    const struct page *const *first = one, *const *second = other;
    return (*first)->number < (*second)->number ? -1 : (*first)->number > (*second)->number;
}

/* Finds the changed pages, and their writes between those of the headers. Returns where the last page ends. */
static uint64_t find_writes(const hunkravy_file *file, struct commit *commit, struct write *writes)
{
    uint64_t count = 0;
    for (size_t i = 0; i < file->bucket_count; i++) {
        for (struct page *page = file->buckets[i]; page != NULL; page = page->next) {
            commit->pages[count++] = page;
        }
    }
    qsort(commit->pages, (size_t)count, sizeof *commit->pages, compare);
    writes[0] = (struct write){0, commit->old_header, BLOCK_BYTES};
    for (uint64_t i = 0; i < count; i++) {
        uint64_t place = hunkravy_page_place(file->variant, file->page_size, commit->pages[i]->number);
        writes[i + 1] = (struct write){place, commit->pages[i]->bytes, file->page_bytes};
    }
    writes[count + 1] = (struct write){0, commit->new_header, BLOCK_BYTES};
    return count == 0 ? 0 : writes[count].place + writes[count].length;
}

/* Other threads may ask whether it is broken. */
static void break_file(hunkravy_file *file)
{
    __atomic_store_n(&file->is_broken, 1, __ATOMIC_RELAXED);
}

/* Decrypts the pages of a commit that is left out. */
static void unseal(hunkravy_file *file, const struct commit *commit)
{
    for (uint64_t i = 0; i < commit->sealed; i++) {
        if (hunkravy_page_open(file->variant, commit->pages[i]->bytes, file->page_bytes, file->id,
                commit->pages[i]->number, file->key, file->key_bytes) != HUNKRAVY_OK) {
            break_file(file);
        }
    }
}

/* Encrypts the changed pages where they are, and the next header. The buffer is for their nonces. */
static int seal(const hunkravy_file *file, struct commit *commit)
{
    uint64_t at_once = GATHERED_BYTES / file->key_bytes;
    for (commit->sealed = 0;; commit->sealed++) {
        uint64_t at = commit->sealed % at_once, left = file->changed + 1 - commit->sealed;
        uint8_t *nonce = commit->work.buffer + at * file->key_bytes;
        if (at == 0) {
            TRY(draw(file, nonce, (size_t)(left < at_once ? left : at_once) * file->key_bytes));
        }
        if (left == 1) {
            return hunkravy_page_header_seal(file->variant, commit->new_header, file->page_size, file->id,
                file->counter + 1, file->size, nonce, file->key_bytes, file->key, file->key_bytes);
        }
        TRY(hunkravy_page_seal(file->variant, commit->pages[commit->sealed]->bytes, file->page_bytes, file->id,
            commit->pages[commit->sealed]->number, nonce, file->key_bytes, file->key, file->key_bytes));
    }
}

/* Reads the header block, or as much of it as there is. */
static int read_block(const hunkravy_file *file, uint8_t *block, size_t *length)
{
    uint64_t size;
    TRY(file->storage.size(file->storage.context, HUNKRAVY_PART_FILE, &size));
    *length = size < BLOCK_BYTES ? (size_t)size : BLOCK_BYTES;
    return *length == 0 ? HUNKRAVY_OK
                        : file->storage.read(file->storage.context, HUNKRAVY_PART_FILE, 0, block, *length);
}

/* Checks that the writes can be made, up to `end`, and that an interrupted commit would be completed. */
static int prepare_storage(const hunkravy_file *file, uint64_t end)
{
    const struct hunkravy_storage *storage = &file->storage;
    uint64_t old = hunkravy_file_page_count(file, file->stored), size = 0;
    uint64_t from = hunkravy_page_place(file->variant, file->page_size, old);
    TRY(CALL(file, check, (storage->context)));
    TRY(CALL(file, reserve, (storage->context, from, end > from ? end : from)));
    TRY(storage->size(storage->context, HUNKRAVY_PART_JOURNAL, &size));
    return size == 0 ? HUNKRAVY_OK : HUNKRAVY_WRONG_JOURNAL;
}

/* Does all of a commit that comes before its steps. */
static int prepare(const hunkravy_file *file, struct commit *commit, uint64_t end)
{
    uint8_t nonce[NONCE_BYTES];
    size_t length;
    TRY(read_block(file, commit->old_header, &length));
    if (length < BLOCK_BYTES) {
        return HUNKRAVY_NO_FILE;
    }
    TRY(seal(file, commit));
    TRY(draw(file, nonce, sizeof nonce));
    TRY(hunkravy_journal_init(file->variant, &commit->work.state, file->page_size, file->id, nonce, file->key,
        file->key_bytes, commit->start));
    /* Not before: sealing may take long, and the file may be moved meanwhile. */
    return prepare_storage(file, end);
}

/* Takes the steps of a commit. If one fails before the file is written to, the journal is emptied, and nothing has changed. */
static int take_commit_steps(hunkravy_file *file, struct work *work)
{
    int code = take_steps(work, hunkravy_commit_step);
    if (code != HUNKRAVY_OK) {
        if (work->has_written || do_step(work, HUNKRAVY_STEP_EMPTY_JOURNAL, 0) != HUNKRAVY_OK ||
            do_step(work, HUNKRAVY_STEP_SYNC_JOURNAL, 0) != HUNKRAVY_OK) {
            break_file(file);
        }
    }
    return code;
}

static int commit(hunkravy_file *file)
{
    size_t writes_bytes = (size_t)(file->changed + 2) * sizeof(struct write);
    size_t pages_bytes = (size_t)file->changed * sizeof(struct page *);
    struct commit commit = {.work = {.storage = &file->storage, .count = file->changed + 2}};
    uint8_t *memory;
    int code;
    if (file->changed == 0 && file->size == file->stored) {
        return HUNKRAVY_OK;
    }
    if (file->counter == UINT64_MAX) {
        return HUNKRAVY_FILE_TOO_LONG;
    }
    memory = malloc(writes_bytes + pages_bytes + GATHERED_BYTES);
    if (memory == NULL) {
        return ENOMEM;
    }
    commit.work.writes = (void *)memory;
    commit.work.journal = commit.start;
    commit.work.buffer = memory + writes_bytes + pages_bytes;
    commit.pages = (void *)(memory + writes_bytes);
    code = prepare(file, &commit, find_writes(file, &commit, (void *)memory));
    if (code == HUNKRAVY_OK) {
        code = take_commit_steps(file, &commit.work);
    }
    if (code == HUNKRAVY_OK) {
        file->counter++;
        file->stored = file->size;
        file->shown_count = 0;
        (void)hunkravy_file_has_room(file, file->changed);
        hunkravy_file_drop_pages(file, 0, 0);
    } else if (!file->is_broken) {
        unseal(file, &commit);
    }
    free(memory);
    hunkravy_wipe(&commit.work.state, sizeof commit.work.state);
    return code;
}

int hunkravy_file_commit(hunkravy_file *file)
{
    int state;
    TRY(hunkravy_file_check(file));
    if (file->batch != NULL) {
        return HUNKRAVY_OPEN_BATCH;
    }
    /* A thread that is cancelled in a call of the system would leave the pages encrypted. */
    (void)pthread_setcancelstate(PTHREAD_CANCEL_DISABLE, &state);
    file->failure = hunkravy_file_is_this(&file->owner) ? commit(file) : HUNKRAVY_FILE_LOCKED;
    (void)pthread_setcancelstate(state, &state);
    return file->failure;
}

/* ---- Opening */

/* Reads the header into the fields of the file. */
static int open_header(hunkravy_file *file, const uint8_t *block, size_t length)
{
    if (length < BLOCK_BYTES ||
        hunkravy_page_header_open(file->variant, block, file->key, file->key_bytes, &file->page_size, file->id,
            &file->counter, &file->stored) != HUNKRAVY_OK) {
        file->page_size = 0;
        return HUNKRAVY_NO_FILE;
    }
    return HUNKRAVY_OK;
}

/* Reads the journal, for which there is memory. */
static int read_journal(const hunkravy_file *file, uint8_t *journal, uint64_t size)
{
    const struct hunkravy_storage *storage = &file->storage;
    uint64_t now = 0;
    if (size != 0) {
        TRY(storage->read(storage->context, HUNKRAVY_PART_JOURNAL, 0, journal, (size_t)size));
    }
    /* Another file may have taken its place while it was read. */
    TRY(storage->size(storage->context, HUNKRAVY_PART_JOURNAL, &now));
    return now == size ? HUNKRAVY_OK : HUNKRAVY_WRONG_JOURNAL;
}

/* Finds the writes in these bytes of a journal that was accepted, and returns how many there are. */
static uint64_t find_entries(const uint8_t *first, size_t length, struct write *writes)
{
    struct write write;
    uint64_t count = 0;
    for (size_t at = 0; hunkravy_journal_next(first + at, length - at, &write.place, &write.length) == HUNKRAVY_OK;) {
        write.bytes = first + at + HEAD_BYTES;
        at += HEAD_BYTES + write.length;
        if (writes != NULL) {
            writes[count] = write;
        }
        count++;
    }
    return count;
}

/* Makes the writes of a journal that was accepted, which are `length` bytes, and empties it. */
static int make_again(const hunkravy_file *file, const uint8_t *journal, size_t size, size_t length)
{
    struct work work = {.storage = &file->storage, .journal = journal, .journal_bytes = size};
    const uint8_t *first = journal + (length == 0 ? 0 : START_BYTES);
    struct write *writes;
    int code;
    work.count = find_entries(first, length, NULL);
    writes = malloc((size_t)work.count * sizeof *writes + GATHERED_BYTES);
    if (writes == NULL) {
        return ENOMEM;
    }
    (void)find_entries(first, length, writes);
    work.writes = writes;
    work.buffer = (uint8_t *)(writes + work.count);
    code = take_steps(&work, hunkravy_recovery_step);
    free(writes);
    return code;
}

/* Reads the journal, and makes its writes again, or none. */
static int replay(hunkravy_file *file, uint8_t *journal, uint64_t size, const uint8_t *block, size_t length)
{
    size_t writes = 0;
    int code = read_journal(file, journal, size);
    if (code == HUNKRAVY_OK) {
        code = hunkravy_journal_check(
            file->variant, block, length, file->key, file->key_bytes, journal, (size_t)size, &writes);
    }
    return code == HUNKRAVY_OK         ? make_again(file, journal, (size_t)size, writes)
        : code == HUNKRAVY_INVALID_TAG ? HUNKRAVY_NO_FILE
                                       : code;
}

/* Checks the beginning of a long journal, which is a torn journal in itself. */
static int check_beginning(const hunkravy_file *file, const uint8_t *block, size_t length)
{
    uint8_t beginning[BEGINNING_BYTES + 1];
    size_t writes;
    int code = file->storage.read(file->storage.context, HUNKRAVY_PART_JOURNAL, 0, beginning, sizeof beginning);
    if (code == HUNKRAVY_OK) {
        code = hunkravy_journal_check(
            file->variant, block, length, file->key, file->key_bytes, beginning, sizeof beginning, &writes);
    }
    if (code == HUNKRAVY_INVALID_TAG) {
        code = memcmp(beginning, "AGJ1", 4) == 0 ? HUNKRAVY_OK : HUNKRAVY_NO_FILE;
    }
    return code;
}

/* Completes a commit that was interrupted, or leaves out all of it, and reads the header. */
static int recover(hunkravy_file *file)
{
    const struct hunkravy_storage *storage = &file->storage;
    uint8_t block[BLOCK_BYTES], *journal;
    size_t length;
    uint64_t size;
    int code;
    TRY(storage->size(storage->context, HUNKRAVY_PART_JOURNAL, &size));
    if (size != 0) {
        TRY(CALL(file, forget, (storage->context, HUNKRAVY_PART_FILE)));
        TRY(CALL(file, forget, (storage->context, HUNKRAVY_PART_JOURNAL)));
        TRY(storage->size(storage->context, HUNKRAVY_PART_JOURNAL, &size));
    }
    TRY(read_block(file, block, &length));
    (void)open_header(file, block, length);
    if (size > MOST_FOREIGN_BYTES) {
        TRY(check_beginning(file, block, length));
    }
    journal = size > SIZE_MAX / 2 ? NULL : malloc((size_t)size + 1);
    code = journal == NULL ? ENOMEM : replay(file, journal, size, block, length);
    free(journal);
    TRY(code);
    TRY(storage->size(storage->context, HUNKRAVY_PART_JOURNAL, &size));
    if (size != 0) {
        /* What has its name by now was not read. */
        return HUNKRAVY_WRONG_JOURNAL;
    }
    TRY(read_block(file, block, &length));
    return open_header(file, block, length);
}

/* Takes the memory for reading. */
static int set_layout(hunkravy_file *file)
{
    file->size = file->stored;
    file->page_bytes = file->key_bytes + file->page_size + TAG_BYTES;
    file->room = file->page_bytes > READ_BYTES ? 1 : READ_BYTES / file->page_bytes;
    file->shown = malloc(file->room * file->page_bytes);
    return file->shown == NULL ? ENOMEM : HUNKRAVY_OK;
}

static int open_storage(hunkravy_file *file)
{
    const struct hunkravy_storage *storage = &file->storage;
    uint64_t size, journal = 1;
    int code;
    TRY(storage->size(storage->context, HUNKRAVY_PART_FILE, &size));
    if (size == 0) {
        TRY(storage->size(storage->context, HUNKRAVY_PART_JOURNAL, &journal));
    }
    if (journal == 0) {
        /* Whoever has just made a file locks it next, and must not find it locked. */
        return HUNKRAVY_NO_FILE;
    }
    TRY(CALL(file, lock, (storage->context)));
    code = recover(file);
    /* A part that became shorter while it was read was replaced. */
    TRY(code == HUNKRAVY_DAMAGED_PAGE ? HUNKRAVY_WRONG_JOURNAL : code);
    return set_layout(file);
}

static int create_storage(hunkravy_file *file)
{
    const struct hunkravy_storage *storage = &file->storage;
    uint8_t block[BLOCK_BYTES], nonce[KEY_BYTES];
    uint64_t size, journal;
    TRY(draw(file, file->id, sizeof file->id));
    TRY(draw(file, nonce, file->key_bytes));
    TRY(set_layout(file));
    TRY(hunkravy_page_header_seal(
        file->variant, block, file->page_size, file->id, 0, 0, nonce, file->key_bytes, file->key, file->key_bytes));
    TRY(CALL(file, lock, (storage->context)));
    TRY(storage->size(storage->context, HUNKRAVY_PART_JOURNAL, &journal));
    TRY(storage->size(storage->context, HUNKRAVY_PART_FILE, &size));
    if (journal != 0 || size != 0) {
        return journal != 0 ? HUNKRAVY_WRONG_JOURNAL : EEXIST;
    }
    /* Also if it is empty: the disk may have the bytes of one that was emptied without a sync. */
    TRY(storage->resize(storage->context, HUNKRAVY_PART_JOURNAL, 0));
    TRY(storage->sync(storage->context, HUNKRAVY_PART_JOURNAL));
    TRY(storage->write(storage->context, HUNKRAVY_PART_FILE, 0, block, sizeof block));
    TRY(storage->sync(storage->context, HUNKRAVY_PART_FILE));
    return CALL(file, check, (storage->context));
}

/* Overwrites and frees a file. */
static void free_file(hunkravy_file *file)
{
    /* In a forked process the lists are as a thread of the other one had them at that moment: their memory stays. */
    if (hunkravy_file_seems_this(&file->owner)) {
        hunkravy_file_discard(file);
        if (file->buckets != file->first_buckets) {
            free(file->buckets);
        }
    }
    if (file->shown != NULL) {
        hunkravy_wipe(file->shown, file->room * file->page_bytes);
    }
    free(file->shown);
    if (file->storage.close != NULL) {
        file->storage.close(file->storage.context);
    }
    hunkravy_wipe(file, sizeof *file);
    free(file);
}

/* Opens a file, or creates one. Nothing is created unless the key and the page size are right. */
static int begin_in(
    hunkravy_file *file, const char *path, uint32_t variant, const uint8_t *k, size_t klen, const uint32_t *page_size)
{
    file->variant = variant;
    file->key_bytes = hunkravy_key_bytes(variant);
    if (file->key_bytes == 0 || klen != file->key_bytes) {
        return file->key_bytes == 0 ? HUNKRAVY_WRONG_VARIANT : HUNKRAVY_WRONG_KEY_LENGTH;
    }
    memcpy(file->key, k, klen);
    file->page_size = page_size == NULL || *page_size == 0 ? HUNKRAVY_PAGE_DEFAULT_SIZE((uint32_t)klen) : *page_size;
    if (file->page_size < HUNKRAVY_PAGE_MIN_SIZE || file->page_size > HUNKRAVY_PAGE_MAX_SIZE) {
        return HUNKRAVY_WRONG_PAGE_SIZE;
    }
    TRY(hunkravy_file_this_process(&file->owner));
    if (path != NULL) {
        TRY(hunkravy_file_posix(&file->storage, path, page_size != NULL, &file->owner));
    }
    return page_size == NULL ? open_storage(file) : create_storage(file);
}

/* The same in this storage, or at the path. If it is opened, `page_size` is null. */
static int begin(hunkravy_file **opened, const struct hunkravy_storage *storage, const char *path, uint32_t variant,
    const uint8_t *k, size_t klen, const uint32_t *page_size)
{
    hunkravy_file *file = calloc(1, sizeof *file);
    int code;
    *opened = NULL;
    if (file == NULL) {
        if (storage != NULL && storage->close != NULL) {
            storage->close(storage->context);
        }
        return ENOMEM;
    }
    file->buckets = file->first_buckets;
    file->bucket_count = FIRST_BUCKETS;
    file->limit = DEFAULT_LIMIT;
    if (storage != NULL) {
        file->storage = *storage;
    }
    code = begin_in(file, path, variant, k, klen, page_size);
    if (code == HUNKRAVY_OK) {
        *opened = file;
    } else {
        free_file(file);
    }
    return code;
}

int hunkravy_file_create(
    hunkravy_file **file, const char *path, uint32_t variant, const uint8_t *k, size_t klen, uint32_t page_size)
{
    return begin(file, NULL, path, variant, k, klen, &page_size);
}

int hunkravy_file_open(hunkravy_file **file, const char *path, uint32_t variant, const uint8_t *k, size_t klen)
{
    return begin(file, NULL, path, variant, k, klen, NULL);
}

int hunkravy_file_create_in(hunkravy_file **file, const struct hunkravy_storage *storage, uint32_t variant,
    const uint8_t *k, size_t klen, uint32_t page_size)
{
    return begin(file, storage, NULL, variant, k, klen, &page_size);
}

int hunkravy_file_open_in(
    hunkravy_file **file, const struct hunkravy_storage *storage, uint32_t variant, const uint8_t *k, size_t klen)
{
    return begin(file, storage, NULL, variant, k, klen, NULL);
}

int hunkravy_file_close(hunkravy_file *file)
{
    int code = HUNKRAVY_OK;
    if (file == NULL) {
        return HUNKRAVY_OK;
    }
    if (hunkravy_file_is_this(&file->owner)) {
        code = file->is_broken             ? HUNKRAVY_FILE_BROKEN
            : file->batch != NULL          ? HUNKRAVY_OPEN_BATCH
            : file->failure != HUNKRAVY_OK ? file->failure
                                           : hunkravy_file_commit(file);
    }
    free_file(file);
    return code;
}

const char *hunkravy_file_error_text(int code)
{
    return code > 0 ? strerror(code) : hunkravy_error_text(code);
}

/* ---- The commitment */

static int add_to_commitment(hunkravy_file *file, hunkravy_state *state, uint8_t *mac)
{
    uint8_t nonce[KEY_BYTES], start[START_BYTES], numbers[16], tag[TAG_BYTES];
    uint64_t count = hunkravy_file_page_count(file, file->stored);
    memset(nonce, 255, sizeof nonce);
    /* A journal begins as its file does, but for its mark. */
    TRY(hunkravy_journal_init(
        file->variant, state, file->page_size, file->id, nonce, file->key, file->key_bytes, start));
    memcpy(start, "AGP1", 4);
    for (int i = 0; i < 8; i++) {
        numbers[i] = (uint8_t)(file->counter >> 8 * i);
        numbers[8 + i] = (uint8_t)(file->stored >> 8 * i);
    }
    TRY(hunkravy_mac_init(file->variant, state, nonce, file->key_bytes, file->key, file->key_bytes));
    TRY(hunkravy_mac_update(state, start, 9 + HUNKRAVY_PAGE_ID_BYTES));
    TRY(hunkravy_mac_update(state, numbers, sizeof numbers));
    for (uint64_t number = 0; number < count; number++) {
        uint64_t end = hunkravy_page_place(file->variant, file->page_size, number) + file->page_bytes;
        int code = file->storage.read(file->storage.context, HUNKRAVY_PART_FILE, end - TAG_BYTES, tag, TAG_BYTES);
        if (code == HUNKRAVY_DAMAGED_PAGE) {
            file->damaged = number;
        }
        TRY(code);
        TRY(hunkravy_mac_update(state, tag, TAG_BYTES));
    }
    return hunkravy_mac_final(state, mac, HUNKRAVY_FILE_COMMITMENT_BYTES);
}

int hunkravy_file_commitment(hunkravy_file *file, uint8_t *mac)
{
    hunkravy_state state;
    int code = hunkravy_file_check(file);
    if (code == HUNKRAVY_OK) {
        code = add_to_commitment(file, &state, mac);
        hunkravy_wipe(&state, sizeof state);
    }
    return code;
}
