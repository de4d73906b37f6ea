/* What the files of the engine share. */
#ifndef HUNKRAVY_ENGINE_H
#define HUNKRAVY_ENGINE_H

#include "hunkravy_file.h"
#include "hunkravy_pages.h"

#include <sys/types.h>

/* The longest key and nonce. */
#define KEY_BYTES HUNKRAVY_AEGIS256_KEY_BYTES
#define TAG_BYTES HUNKRAVY_PAGE_TAG_BYTES
#define BLOCK_BYTES HUNKRAVY_PAGE_HEADER_BLOCK_BYTES

/* A page that was changed, with room for its nonce and its tag. */
struct page {
    /* In its bucket, or among the pages that a batch has replaced. */
    struct page *next;
    uint64_t number;
    /* The last batch that had begun when the page was made. */
    uint64_t batch;
    uint8_t bytes[];
};

/* A batch: what it goes back to if it is undone. */
struct batch {
    struct batch *outer;
    uint64_t number, size;
    /* The pages that it has replaced or truncated. */
    struct page *saved;
    int failure;
};

/* A process. The numbers of one and of its child can be equal: both can be the first of a container. */
struct process {
    pid_t id;
    unsigned forks;
};

enum { FIRST_BUCKETS = 64 };

struct hunkravy_file {
    struct hunkravy_storage storage;
    struct process owner;
    uint32_t variant, page_size;
    size_t key_bytes, page_bytes;
    uint8_t key[KEY_BYTES], id[HUNKRAVY_PAGE_ID_BYTES];
    /* Of the last commit: the counter in the header, and the length of the contents. And their length now. */
    uint64_t counter, stored, size;
    /* The changed pages by their numbers: how many, and a power of two of lists. */
    uint64_t changed, limit;
    struct page **buckets, *first_buckets[FIRST_BUCKETS];
    size_t bucket_count;
    struct batch *batch;
    uint64_t last_batch;
    /* Pages that were read, decrypted, as the last commit left them: the memory for `room` of them, and which they are. */
    uint8_t *shown;
    size_t room, shown_count;
    uint64_t shown_first;
    /* Why a change has failed since the last commit, or HUNKRAVY_OK. */
    int failure;
    int is_broken;
    uint64_t damaged;
};

/* Calls a function of the storage that may be null. */
#define CALL(file, name, arguments) ((file)->storage.name == NULL ? HUNKRAVY_OK : (file)->storage.name arguments)

/* Returns the code of a call, unless it is HUNKRAVY_OK. */
#define TRY(call) \
    do { \
        int code_ = (call); \
        if (code_ != HUNKRAVY_OK) { \
            return code_; \
        } \
    } while (0)

#pragma GCC visibility push(hidden)

/* contents.c */
uint64_t hunkravy_file_page_count(const hunkravy_file *file, uint64_t size);
int hunkravy_file_has_room(const hunkravy_file *file, uint64_t count);
void hunkravy_file_drop_pages(hunkravy_file *file, uint64_t since, int is_secret);

/* posix.c */
int hunkravy_file_this_process(struct process *process);
int hunkravy_file_seems_this(const struct process *process);
int hunkravy_file_is_this(const struct process *process);
int hunkravy_file_posix(struct hunkravy_storage *storage, const char *path, int is_new, const struct process *owner);

#pragma GCC visibility pop

#endif
