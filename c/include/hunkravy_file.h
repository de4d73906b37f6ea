/*
 * Random-access files: encrypted files that are read and written at any position. Changes stay in memory until a commit,
 * and AFTER A CRASH ALL CHANGES OF A COMMIT ARE THERE, OR NONE.
 *
 *     hunkravy_file *file;
 *     int code = hunkravy_file_open(&file, "store", HUNKRAVY_AEGIS256, key, sizeof key);
 *     if (code == HUNKRAVY_OK) {
 *         code = hunkravy_file_write(file, 1000000, "some bytes", 10);
 *         ...
 *         code = hunkravy_file_close(file);
 *     }
 *
 * A commit first writes its changes to the journal, the file PATH.journal, and at its end removes it. Opening completes a
 * commit that was interrupted, or discards all of it. `raf` in Rust, RandomAccessFile in Python and the proved crate
 * `aegis_pages` read and write the same files. FORMATS.md has the format, and RANDOM-ACCESS.md what a crash may leave.
 * PATH.journal and PATH.jrncopy belong to the file; links in PATH are resolved first. Opening may replace or remove them,
 * and removes any PATH.journal of up to 512 bytes.
 *
 * BATCHES. A batch combines several changes into one. It means the same in C, Python and Rust:
 *
 * - Beginning a batch commits nothing. Changes that were pending stay pending, and the outermost batch commits them too.
 * - In a batch nothing is committed, and all changes stay in memory. hunkravy_file_commit changes nothing, and returns
 *   HUNKRAVY_OPEN_BATCH.
 * - A change that fails changes nothing, and the batch goes on. To leave out the whole batch, undo it.
 * - Ending a batch in another one keeps its changes in the outer one. Ending the outermost batch commits. If that commit
 *   fails before it writes to the file, for example because the disk is full, the batch is undone. Changes that were
 *   pending when it began are pending again.
 * - Undoing a batch goes back to its beginning, and ends each batch in it. Ending a batch in which another one is open
 *   undoes both, and returns HUNKRAVY_OPEN_BATCH.
 * - hunkravy_file_discard goes back to the last commit, and ends each batch.
 * - hunkravy_file_close in a batch commits nothing, frees the file, and returns HUNKRAVY_OPEN_BATCH.
 * - Ending a batch that is not open changes nothing, and returns HUNKRAVY_WRONG_STATE.
 *
 * RESULTS. A function that is marked HUNKRAVY_MUST_USE returns HUNKRAVY_OK, a code of hunkravy.h (negative), or an error
 * number of the system, such as ENOSPC (positive). hunkravy_file_error_text has a message for each. After ENOMEM nothing
 * has changed, unless the function's comment says so. EINVAL means that PATH.journal is not a regular file, has several
 * names, or may be written by a user who may not write the file; that it was exchanged meanwhile; or that no safe one could
 * be made. If descriptor 0, 1 or 2 is closed, the library opens the folder / there, and keeps it: so no file gets what a
 * program prints. These codes are of files:
 *
 * - HUNKRAVY_NO_FILE: there is no header of this variant and key. The key is wrong, or the file is empty, damaged or
 *   another. If there is no file at the path, the error is ENOENT.
 * - HUNKRAVY_WRONG_JOURNAL: the journal is that of another file, or of another state of this one, or another program has
 *   put its own in the place of the journal or its copy.
 * - HUNKRAVY_DAMAGED_PAGE: a page is not authentic. hunkravy_file_damaged_page has its number.
 * - HUNKRAVY_FILE_TOO_LONG: the contents would be longer than 2^60 bytes, or no more commits are possible.
 * - HUNKRAVY_FILE_LOCKED: the file is open already, here or in another process. After a fork it is open in the process
 *   that opened it. If that one ends, the file stays locked until the child ends too. A child made with clone is only
 *   kept from commits, by its process ID.
 * - HUNKRAVY_FILE_MOVED: the file was renamed, removed or replaced, or has several hard links: its journal would not be
 *   found.
 * - HUNKRAVY_FILE_BROKEN: an earlier commit has failed, and may be in the file in part. Close the file, and open it again.
 * - HUNKRAVY_OPEN_BATCH: a batch has not ended.
 *
 * THREADS. Use a file from one thread at a time. Exception: hunkravy_file_check may be called from any. Do not cancel a
 * thread (pthread_cancel) while it is in a function. A commit is completed first.
 */
#ifndef HUNKRAVY_FILE_H
#define HUNKRAVY_FILE_H

#include "hunkravy.h"

#ifdef __cplusplus
extern "C" {
#endif

/* An open file. */
typedef struct hunkravy_file hunkravy_file;

#define HUNKRAVY_FILE_COMMITMENT_BYTES 32

/*
 * Creates an empty file at a path where there is none, and opens it. `page_size` is from 256 to 65,536 bytes, or 0: then
 * a page fills a block of 4,096 bytes. After an error `*file` is null, and there is no new file, unless another program has
 * opened it meanwhile, written to it, or given it another name.
 */
HUNKRAVY_MUST_USE int hunkravy_file_create(hunkravy_file **file, const char *path, uint32_t variant, const uint8_t *k,
    size_t klen, uint32_t page_size) HUNKRAVY_NONNULL(1, 2);

/*
 * Opens and locks the file at a path, and completes a commit that was interrupted, or discards all of it. After an error
 * `*file` is null. After any of the codes above nothing has changed, with two exceptions. Before HUNKRAVY_NO_FILE, a journal
 * that was made with the key and has no header may have been applied. Before HUNKRAVY_WRONG_JOURNAL or EINVAL, the commit
 * may have been completed, if a program has put something else there since. After any other system error, open the file
 * again: the commit may have been completed, even with ENOMEM.
 */
HUNKRAVY_MUST_USE int hunkravy_file_open(hunkravy_file **file, const char *path, uint32_t variant, const uint8_t *k,
    size_t klen) HUNKRAVY_NONNULL(1, 2);

/*
 * Commits the changes, overwrites the key and the pages in memory, and frees the file, even after an error. A process that
 * did not open the file only frees it: its storage is closed, and must not unlock it for the other one. For a null pointer
 * it only returns HUNKRAVY_OK.
 *
 * Nothing is committed, and the result is the reason's code, if a batch is open or if the file is broken. The same holds
 * if a change or a commit has failed and none has been committed since: the pending changes may be a part of what was
 * meant. A failure in a batch that was undone does not count, nor does one before hunkravy_file_discard, nor EINVAL for a
 * null pointer.
 */
HUNKRAVY_MUST_USE int hunkravy_file_close(hunkravy_file *file);

/* The length of the contents. */
uint64_t hunkravy_file_size(const hunkravy_file *file) HUNKRAVY_NONNULL(1);

/*
 * Reads `outlen` bytes of the contents from `offset` on, or fewer if the contents end, and sets `*readlen` to how many.
 * After an error it is 0, and all of `out` are zeros.
 */
HUNKRAVY_MUST_USE int hunkravy_file_read(hunkravy_file *file, uint64_t offset, void *out, size_t outlen,
    size_t *readlen) HUNKRAVY_NONNULL(1, 5);

/*
 * Writes over the contents from `offset` on. Zeros fill a gap in front, even if `datalen` is 0. The change stays in memory.
 * Outside a batch, a write commits once more than 16 MiB of pages are changed. After an error nothing has changed, unless
 * it is one of that commit: then the change is made, and pending. EINVAL is for a null `data` with a length.
 */
HUNKRAVY_MUST_USE int hunkravy_file_write(hunkravy_file *file, uint64_t offset, const void *data, size_t datalen)
    HUNKRAVY_NONNULL(1);

/*
 * Truncates the contents, or extends them with zeros. These take memory, and outside a batch may cause a commit, like a
 * write. The file itself does not become shorter.
 */
HUNKRAVY_MUST_USE int hunkravy_file_truncate(hunkravy_file *file, uint64_t size) HUNKRAVY_NONNULL(1);

/*
 * Writes all changes, so that after a crash all of them are there, or none; after HUNKRAVY_OK all are. Without changes
 * nothing is written. After an error the changes are still pending, and at most the file has become longer, unless it is
 * broken (hunkravy_file_check): then opening it again gives the contents before the changes or after them.
 */
HUNKRAVY_MUST_USE int hunkravy_file_commit(hunkravy_file *file) HUNKRAVY_NONNULL(1);

/* Discards all changes since the last commit, and ends each batch. Does nothing in a process that did not open the file. */
void hunkravy_file_discard(hunkravy_file *file) HUNKRAVY_NONNULL(1);

/* Begins a batch, in another one if there is any, and sets `*batch` to its number. */
HUNKRAVY_MUST_USE int hunkravy_file_begin(hunkravy_file *file, uint64_t *batch) HUNKRAVY_NONNULL(1, 2);

/*
 * Ends a batch. After any error except HUNKRAVY_WRONG_STATE it has ended, and is undone unless the file is broken; in a
 * process that did not open the file nothing changes.
 */
HUNKRAVY_MUST_USE int hunkravy_file_end(hunkravy_file *file, uint64_t batch) HUNKRAVY_NONNULL(1);

/* Undoes a batch. Does nothing if no such batch is open, or in a process that did not open the file. */
void hunkravy_file_undo(hunkravy_file *file, uint64_t batch) HUNKRAVY_NONNULL(1);

/* How many batches are open, each in the one before it. */
uint64_t hunkravy_file_open_batches(const hunkravy_file *file) HUNKRAVY_NONNULL(1);

/* Sets how many bytes of changed pages there may be before a write commits. The default is 16 MiB. */
void hunkravy_file_set_limit(hunkravy_file *file, uint64_t limit) HUNKRAVY_NONNULL(1);

/*
 * Writes a MAC of HUNKRAVY_FILE_COMMITMENT_BYTES, under the key, over the state at the last commit: with an older page or
 * header it is different, unless two MACs are equal by chance. Keep it where nobody can roll it back together with the
 * file. It reads the tag of each page, and verifies none. It covers the header that opening read or the last commit
 * wrote.
 */
HUNKRAVY_MUST_USE int hunkravy_file_commitment(hunkravy_file *file, uint8_t *mac) HUNKRAVY_NONNULL(1, 2);

/* Returns HUNKRAVY_OK, HUNKRAVY_FILE_LOCKED in a process that was forked, or HUNKRAVY_FILE_BROKEN. */
HUNKRAVY_MUST_USE int hunkravy_file_check(const hunkravy_file *file) HUNKRAVY_NONNULL(1);

/* The number of the page that was found damaged last, or 0 if none was. */
uint64_t hunkravy_file_damaged_page(const hunkravy_file *file) HUNKRAVY_NONNULL(1);

/* Returns the message of a code, in English, or that of strerror for an error number of the system. */
const char *hunkravy_file_error_text(int code);

/* ---- Files in storages other than the file system */

/* The two parts of a storage. */
enum hunkravy_part { HUNKRAVY_PART_FILE, HUNKRAVY_PART_JOURNAL };

/*
 * A storage of a file and its journal. Its functions are called from one thread at a time. Each returns HUNKRAVY_OK, one of
 * the codes above, or a system error number. A pointer may be null where it says so.
 *
 * Until `sync` has returned HUNKRAVY_OK a crash may leave any bytes where something was written, and the old size or the
 * new one. No other byte changes.
 */
struct hunkravy_storage {
    void *context;
    /* Fills `bytes`. Returns HUNKRAVY_DAMAGED_PAGE if there are fewer. */
    int (*read)(void *context, enum hunkravy_part part, uint64_t place, uint8_t *bytes, size_t length);
    /* Writes all of the bytes. Zeros fill a gap in front of them. */
    int (*write)(void *context, enum hunkravy_part part, uint64_t place, const uint8_t *bytes, size_t length);
    /* How many bytes it has. A journal that does not exist has none. */
    int (*size)(void *context, enum hunkravy_part part, uint64_t *size);
    /* Sets the length. Called only to empty the journal. */
    int (*resize)(void *context, enum hunkravy_part part, uint64_t size);
    /* Returns HUNKRAVY_OK once everything that was written survives a loss of power. */
    int (*sync)(void *context, enum hunkravy_part part);
    /* Replaces the journal's bytes with `bytes`, and syncs. A crash leaves the old ones or the new. May be null if the `sync`
     * after a failed one stores everything that can be read. */
    int (*replace)(void *context, const uint8_t *bytes, size_t length);
    /* Makes reads return what would survive a loss of power now, even after a sync that failed. May be null. */
    int (*forget)(void *context, enum hunkravy_part part);
    /* Locks it against all others until `close`. May be null. */
    int (*lock)(void *context);
    /* Checks that a later opening would find both parts by their names, which then survive a loss of power. May be null. */
    int (*check)(void *context);
    /* Makes room in the file from `from` up to `end`, unless they are equal, and makes an empty journal. The bytes from
     * `from` on are not in use, and may become zeros. Called before a commit writes. May be null. */
    int (*reserve)(void *context, uint64_t from, uint64_t end);
    /* Fills `bytes` with random ones. Never the same twice under one key. */
    int (*random)(void *context, uint8_t *bytes, size_t length);
    /* Unlocks and frees it. May be null. */
    void (*close)(void *context);
};

/*
 * Like hunkravy_file_create, in an empty storage. The storage is closed with the file, and after an error. After a storage
 * error it may hold a header: empty it before another call.
 */
HUNKRAVY_MUST_USE int hunkravy_file_create_in(hunkravy_file **file, const struct hunkravy_storage *storage,
    uint32_t variant, const uint8_t *k, size_t klen, uint32_t page_size) HUNKRAVY_NONNULL(1, 2);

/* Like hunkravy_file_open, in a storage. It is closed with the file, and after an error. */
HUNKRAVY_MUST_USE int hunkravy_file_open_in(hunkravy_file **file, const struct hunkravy_storage *storage,
    uint32_t variant, const uint8_t *k, size_t klen) HUNKRAVY_NONNULL(1, 2);

#ifdef __cplusplus
}
#endif

#endif
