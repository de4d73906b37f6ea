/*
 * The journal of a commit, the order of the steps of a commit and of a recovery, and random bytes. These functions are for
 * this repository alone: c/file, and the Rust package, which links them by name. They are no part of the interface of the
 * library, and may change with any version. docs/FORMATS.md defines the bytes.
 *
 * A journal has a start, then each write with its head in front, and then a MAC. After an error nothing is written. The
 * rules of hunkravy.h on pointers apply here too.
 */
#ifndef HUNKRAVY_JOURNAL_H
#define HUNKRAVY_JOURNAL_H

#include "hunkravy.h"

#define HUNKRAVY_JOURNAL_NONCE_BYTES 16
/* The beginning fills a sector, so that no later write touches it. The start is the beginning and a nonce. */
#define HUNKRAVY_JOURNAL_BEGINNING_BYTES 512
#define HUNKRAVY_JOURNAL_START_BYTES 528
/* The position of a write in the file, and its length. */
#define HUNKRAVY_JOURNAL_HEAD_BYTES 16
#define HUNKRAVY_JOURNAL_MAC_BYTES 32

/* Begins a journal, with a fresh random nonce, and writes its start. The state is of use for the next two functions alone. */
HUNKRAVY_MUST_USE int hunkravy_journal_init(uint32_t variant, hunkravy_state *st, uint32_t page_size,
    const uint8_t *id, const uint8_t *npub, const uint8_t *k, size_t klen, uint8_t *start) HUNKRAVY_NONNULL(2, 4, 5, 8);

/* Adds a write, and writes its head. HUNKRAVY_FILE_TOO_LONG if it would end past 2^63 - 1, or the journal past 2^60. */
HUNKRAVY_MUST_USE int hunkravy_journal_entry(hunkravy_state *st, uint64_t place, const uint8_t *bytes, size_t byteslen,
    uint8_t *head) HUNKRAVY_NONNULL(1, 5);

/* Writes the MAC, and zeroes the state. */
HUNKRAVY_MUST_USE int hunkravy_journal_final(hunkravy_state *st, uint8_t *mac) HUNKRAVY_NONNULL(1, 2);

/*
 * Decides what a journal is to a file that begins with these bytes: at least HUNKRAVY_PAGE_HEADER_BLOCK_BYTES, or all of it.
 * `*writeslen` becomes the length of the writes that are to be made again, after the start, or 0. HUNKRAVY_INVALID_TAG: the
 * file has no header, and the journal is not whole. HUNKRAVY_WRONG_JOURNAL: it is of another file, or of another state.
 */
HUNKRAVY_MUST_USE int hunkravy_journal_check(uint32_t variant, const uint8_t *file, size_t filelen, const uint8_t *k,
    size_t klen, const uint8_t *journal, size_t journallen, size_t *writeslen) HUNKRAVY_NONNULL(8);

/* Reads the head of the first write of an accepted journal. HUNKRAVY_NO_WRITE: there is none. */
#define HUNKRAVY_NO_WRITE (-22)
HUNKRAVY_MUST_USE int hunkravy_journal_next(const uint8_t *writes, size_t writeslen, uint64_t *place,
    size_t *byteslen) HUNKRAVY_NONNULL(3, 4);

/* The steps. REPLACE_JOURNAL puts a synced copy of the journal in its place: after a sync that failed, Linux returns bytes
 * that the disk does not have, and writing over them could tear the only good ones. */
#define HUNKRAVY_STEP_DONE 0U
#define HUNKRAVY_STEP_WRITE_BEGINNING 1U
#define HUNKRAVY_STEP_WRITE_REST 2U
#define HUNKRAVY_STEP_SYNC_JOURNAL 3U
#define HUNKRAVY_STEP_REPLACE_JOURNAL 4U
#define HUNKRAVY_STEP_MAKE_WRITE 5U
#define HUNKRAVY_STEP_SYNC_FILE 6U
#define HUNKRAVY_STEP_EMPTY_JOURNAL 7U

/*
 * Return step `number` of a commit with so many writes, and of a recovery by a journal that has so many, or none if it is
 * not whole. Set `write` if the step makes a write. It is proved that a crash at any step leaves what a recovery completes.
 */
HUNKRAVY_MUST_USE uint32_t hunkravy_commit_step(uint64_t number, uint64_t writes, uint64_t *write) HUNKRAVY_NONNULL(3);
HUNKRAVY_MUST_USE uint32_t hunkravy_recovery_step(uint64_t number, uint64_t writes, uint64_t *write) HUNKRAVY_NONNULL(3);

/* Fills a key or a nonce with random bytes of the system, and waits until it has seeded its source. Returns 0 or `errno`. */
HUNKRAVY_MUST_USE int hunkravy_fill_random(uint8_t *bytes, size_t length) HUNKRAVY_NONNULL(1);

/* Holds the standard descriptors that the program has closed: messages are written there. Returns 0 or `errno`. */
HUNKRAVY_MUST_USE int hunkravy_hold_descriptors(void);

#endif
