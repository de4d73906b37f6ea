/*
 * Record streams: a list of messages, each encrypted in place with AEGIS-256 and a tag of 32 bytes. A message is
 * returned only after its tag is verified, and a record decrypts only at its place in its stream. The last record is
 * marked: a stream is complete only if its last record was decrypted.
 *
 * A stream is a header of 4 bytes, AGR2, and a record for each message. A record is a head of 5 bytes, the
 * ciphertext, and the tag. The limits are HUNKRAVY_RECORD_MAX_MESSAGE_BYTES for a message,
 * HUNKRAVY_RECORD_MAX_CONTEXT_BYTES for the context, and HUNKRAVY_MAX_BYTES for the stream.
 *
 * `k` is a key of 32 bytes. `prefix` is 24 bytes for ONE STREAM ONLY under that key. They can be random, and need not
 * be secret. The context is authenticated, and is not a part of the stream. It may be the name of a file.
 *
 * The rules of hunkravy.h on pointers, threads and errors apply here too. Pointers without a length are never null.
 */
#ifndef HUNKRAVY_RECORDS_H
#define HUNKRAVY_RECORDS_H

#include "hunkravy.h"

#ifdef __cplusplus
extern "C" {
#endif

#define HUNKRAVY_RECORD_KEY_BYTES 32
#define HUNKRAVY_RECORD_PREFIX_BYTES 24
/* The header of a stream. */
#define HUNKRAVY_RECORD_HEADER_BYTES 4
/* The head of a record. The message begins after it. */
#define HUNKRAVY_RECORD_HEAD_BYTES 5
/* The length of a record without its message. */
#define HUNKRAVY_RECORD_BYTES 37
#define HUNKRAVY_RECORD_MAX_MESSAGE_BYTES ((size_t)16777216)
#define HUNKRAVY_RECORD_MAX_CONTEXT_BYTES ((size_t)65535)

/*
 * The state of a record stream. It has the key, and THE POINTER TO THE CONTEXT: until the stream has ended, the
 * context must stay at its address and must not change. Do not write to the state.
 *
 * A state can be dropped at any time. Nothing has to be freed. Call hunkravy_wipe before you drop one that has not
 * ended. A stream that has ended is zeroed, and every function except those that begin one returns
 * HUNKRAVY_WRONG_STATE. Never encrypt with two copies of a state.
 */
typedef struct hunkravy_record_stream {
    uint64_t opaque[10];
    const uint8_t *context;
    size_t contextlen;
} hunkravy_record_stream;

/*
 * Begins a stream to encrypt, and writes its header of HUNKRAVY_RECORD_HEADER_BYTES to `header`. Returns HUNKRAVY_OK,
 * or HUNKRAVY_CONTEXT_TOO_LONG: then the state is zeroed, and nothing else is written.
 */
HUNKRAVY_MUST_USE int hunkravy_record_begin(hunkravy_record_stream *st, const uint8_t *k, const uint8_t *prefix,
    const uint8_t *context, size_t contextlen, uint8_t *header) HUNKRAVY_NONNULL(1, 2, 3, 6);

/*
 * Begins a stream to decrypt, whose HUNKRAVY_RECORD_HEADER_BYTES are at `header`. Returns HUNKRAVY_OK,
 * HUNKRAVY_UNKNOWN_HEADER or HUNKRAVY_CONTEXT_TOO_LONG. After an error the state is zeroed.
 */
HUNKRAVY_MUST_USE int hunkravy_record_begin_open(hunkravy_record_stream *st, const uint8_t *k,
    const uint8_t *prefix, const uint8_t *context, size_t contextlen, const uint8_t *header)
    HUNKRAVY_NONNULL(1, 2, 3, 6);

/*
 * Begins to decrypt a stream at record `number`, counted from 0. The messages before it have `before` bytes in total.
 * A wrong position is not detected here: the record then does not decrypt. The earlier records are not verified, and
 * the stream is complete only if its last record was decrypted.
 *
 * Returns HUNKRAVY_OK, HUNKRAVY_CONTEXT_TOO_LONG, or HUNKRAVY_MESSAGE_TOO_LONG if the record would begin after the
 * limit of a stream. After an error the state is zeroed.
 */
HUNKRAVY_MUST_USE int hunkravy_record_begin_open_at(hunkravy_record_stream *st, const uint8_t *k,
    const uint8_t *prefix, const uint8_t *context, size_t contextlen, uint64_t number, uint64_t before)
    HUNKRAVY_NONNULL(1, 2, 3);

/*
 * Encrypts the next message, which is not the last one, in place. Its `mlen` bytes are at `record +
 * HUNKRAVY_RECORD_HEAD_BYTES`, and the `mlen + HUNKRAVY_RECORD_BYTES` bytes at `record` become its record.
 *
 * Returns HUNKRAVY_OK, HUNKRAVY_WRONG_STATE if the state does not encrypt, or HUNKRAVY_MESSAGE_TOO_LONG if the
 * message or the stream would be too long. After an error nothing is written, and `record` still holds the plaintext.
 */
HUNKRAVY_MUST_USE int hunkravy_record_seal(hunkravy_record_stream *st, uint8_t *record, size_t mlen)
    HUNKRAVY_NONNULL(1);

/*
 * Encrypts the last message, like hunkravy_record_seal, and zeroes the state. After an error the state is unchanged
 * too.
 */
HUNKRAVY_MUST_USE int hunkravy_record_seal_last(hunkravy_record_stream *st, uint8_t *record, size_t mlen)
    HUNKRAVY_NONNULL(1);

/*
 * Writes the length of the next record, whose first HUNKRAVY_RECORD_HEAD_BYTES are at `head`, to `recordlen`. The
 * length IS NOT VERIFIED. It is at most 16 MiB + 37 bytes. Use it only to read this many bytes.
 *
 * Returns HUNKRAVY_OK, HUNKRAVY_WRONG_STATE if the state does not decrypt, HUNKRAVY_INVALID_TAG if no record begins
 * with these bytes, or HUNKRAVY_MESSAGE_TOO_LONG if the message would be too long. After an error nothing is written.
 */
HUNKRAVY_MUST_USE int hunkravy_record_len(const hunkravy_record_stream *st, const uint8_t *head,
    size_t *recordlen) HUNKRAVY_NONNULL(1, 2, 3);

/*
 * Decrypts the next record, the `recordlen` bytes at `record`, in place. Its message is then the `*mlen` bytes at
 * `record + HUNKRAVY_RECORD_HEAD_BYTES`. `*is_last` is 1 for the last record, which zeroes the state, and otherwise
 * 0. After the last record check that no bytes follow.
 *
 * Returns HUNKRAVY_OK, or:
 * - HUNKRAVY_INVALID_TAG if the bytes are not the next record of the stream;
 * - HUNKRAVY_WRONG_STATE if the state does not decrypt;
 * - HUNKRAVY_WRONG_RECORD_LENGTH if the bytes are too few for a record;
 * - HUNKRAVY_MESSAGE_TOO_LONG if the record or the stream would be too long.
 *
 * After HUNKRAVY_INVALID_TAG each of the `recordlen` bytes is 0xaa. After an error nothing else is written, and the
 * state is unchanged.
 */
HUNKRAVY_MUST_USE int hunkravy_record_open(hunkravy_record_stream *st, uint8_t *record, size_t recordlen,
    size_t *mlen, int *is_last) HUNKRAVY_NONNULL(1, 4, 5);

#ifdef __cplusplus
}
#endif

#endif
