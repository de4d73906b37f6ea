/*
 * The calls of hunkravy_records.h, over the proved exports. What is here, and is tested and not proved: the pointer to
 * the context, which a stream keeps between two calls, and the length of the record of a message.
 */
#include "hunkravy_records.h"
#include "proved.h"

#include <string.h>

typedef char a_record_has_80_bytes_in_a_stream[offsetof(hunkravy_record_stream, context) == 80 ? 1 : -1];

/* The length of the record of `mlen` bytes, or one that the proved exports refuse if they are too many. */
static size_t record_bytes(size_t mlen)
{
    size_t most = HUNKRAVY_RECORD_MAX_MESSAGE_BYTES;
    return HUNKRAVY_RECORD_BYTES + (mlen > most ? most + 1 : mlen);
}

/* The context of a stream, or none, and `code`. */
static int keep(hunkravy_record_stream *st, const uint8_t *context, size_t contextlen, int code)
{
    if (code == HUNKRAVY_OK) {
        st->context = context;
        st->contextlen = contextlen;
    }
    return code;
}

int hunkravy_record_begin(hunkravy_record_stream *st, const uint8_t *k, const uint8_t *prefix, const uint8_t *context,
    size_t contextlen, uint8_t *header)
{
    memset(st, 0, sizeof *st);
    return keep(
        st, context, contextlen, hunkravy_proved_record_begin(st->opaque, k, prefix, IN(context, contextlen), header));
}

int hunkravy_record_begin_open(hunkravy_record_stream *st, const uint8_t *k, const uint8_t *prefix,
    const uint8_t *context, size_t contextlen, const uint8_t *header)
{
    memset(st, 0, sizeof *st);
    return keep(st, context, contextlen,
        hunkravy_proved_record_begin_open(st->opaque, k, prefix, IN(context, contextlen), header));
}

int hunkravy_record_begin_open_at(hunkravy_record_stream *st, const uint8_t *k, const uint8_t *prefix,
    const uint8_t *context, size_t contextlen, uint64_t number, uint64_t before)
{
    memset(st, 0, sizeof *st);
    return keep(st, context, contextlen,
        hunkravy_proved_record_begin_open_at(st->opaque, k, prefix, IN(context, contextlen), number, before));
}

int hunkravy_record_seal(hunkravy_record_stream *st, uint8_t *record, size_t mlen)
{
    return hunkravy_proved_record_seal(st->opaque, IN(st->context, st->contextlen), record, record_bytes(mlen));
}

int hunkravy_record_seal_last(hunkravy_record_stream *st, uint8_t *record, size_t mlen)
{
    int code =
        hunkravy_proved_record_seal_last(st->opaque, IN(st->context, st->contextlen), record, record_bytes(mlen));
    return keep(st, NULL, 0, code);
}

int hunkravy_record_len(const hunkravy_record_stream *st, const uint8_t *head, size_t *recordlen)
{
    size_t found = 0;
    int code = hunkravy_proved_record_len(st->opaque, head, &found);
    if (code == HUNKRAVY_OK) {
        *recordlen = found;
    }
    return code;
}

int hunkravy_record_open(hunkravy_record_stream *st, uint8_t *record, size_t recordlen, size_t *mlen, int *is_last)
{
    uint8_t flag = 0;
    int code = hunkravy_proved_record_open(st->opaque, IN(st->context, st->contextlen), OUT(record, recordlen), &flag);
    if (code == HUNKRAVY_OK) {
        *mlen = recordlen - HUNKRAVY_RECORD_BYTES;
        *is_last = flag;
    }
    return flag == 0 ? code : keep(st, NULL, 0, code);
}
