/*
 * The calls on record streams: the stored lines that seal, changed and exchanged records, positions, streams that have ended
 * or are of another role, and the limits. Damaged streams are in testkit/corpus. Its parameter is the folder of the stored
 * lines.
 */
#include "check.h"

#define HEADER HUNKRAVY_RECORD_HEADER_BYTES
#define HEAD HUNKRAVY_RECORD_HEAD_BYTES
#define MORE HUNKRAVY_RECORD_BYTES
#define MOST HUNKRAVY_RECORD_MAX_MESSAGE_BYTES

static const uint8_t AGR2[] = {'A', 'G', 'R', '2'};

static int is_zeros(const hunkravy_record_stream *st)
{
    return all_are(st, sizeof *st, 0);
}

/* ---- Beginning a stream, in memory that was anything */

/* What a stream is encrypted under. */
struct keys {
    const uint8_t *k, *prefix, *context;
    size_t contextlen;
};

static struct keys keys_of(const struct line *line)
{
    struct keys keys = {line->key.at, line->nonce.at, line->ad.at, line->ad.length};

    HOLDS(line->key.length == HUNKRAVY_RECORD_KEY_BYTES && line->nonce.length == HUNKRAVY_RECORD_PREFIX_BYTES);
    if (keys.contextlen == 0) {
        keys.context = NULL;
    }
    return keys;
}

static int begin(hunkravy_record_stream *st, const struct keys *keys, uint8_t *header)
{
    memset(st, 0x55, sizeof *st);
    return hunkravy_record_begin(st, keys->k, keys->prefix, keys->context, keys->contextlen, header);
}

static int begin_open(hunkravy_record_stream *st, const struct keys *keys, const uint8_t *header)
{
    memset(st, 0x55, sizeof *st);
    return hunkravy_record_begin_open(st, keys->k, keys->prefix, keys->context, keys->contextlen, header);
}

static int begin_open_at(hunkravy_record_stream *st, const struct keys *keys, uint64_t number, uint64_t before)
{
    memset(st, 0x55, sizeof *st);
    return hunkravy_record_begin_open_at(st, keys->k, keys->prefix, keys->context, keys->contextlen, number, before);
}

static hunkravy_record_stream begun(const struct keys *keys)
{
    hunkravy_record_stream st;
    uint8_t header[HEADER];

    HOLDS(begin(&st, keys, header) == HUNKRAVY_OK && memcmp(header, AGR2, HEADER) == 0);
    return st;
}

static hunkravy_record_stream begun_to_open(const struct keys *keys)
{
    hunkravy_record_stream st;

    HOLDS(begin_open(&st, keys, AGR2) == HUNKRAVY_OK);
    return st;
}

/* ---- The stored lines */

/* These bytes are not the next record: they are erased, and nothing else is written. */
static void check_is_damaged(hunkravy_record_stream *st, const uint8_t *bytes, size_t length)
{
    const hunkravy_record_stream old = *st;
    uint8_t *record = copied(bytes, length);
    size_t mlen = 7;
    int is_last = 7;

    HOLDS(hunkravy_record_open(st, record, length, &mlen, &is_last) == HUNKRAVY_INVALID_TAG);
    HOLDS(all_are(record, length, 0xaa) && mlen == 7 && is_last == 7 && memcmp(st, &old, sizeof old) == 0);
    free(record);
}

/* The bytes open to this message, but not with another bit. */
static void check_opens(hunkravy_record_stream *st, const uint8_t *bytes, const uint8_t *message, size_t length)
{
    uint8_t *record = copied(bytes, length + MORE);
    size_t recordlen = 0, mlen = 0;
    int is_last = 7;

    change_a_bit(record, length + MORE);
    check_is_damaged(st, record, length + MORE);
    memcpy(record, bytes, length + MORE);
    HOLDS(hunkravy_record_len(st, record, &recordlen) == HUNKRAVY_OK && recordlen == length + MORE);
    HOLDS(hunkravy_record_open(st, record, recordlen, &mlen, &is_last) == HUNKRAVY_OK);
    HOLDS(mlen == length && is_last == bytes[0] && are_equal(record + HEAD, message, length));
    HOLDS(is_zeros(st) == is_last);
    free(record);
}

/*
 * The messages of the line are sealed to the stream of its answer, which opens again. Each record
 * also opens alone, at its position and at no other.
 */
static void check_sealrec(const struct line *line)
{
    const struct keys keys = keys_of(line);
    const struct bytes *stream = &line->answer[0];
    hunkravy_record_stream sealer = begun(&keys), opener = begun_to_open(&keys), alone;
    size_t at = HEADER, before = 0;

    HOLDS(memcmp(stream->at, AGR2, HEADER) == 0);
    for (size_t i = 0; i < line->text.chunk_count; i++) {
        const uint8_t *message = line->text.at + before, *expected = stream->at + at;
        size_t length = line->text.chunks[i];
        uint8_t *record = filled(length + MORE, 0x55);
        memcpy(record + HEAD, message, length);
        HOLDS((i + 1 < line->text.chunk_count ? hunkravy_record_seal(&sealer, record, length)
                                              : hunkravy_record_seal_last(&sealer, record, length)) == HUNKRAVY_OK);
        HOLDS(at + length + MORE <= stream->length && memcmp(record, expected, length + MORE) == 0);
        HOLDS(begin_open_at(&alone, &keys, i + 1, before) == HUNKRAVY_OK);
        check_is_damaged(&alone, record, length + MORE);
        HOLDS(begin_open_at(&alone, &keys, i, before + 1) == HUNKRAVY_OK);
        check_is_damaged(&alone, record, length + MORE);
        HOLDS(begin_open_at(&alone, &keys, i, before) == HUNKRAVY_OK);
        check_opens(&alone, record, message, length);
        check_opens(&opener, record, message, length);
        at += length + MORE;
        before += length;
        free(record);
    }
    HOLDS(at == stream->length && is_zeros(&sealer) && is_zeros(&opener));
}

static int sealed;

static void check_line(const struct line *line)
{
    if (is_command(line, "sealrec")) {
        check_sealrec(line);
        sealed++;
    }
}

/* ---- Streams that are refused, and limits */

/* The words of a position, which no program but a test reads or writes. */
enum { NUMBER = 1, BEFORE = 2 };

static void check_is_not_sealing(hunkravy_record_stream st)
{
    const hunkravy_record_stream old = st;
    uint8_t bytes[64];

    memset(bytes, 0x55, sizeof bytes);
    HOLDS(hunkravy_record_seal(&st, bytes, 20) == HUNKRAVY_WRONG_STATE);
    HOLDS(hunkravy_record_seal(&st, bytes, SIZE_MAX) == HUNKRAVY_WRONG_STATE);
    HOLDS(hunkravy_record_seal_last(&st, bytes, 0) == HUNKRAVY_WRONG_STATE);
    HOLDS(all_are(bytes, sizeof bytes, 0x55) && memcmp(&st, &old, sizeof st) == 0);
}

static void check_is_not_opening(hunkravy_record_stream st)
{
    const hunkravy_record_stream old = st;
    uint8_t bytes[64] = {0};
    size_t length = 7;
    int is_last = 7;

    HOLDS(hunkravy_record_len(&st, bytes, &length) == HUNKRAVY_WRONG_STATE);
    HOLDS(hunkravy_record_open(&st, bytes, 37, &length, &is_last) == HUNKRAVY_WRONG_STATE);
    HOLDS(hunkravy_record_open(&st, NULL, 0, &length, &is_last) == HUNKRAVY_WRONG_STATE);
    HOLDS(all_are(bytes, sizeof bytes, 0) && length == 7 && is_last == 7 && memcmp(&st, &old, sizeof st) == 0);
}

/* A state that fails to begin is zeroed. Such states, and those of another role, are refused. */
static void check_states(const struct keys *keys)
{
    static const uint8_t context[HUNKRAVY_RECORD_MAX_CONTEXT_BYTES + 1] = {0};
    const struct keys too_long = {keys->k, keys->prefix, context, sizeof context};
    uint8_t header[HEADER] = {'A', 'G', 'R', '3'}, record[MORE + 1];
    hunkravy_record_stream st;

    memset(record, 0x55, sizeof record);
    HOLDS(begin_open(&st, keys, header) == HUNKRAVY_UNKNOWN_HEADER && is_zeros(&st));
    HOLDS(begin(&st, &too_long, header) == HUNKRAVY_CONTEXT_TOO_LONG && is_zeros(&st));
    HOLDS(memcmp(header, "AGR3", HEADER) == 0);
    HOLDS(begin_open(&st, &too_long, AGR2) == HUNKRAVY_CONTEXT_TOO_LONG && is_zeros(&st));
    HOLDS(begin_open_at(&st, &too_long, 0, 0) == HUNKRAVY_CONTEXT_TOO_LONG && is_zeros(&st));
    check_is_not_sealing(st);
    check_is_not_opening(st);
    memset(st.opaque, 0x55, sizeof st.opaque);
    check_is_not_sealing(st);
    check_is_not_opening(st);
    check_is_not_opening(begun(keys));
    check_is_not_sealing(begun_to_open(keys));
    st = begun(keys);
    st.opaque[BEFORE] = UINT64_MAX;
    check_is_not_sealing(st);
    st = begun_to_open(keys);
    st.opaque[NUMBER] = UINT64_MAX;
    check_is_not_opening(st);
    st = begun(keys);
    st.context = context;
    st.contextlen = sizeof context;
    HOLDS(hunkravy_record_seal(&st, record, 1) == HUNKRAVY_CONTEXT_TOO_LONG && all_are(record, sizeof record, 0x55));
}

/*
 * A record starts at byte 4 + 37 * number + before of its stream, which has at most
 * HUNKRAVY_MAX_BYTES. A message of 7 bytes fits here, and one of 8 bytes does not.
 */
static void check_places(const struct keys *keys)
{
    const uint64_t most = HUNKRAVY_MAX_BYTES - 4, before = most - 2 * MORE - 7;
    hunkravy_record_stream st;
    uint8_t bytes[MORE + 8], message[8];
    size_t length = 7;
    int is_last = 7;

    HOLDS(begin_open_at(&st, keys, UINT64_MAX, 0) == HUNKRAVY_MESSAGE_TOO_LONG && is_zeros(&st));
    HOLDS(begin_open_at(&st, keys, UINT64_MAX, UINT64_MAX) == HUNKRAVY_MESSAGE_TOO_LONG);
    HOLDS(begin_open_at(&st, keys, 0, most + 1) == HUNKRAVY_MESSAGE_TOO_LONG && is_zeros(&st));
    HOLDS(begin_open_at(&st, keys, 0, most) == HUNKRAVY_OK);
    memset(bytes, 0x55, sizeof bytes);
    memset(message, 0x55, sizeof message);
    st = begun(keys);
    st.opaque[NUMBER] = 1;
    st.opaque[BEFORE] = before;
    HOLDS(hunkravy_record_seal(&st, bytes, 8) == HUNKRAVY_MESSAGE_TOO_LONG && all_are(bytes, sizeof bytes, 0x55));
    HOLDS(hunkravy_record_seal(&st, bytes, 7) == HUNKRAVY_OK);
    HOLDS(hunkravy_record_seal(&st, bytes, 0) == HUNKRAVY_MESSAGE_TOO_LONG);
    HOLDS(begin_open_at(&st, keys, 1, before) == HUNKRAVY_OK);
    HOLDS(hunkravy_record_open(&st, bytes, MORE + 8, &length, &is_last) == HUNKRAVY_MESSAGE_TOO_LONG);
    HOLDS(length == 7 && is_last == 7);
    check_opens(&st, bytes, message, 7);
}

/* Lengths that a record does not have. Nothing is written. */
static void check_lengths(const struct keys *keys)
{
    hunkravy_record_stream st = begun(keys), old = st;
    uint8_t bytes[64], head[HEAD] = {0, 0, 0, 0, 1};
    size_t length = 7;
    int is_last = 7;

    memset(bytes, 0x55, sizeof bytes);
    HOLDS(hunkravy_record_seal(&st, bytes, MOST + 1) == HUNKRAVY_MESSAGE_TOO_LONG);
    HOLDS(hunkravy_record_seal(&st, bytes, SIZE_MAX) == HUNKRAVY_MESSAGE_TOO_LONG);
    HOLDS(hunkravy_record_seal_last(&st, bytes, SIZE_MAX - 36) == HUNKRAVY_MESSAGE_TOO_LONG);
    HOLDS(memcmp(&st, &old, sizeof st) == 0);
    st = old = begun_to_open(keys);
    HOLDS(hunkravy_record_open(&st, bytes, 36, &length, &is_last) == HUNKRAVY_WRONG_RECORD_LENGTH);
    HOLDS(hunkravy_record_open(&st, NULL, 0, &length, &is_last) == HUNKRAVY_WRONG_RECORD_LENGTH);
    HOLDS(all_are(bytes, sizeof bytes, 0x55) && length == 7 && is_last == 7);
    HOLDS(hunkravy_record_len(&st, head, &length) == HUNKRAVY_OK && length == MOST + MORE);
    head[1] = 1;
    HOLDS(hunkravy_record_len(&st, head, &length) == HUNKRAVY_MESSAGE_TOO_LONG);
    head[0] = 2;
    HOLDS(hunkravy_record_len(&st, head, &length) == HUNKRAVY_INVALID_TAG);
    HOLDS(length == MOST + MORE && memcmp(&st, &old, sizeof st) == 0);
}

/* The longest record, and the longest context. */
static void check_longest(const struct keys *keys)
{
    static const uint8_t context[HUNKRAVY_RECORD_MAX_CONTEXT_BYTES] = "a context";
    const struct keys longest = {keys->k, keys->prefix, context, sizeof context};
    hunkravy_record_stream st = begun(&longest);
    uint8_t *record = filled(MOST + MORE, 0);
    size_t length = 0;
    int is_last = 7;

    HOLDS(hunkravy_record_seal(&st, record, MOST) == HUNKRAVY_OK);
    st = begun_to_open(&longest);
    HOLDS(hunkravy_record_open(&st, record, MOST + MORE, &length, &is_last) == HUNKRAVY_OK);
    HOLDS(length == MOST && is_last == 0 && all_are(record + HEAD, MOST, 0));
    free(record);
}

int main(int count, char **arguments)
{
    static const uint8_t bytes[HUNKRAVY_RECORD_KEY_BYTES] = "a key, a prefix and a context";
    static const struct keys keys = {bytes, bytes, bytes, 9};

    HOLDS(count == 2);
    for_each_line(arguments[1], "records", check_line);
    for_each_line(arguments[1], "record-tables", check_line);
    HOLDS(sealed > 50);
    check_states(&keys);
    check_places(&keys);
    check_lengths(&keys);
    check_longest(&keys);
    printf("hunkravy.h on record streams: %d stored lines, %lu checks, all right\n", sealed, checks);
    return EXIT_SUCCESS;
}
