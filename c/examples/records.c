/*
 * Seals standard input to a record stream, in pieces of 64 KiB, and opens one. Both read their input once, so it may be
 * a pipe, and the opener writes no byte before its tag is verified:
 *
 *     records seal KEYFILE < plain > sealed
 *     records open KEYFILE < sealed > plain
 *
 * A key file has 32 bytes. If the opener fails, what it has written is only the beginning of what was sealed.
 *
 * cc records.c $(pkg-config --cflags --libs hunkravy)
 */
#include "hunkravy_records.h"

#include <stdio.h>
#include <stdlib.h>
#include <string.h>
#include <sys/random.h>
#include <unistd.h>

#define KEY_BYTES HUNKRAVY_RECORD_KEY_BYTES
#define PREFIX_BYTES HUNKRAVY_RECORD_PREFIX_BYTES
#define HEADER_BYTES HUNKRAVY_RECORD_HEADER_BYTES
#define HEAD_BYTES HUNKRAVY_RECORD_HEAD_BYTES
#define PIECE_BYTES 65536

/* Both sides know it: it is authenticated with each piece, and not sent. */
static const uint8_t CONTEXT[] = "example record streams, version 1";

/* A record, and within it the piece that it holds. */
static uint8_t record[PIECE_BYTES + HUNKRAVY_RECORD_BYTES];
static uint8_t *const piece = record + HEAD_BYTES;

/* Says whether a file has no more bytes. If reading failed, ferror is set. */
static int is_at_end(FILE *in)
{
    int byte = getc(in);
    return byte == EOF || ungetc(byte, in) == EOF;
}

/* Writes the records of a stream that was begun, one for each piece. Returns 0, or -1. */
static int seal_pieces(hunkravy_record_stream *stream, FILE *out, FILE *in)
{
    int is_last, code;

    do {
        size_t length = fread(piece, 1, PIECE_BYTES, in);
        is_last = is_at_end(in);
        /* A read that failed is not the end. */
        if (ferror(in)) {
            return -1;
        }
        code =
            is_last ? hunkravy_record_seal_last(stream, record, length) : hunkravy_record_seal(stream, record, length);
        length += HUNKRAVY_RECORD_BYTES;
        if (code != HUNKRAVY_OK || fwrite(record, 1, length, out) != length) {
            return -1;
        }
    } while (!is_last);
    return fflush(out) == 0 ? 0 : -1;
}

/* Writes a fresh prefix, and then the stream of all that `in` has. Returns 0, or -1. */
static int seal(FILE *out, FILE *in, const uint8_t *key)
{
    uint8_t begin[PREFIX_BYTES + HEADER_BYTES];
    hunkravy_record_stream stream;
    int result;

    if (getentropy(begin, PREFIX_BYTES) != 0 ||
        hunkravy_record_begin(&stream, key, begin, CONTEXT, sizeof CONTEXT, begin + PREFIX_BYTES) != HUNKRAVY_OK) {
        return -1;
    }
    result = fwrite(begin, 1, sizeof begin, out) == sizeof begin ? seal_pieces(&stream, out, in) : -1;
    /* After an error the stream has not ended. */
    hunkravy_wipe(&stream, sizeof stream);
    return result;
}

/* Reads a record, and returns its length, or 0 if there is none that fits. */
static size_t read_record(const hunkravy_record_stream *stream, FILE *in)
{
    size_t length;

    if (fread(record, 1, HEAD_BYTES, in) != HEAD_BYTES || hunkravy_record_len(stream, record, &length) != HUNKRAVY_OK ||
        length > sizeof record || fread(piece, 1, length - HEAD_BYTES, in) != length - HEAD_BYTES) {
        return 0;
    }
    return length;
}

/* Writes the pieces of a stream that was begun, each once it is verified. Returns 0, or -1. */
static int open_pieces(hunkravy_record_stream *stream, FILE *out, FILE *in)
{
    size_t length;
    int is_last;

    do {
        length = read_record(stream, in);
        if (length == 0 || hunkravy_record_open(stream, record, length, &length, &is_last) != HUNKRAVY_OK ||
            fwrite(piece, 1, length, out) != length) {
            return -1;
        }
    } while (!is_last);
    return is_at_end(in) && !ferror(in) && fflush(out) == 0 ? 0 : -1;
}

/* Writes what was sealed to `in`. Returns 0 if that is all of it, and -1 otherwise. */
static int open_sealed(FILE *out, FILE *in, const uint8_t *key)
{
    uint8_t begin[PREFIX_BYTES + HEADER_BYTES];
    hunkravy_record_stream stream;
    int result;

    if (fread(begin, 1, sizeof begin, in) != sizeof begin ||
        hunkravy_record_begin_open(&stream, key, begin, CONTEXT, sizeof CONTEXT, begin + PREFIX_BYTES) != HUNKRAVY_OK) {
        return -1;
    }
    result = open_pieces(&stream, out, in);
    hunkravy_wipe(&stream, sizeof stream);
    return result;
}

static int read_key(uint8_t *key, const char *name)
{
    FILE *file = fopen(name, "rb");
    int is_read = file != NULL && fread(key, 1, KEY_BYTES, file) == KEY_BYTES && is_at_end(file);
    return file != NULL && fclose(file) == 0 && is_read ? 0 : -1;
}

int main(int count, char **arguments)
{
    uint8_t key[KEY_BYTES];
    int result = -1;

    if (count != 3) {
        fputs("usage: records seal|open KEYFILE\n", stderr);
        return count > 1 ? EXIT_FAILURE : EXIT_SUCCESS;
    }
    if (read_key(key, arguments[2]) == 0) {
        result = strcmp(arguments[1], "seal") == 0 ? seal(stdout, stdin, key)
            : strcmp(arguments[1], "open") == 0    ? open_sealed(stdout, stdin, key)
                                                   : -1;
    }
    hunkravy_wipe(key, sizeof key);
    if (result != 0) {
        fputs("records: failed: check the command, KEYFILE, input and output\n", stderr);
    }
    return result == 0 ? EXIT_SUCCESS : EXIT_FAILURE;
}
