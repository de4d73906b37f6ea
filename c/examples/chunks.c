/*
 * Encrypts a file in chunks with AEGIS-256, and decrypts it again. The decryption first verifies
 * the whole file, and writes nothing of a forged one.
 *
 * cc chunks.c $(pkg-config --cflags --libs hunkravy)
 */
#include "hunkravy.h"

#include <stdio.h>
#include <stdlib.h>
#include <string.h>
#include <sys/random.h>
#include <unistd.h>

#define KEY_BYTES HUNKRAVY_AEGIS256_KEY_BYTES
#define NONCE_BYTES HUNKRAVY_AEGIS256_NONCE_BYTES
#define TAG_BYTES HUNKRAVY_LONG_TAG_BYTES
#define CHUNK_BYTES 65536

/* An encrypted file is the nonce, the tag, and the ciphertext. */
#define HEADER_BYTES (NONCE_BYTES + TAG_BYTES)

static uint8_t chunk[CHUNK_BYTES];

/* Writes `plain`, encrypted, to `out`, and its tag to `tag`. Returns 0, or -1. */
static int encrypt_chunks(hunkravy_state *state, FILE *out, FILE *plain, uint8_t *tag)
{
    size_t length;

    while ((length = fread(chunk, 1, CHUNK_BYTES, plain)) != 0) {
        if (hunkravy_state_encrypt_in_place(state, chunk, length) != HUNKRAVY_OK ||
            fwrite(chunk, 1, length, out) != length) {
            return -1;
        }
    }
    return !ferror(plain) && hunkravy_state_encrypt_final(state, tag, TAG_BYTES) == HUNKRAVY_OK ? 0 : -1;
}

/* Writes `plain`, encrypted, to `out`. Returns 0, or -1 if a file or the system failed; discard the output then. */
static int encrypt_file(FILE *out, FILE *plain, const uint8_t *key)
{
    uint8_t header[HEADER_BYTES] = {0};
    hunkravy_state state;
    int result;

    if (getentropy(header, NONCE_BYTES) != 0 || fwrite(header, 1, HEADER_BYTES, out) != HEADER_BYTES ||
        hunkravy_state_init(HUNKRAVY_AEGIS256, &state, NULL, 0, header, NONCE_BYTES, key, KEY_BYTES) != HUNKRAVY_OK) {
        return -1;
    }
    result = encrypt_chunks(&state, out, plain, header + NONCE_BYTES);
    /* After an error the state has not ended. */
    hunkravy_wipe(&state, sizeof state);
    rewind(out);
    return result == 0 && fwrite(header, 1, HEADER_BYTES, out) == HEADER_BYTES && fflush(out) == 0 ? 0 : -1;
}

/*
 * Reads the chunks of an encrypted file. If `out` is null, they are only checked; otherwise they
 * are decrypted and written to it. Returns 0 if the tag is right, and -1 otherwise.
 */
static int read_chunks(hunkravy_state *state, FILE *out, FILE *encrypted, const uint8_t *tag)
{
    size_t length;
    int code;

    while ((length = fread(chunk, 1, CHUNK_BYTES, encrypted)) != 0) {
        code = out == NULL ? hunkravy_state_decrypt_check(state, chunk, length)
                           : hunkravy_state_decrypt_in_place_unverified(state, chunk, length);
        if (code != HUNKRAVY_OK || (out != NULL && fwrite(chunk, 1, length, out) != length)) {
            return -1;
        }
    }
    code = hunkravy_state_decrypt_final(state, NULL, 0, tag, TAG_BYTES);
    return code == HUNKRAVY_OK && !ferror(encrypted) ? 0 : -1;
}

/* Reads an encrypted file once, as read_chunks does. */
static int pass(FILE *out, FILE *encrypted, const uint8_t *key)
{
    uint8_t header[HEADER_BYTES];
    hunkravy_state state;
    int result;

    rewind(encrypted);
    if (fread(header, 1, HEADER_BYTES, encrypted) != HEADER_BYTES ||
        hunkravy_state_init(HUNKRAVY_AEGIS256, &state, NULL, 0, header, NONCE_BYTES, key, KEY_BYTES) != HUNKRAVY_OK) {
        return -1;
    }
    result = read_chunks(&state, out, encrypted, header + NONCE_BYTES);
    hunkravy_wipe(&state, sizeof state);
    return result;
}

/*
 * Writes the message of an encrypted file to `out`. Returns 0, or -1. If the file is forged,
 * nothing was written; but if a file failed, or changed between the passes, discard the output.
 */
static int decrypt_file(FILE *out, FILE *encrypted, const uint8_t *key)
{
    return pass(NULL, encrypted, key) == 0 && pass(out, encrypted, key) == 0 ? 0 : -1;
}

/* Encrypts and decrypts a file of several chunks, and then a changed one. Returns 0 if every step ends as expected. */
static int try_files(FILE *plain, FILE *encrypted, FILE *decrypted, const uint8_t *key)
{
    int byte, i;

    for (i = 0; i < 3 * CHUNK_BYTES + 100; i++) {
        putc(i % 251, plain);
    }
    rewind(plain);
    if (encrypt_file(encrypted, plain, key) != 0 || decrypt_file(decrypted, encrypted, key) != 0) {
        return -1;
    }
    rewind(plain);
    rewind(decrypted);
    while ((byte = getc(plain)) != EOF) {
        if (getc(decrypted) != byte) {
            return -1;
        }
    }
    /* With one byte more at the end it is forged. */
    fseek(encrypted, 0, SEEK_END);
    putc(0, encrypted);
    return decrypt_file(decrypted, encrypted, key) == 0 ? -1 : 0;
}

int main(void)
{
    uint8_t key[KEY_BYTES];
    FILE *plain = tmpfile(), *encrypted = tmpfile(), *decrypted = tmpfile();
    int result;

    if (plain == NULL || encrypted == NULL || decrypted == NULL || getentropy(key, sizeof key) != 0) {
        return EXIT_FAILURE;
    }
    result = try_files(plain, encrypted, decrypted, key);
    hunkravy_wipe(key, sizeof key);
    if (result != 0) {
        return EXIT_FAILURE;
    }
    puts("hunkravy: the file was decrypted in chunks, and the changed file was rejected");
    return EXIT_SUCCESS;
}
