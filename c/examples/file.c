/*
 * Keeps numbered texts in an encrypted file that survives crashes: each change is there as a whole, or not at all. `raf`
 * in Rust and RandomAccessFile in Python read and write the same files.
 *
 *     file KEYFILE FILE NUMBER [TEXT]
 *
 * sets text NUMBER, which may be the next one, or prints it. A text has at most 1,000 bytes. A key file has 32 bytes.
 * cc file.c $(pkg-config --cflags --libs hunkravy)
 */
#include "hunkravy_file.h"

#include <errno.h>
#include <stdio.h>
#include <stdlib.h>
#include <string.h>

enum { TEXT_BYTES = 1000 };

/* Reads the key. A key file of the program hunkravy is longer: it has hexadecimal digits. */
static int get_key(const char *path, uint8_t *key)
{
    FILE *file = fopen(path, "rb");
    int is_read = file != NULL && fread(key, HUNKRAVY_AEGIS256_KEY_BYTES, 1, file) == 1 && fgetc(file) == EOF;
    return file == NULL ? 0 : fclose(file) == 0 && is_read;
}

/* Sets a text, or prints it if there is none. */
static int run(hunkravy_file *file, uint64_t number, const char *text)
{
    char found[TEXT_BYTES + 1] = {0};
    size_t length = 0;
    int code;
    if (number >= hunkravy_file_size(file) / TEXT_BYTES + (text != NULL)) {
        return EINVAL;
    }
    if (text != NULL) {
        memcpy(found, text, strlen(text));
        return hunkravy_file_write(file, number * TEXT_BYTES, found, TEXT_BYTES);
    }
    code = hunkravy_file_read(file, number * TEXT_BYTES, found, TEXT_BYTES, &length);
    return code == HUNKRAVY_OK && puts(found) < 0 ? EIO : code;
}

int main(int count, char **arguments)
{
    uint8_t key[HUNKRAVY_AEGIS256_KEY_BYTES];
    hunkravy_file *file = NULL;
    const char *text = count == 5 ? arguments[4] : NULL;
    int code = EINVAL, closed;
    if ((count != 4 && count != 5) || (text != NULL && strlen(text) > TEXT_BYTES)) {
        fputs("usage: file KEYFILE FILE NUMBER [TEXT]\n", stderr);
        return count > 1 ? EXIT_FAILURE : EXIT_SUCCESS;
    }
    if (get_key(arguments[1], key)) {
        code = hunkravy_file_open(&file, arguments[2], HUNKRAVY_AEGIS256, key, sizeof key);
        if (code == ENOENT && text != NULL) {
            code = hunkravy_file_create(&file, arguments[2], HUNKRAVY_AEGIS256, key, sizeof key, 0);
        }
    }
    hunkravy_wipe(key, sizeof key);
    code = code == HUNKRAVY_OK ? run(file, strtoull(arguments[3], NULL, 10), text) : code;
    /* After an error it commits nothing. */
    closed = hunkravy_file_close(file);
    code = code == HUNKRAVY_OK ? closed : code;
    if (code != HUNKRAVY_OK) {
        fprintf(stderr, "file: %s\n", hunkravy_file_error_text(code));
    }
    return code == HUNKRAVY_OK ? EXIT_SUCCESS : EXIT_FAILURE;
}
