/*
 * program PATH KEY: makes the commands of standard input with a random-access file of AEGIS-256, and answers each with
 * a line. README.md has the commands. With -DTABLE the path is that of the disk, below the functions of a storage.
 */
#include "hunkravy_file.h"
#ifdef TABLE
#include "storage.h"
#endif

#include <errno.h>
#include <stdio.h>
#include <stdlib.h>
#include <string.h>

enum { PAGE_BYTES = 256, MOST = 1 << 17, DEPTH = 8 };

static hunkravy_file *file;
static uint64_t batches[DEPTH];
static int depth;

/* Reads hexadecimal digits. Returns how many bytes they are. */
static size_t parse(const char *digits, uint8_t *bytes)
{
    size_t count = strlen(digits) / 2;
    for (size_t i = 0; i < count; i++) {
        char byte[3] = {digits[2 * i], digits[2 * i + 1], 0};
        bytes[i] = (uint8_t)strtoul(byte, NULL, 16);
    }
    return count;
}

static void print(const uint8_t *bytes, size_t length)
{
    for (size_t i = 0; i < length; i++) {
        putchar("0123456789abcdef"[bytes[i] >> 4]);
        putchar("0123456789abcdef"[bytes[i] & 15]);
    }
}

static int begin(const char *path, const uint8_t *key, int is_new)
{
#ifdef TABLE
    static struct disk *disk;
    if (disk == NULL) {
        disk = disk_map(path);
    }
    struct hunkravy_storage storage = disk_storage(disk, "file");
    return is_new ? hunkravy_file_create_in(&file, &storage, HUNKRAVY_AEGIS256, key, 32, PAGE_BYTES)
                  : hunkravy_file_open_in(&file, &storage, HUNKRAVY_AEGIS256, key, 32);
#else
    return is_new ? hunkravy_file_create(&file, path, HUNKRAVY_AEGIS256, key, 32, PAGE_BYTES)
                  : hunkravy_file_open(&file, path, HUNKRAVY_AEGIS256, key, 32);
#endif
}

/* Makes the command, except those that open a file. */
static int make(const char *command, uint64_t number, const uint8_t *data, size_t length)
{
    static uint8_t contents[MOST];
    if (file == NULL) {
        return strcmp(command, "drop") == 0 ? 0 : EBADF;
    }
    if (strcmp(command, "write") == 0) {
        return hunkravy_file_write(file, number, data, length);
    }
    if (strcmp(command, "truncate") == 0) {
        return hunkravy_file_truncate(file, number);
    }
    if (strcmp(command, "commit") == 0) {
        return hunkravy_file_commit(file);
    }
    if (strcmp(command, "batch") == 0) {
        return depth == DEPTH ? E2BIG : hunkravy_file_begin(file, &batches[depth++]);
    }
    if (strcmp(command, "end") == 0) {
        return hunkravy_file_end(file, batches[--depth]);
    }
    if (strcmp(command, "undo") == 0) {
        hunkravy_file_undo(file, batches[--depth]);
        return 0;
    }
    if (strcmp(command, "contents") == 0) {
        int code = hunkravy_file_read(file, 0, contents, sizeof contents, &length);
        print(contents, length);
        return code;
    }
    if (strcmp(command, "close") == 0 || strcmp(command, "drop") == 0) {
        hunkravy_file *closed = file;
        depth = 0;
        file = NULL;
        if (command[0] == 'd') {
            hunkravy_file_discard(closed);
        }
        return hunkravy_file_close(closed);
    }
    return EINVAL;
}

int main(int argc, char **argv)
{
    static char line[2 * MOST], digits[2 * MOST];
    static uint8_t key[MOST], data[MOST];
    if (argc != 3 || parse(argv[2], key) != 32) {
        return EXIT_FAILURE;
    }
    while (fgets(line, sizeof line, stdin) != NULL) {
        char command[16] = "";
        unsigned long long number = 0;
        digits[0] = 0;
        (void)sscanf(line, "%15s %llu %s", command, &number, digits);
        int opens = strcmp(command, "create") == 0 || strcmp(command, "open") == 0;
        int code = opens ? begin(argv[1], key, command[0] == 'c') : make(command, number, data, parse(digits, data));
        printf(code == 0 ? " ok\n" : " %s\n", hunkravy_file_error_text(code));
        fflush(stdout);
    }
    return EXIT_SUCCESS;
}
