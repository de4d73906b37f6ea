/*
 * Random-access files. The calls of testkit/batches.txt are made, and random ones to a file and to a model of it, in which each
 * allocation fails by turns. The tests of the Cargo package run over this engine too, and testkit/disk tests what crashes leave.
 */
#ifndef _DEFAULT_SOURCE
#define _DEFAULT_SOURCE
#endif
#include "check.h"
#include "hunkravy_file.h"

#include <errno.h>
#include <fcntl.h>
#include <unistd.h>

static const uint8_t key[HUNKRAVY_AEGIS256_KEY_BYTES] = {7, 7, 7};

static uint64_t draw(uint64_t below)
{
    return next_number() % below;
}

/* ---- Allocations that fail, if the program is linked with --wrap */

static long allocations_left = -1;

void *__real_malloc(size_t length) __attribute__((weak));
void *__real_calloc(size_t count, size_t length) __attribute__((weak));
void *__wrap_malloc(size_t length);
void *__wrap_calloc(size_t count, size_t length);

static int is_refused(void)
{
    return allocations_left >= 0 && allocations_left-- == 0;
}

void *__wrap_malloc(size_t length)
{
    /* A sanitizer ends the program for so much. */
    int is_too_much = length >> 40 != 0;
    void *memory = is_refused() || is_too_much ? NULL : __real_malloc(length);
    if (memory == NULL) {
        errno = ENOMEM;
    } else if (length < 5000) {
        /* So that a page which keeps any of this is found. */
        memset(memory, 0xdd, length);
    }
    return memory;
}

void *__wrap_calloc(size_t count, size_t length)
{
    return is_refused() ? (errno = ENOMEM, (void *)NULL) : __real_calloc(count, length);
}

/* ---- A storage that may be full */

enum { MOST_STORED = 1 << 17 };

struct part {
    size_t length;
    uint8_t bytes[MOST_STORED];
};

struct disk {
    struct part part[2];
    int is_full;
};

static int disk_read(void *context, enum hunkravy_part which, uint64_t place, uint8_t *bytes, size_t length)
{
    const struct part *part = &((struct disk *)context)->part[which];
    if (place > part->length || length > part->length - place) {
        return HUNKRAVY_DAMAGED_PAGE;
    }
    memcpy(bytes, part->bytes + place, length);
    return 0;
}

static int disk_write(void *context, enum hunkravy_part which, uint64_t place, const uint8_t *bytes, size_t length)
{
    struct disk *disk = (struct disk *)context;
    struct part *part = &disk->part[which];
    HOLDS(place + length <= MOST_STORED);
    if (disk->is_full && place + length > part->length) {
        return ENOSPC;
    }
    if (place > part->length) {
        memset(part->bytes + part->length, 0, place - part->length);
    }
    memcpy(part->bytes + place, bytes, length);
    part->length = place + length > part->length ? place + length : part->length;
    return 0;
}

static int disk_size(void *context, enum hunkravy_part which, uint64_t *size)
{
    *size = ((struct disk *)context)->part[which].length;
    return 0;
}

static int disk_resize(void *context, enum hunkravy_part which, uint64_t size)
{
    HOLDS(which == HUNKRAVY_PART_JOURNAL && size == 0);
    ((struct disk *)context)->part[which].length = 0;
    return 0;
}

static int disk_sync(void *context, enum hunkravy_part which)
{
    (void)context;
    (void)which;
    return 0;
}

static int disk_random(void *context, uint8_t *bytes, size_t length)
{
    (void)context;
    fill(bytes, length);
    return 0;
}

/* A storage with no more functions than it has to have. */
static struct hunkravy_storage over(struct disk *disk)
{
    struct hunkravy_storage storage = {disk, disk_read, disk_write, disk_size, disk_resize, disk_sync, NULL, NULL, NULL,
        NULL, NULL, disk_random, NULL};
    return storage;
}

/* ---- A file and its model */

enum { MOST_CONTENTS = 1 << 14 };

struct model {
    size_t length;
    uint8_t bytes[MOST_CONTENTS];
};

static void check_equal(hunkravy_file *file, const struct model *model)
{
    static uint8_t found[MOST_CONTENTS + 1];
    size_t length = 0, from = model->length == 0 ? 0 : draw(model->length), count = draw(2000);
    HOLDS(hunkravy_file_size(file) == model->length);
    HOLDS(hunkravy_file_read(file, 0, found, sizeof found, &length) == 0 && length == model->length);
    HOLDS(memcmp(found, model->bytes, length) == 0);
    HOLDS(hunkravy_file_read(file, from, found, count, &length) == 0);
    HOLDS(length == (count < model->length - from ? count : model->length - from));
    HOLDS(memcmp(found, model->bytes + from, length) == 0);
}

static void set_length(struct model *model, size_t length)
{
    if (length > model->length) {
        memset(model->bytes + model->length, 0, length - model->length);
    }
    model->length = length;
}

/* Makes a random change, and returns its result. If it is made, the model has it too. */
static int change(hunkravy_file *file, struct model *model, size_t most)
{
    static uint8_t data[2000];
    size_t place = draw(most), length = draw(draw(4) ? 300 : sizeof data);
    int code;
    if (draw(6) == 0) {
        code = hunkravy_file_truncate(file, place);
        if (code == 0) {
            set_length(model, place);
        }
        return code;
    }
    memset(data, (int)draw(256), length);
    code = hunkravy_file_write(file, place, data, length);
    if (code == 0 && (length != 0 || place > model->length)) {
        if (place + length > model->length) {
            set_length(model, place + length);
        }
        memcpy(model->bytes + place, data, length);
    }
    return code;
}

/* ---- The bytes of a page */

/* After the contents a page has zeros, and nothing of the memory that it was made in. */
static void check_zeros(void)
{
    static struct disk disk;
    struct hunkravy_storage storage = over(&disk);
    uint8_t *page = disk.part[HUNKRAVY_PART_FILE].bytes + HUNKRAVY_PAGE_FIRST, id[HUNKRAVY_PAGE_ID_BYTES];
    uint64_t counter, length;
    uint32_t size;
    hunkravy_file *file;

    HOLDS(hunkravy_file_create_in(&file, &storage, HUNKRAVY_AEGIS256, key, sizeof key, 256) == 0);
    HOLDS(hunkravy_file_write(file, 2, "contents", 8) == 0 && hunkravy_file_close(file) == 0);
    HOLDS(hunkravy_page_header_open(HUNKRAVY_AEGIS256, disk.part[HUNKRAVY_PART_FILE].bytes, key, sizeof key, &size, id,
              &counter, &length) == 0);
    HOLDS(counter == 1 && length == 10 && size == 256);
    HOLDS(hunkravy_page_open(HUNKRAVY_AEGIS256, page, sizeof key + 256 + TAG_BYTES, id, 0, key, sizeof key) == 0);
    HOLDS(memcmp(page + sizeof key, "\0\0contents", 10) == 0 && all_are(page + sizeof key + 10, 246, 0));
}

/* ---- The table of batches */

/* The file of a scene, and its batches: those that no line has named yet are from `first` up to `last`. */
struct scene {
    struct disk disk;
    hunkravy_file *file;
    uint64_t batches[8], ended;
    int first, last, line;
};

static void kill_scene(struct scene *scene)
{
    if (scene->file != NULL) {
        hunkravy_file_discard(scene->file);
        HOLDS(hunkravy_file_close(scene->file) == 0);
    }
    scene->file = NULL;
}

static void begin_scene(struct scene *scene)
{
    struct hunkravy_storage storage = over(&scene->disk);
    kill_scene(scene);
    memset(&scene->disk, 0, sizeof scene->disk);
    scene->first = scene->last = 0;
    HOLDS(hunkravy_file_create_in(&scene->file, &storage, HUNKRAVY_AEGIS256, key, sizeof key, 0) == 0);
}

/* Compares contents with the hexadecimal bytes of a line. */
static int has_contents(hunkravy_file *file, const char *expected)
{
    static struct bytes bytes;
    uint8_t found[64];
    size_t length = 0;
    read_bytes(&bytes, expected);
    HOLDS(hunkravy_file_read(file, 0, found, sizeof found, &length) == 0 && length == hunkravy_file_size(file));
    return length == bytes.length && memcmp(found, bytes.at, length) == 0;
}

static int has_stored(struct disk disk, const char *expected)
{
    struct hunkravy_storage storage = over(&disk);
    hunkravy_file *file;
    disk.is_full = 0;
    HOLDS(hunkravy_file_open_in(&file, &storage, HUNKRAVY_AEGIS256, key, sizeof key) == 0);
    return has_contents(file, expected) && hunkravy_file_close(file) == 0;
}

/* Takes the number of the batch that a line names. */
static uint64_t named_batch(struct scene *scene, int is_outer)
{
    if (scene->first == scene->last) {
        return scene->ended;
    }
    return scene->ended = scene->batches[is_outer ? scene->first++ : --scene->last];
}

/* Makes the call of a line, which has these words, and returns its code. */
static int made(struct scene *scene, char **words)
{
    static struct bytes data;
    hunkravy_file *file = scene->file;
    const char *call = words[0];
    uint64_t number = words[1] == NULL ? 0 : strtoull(words[1], NULL, 10);
    if (strcmp(call, "begin") == 0) {
        return hunkravy_file_begin(file, &scene->batches[scene->last++]);
    }
    if (strncmp(call, "end", 3) == 0) {
        return hunkravy_file_end(file, named_batch(scene, call[3] == '-'));
    }
    if (strcmp(call, "write") == 0) {
        read_bytes(&data, words[2]);
        return hunkravy_file_write(file, number, data.at, data.length);
    }
    if (strcmp(call, "truncate") == 0) {
        return hunkravy_file_truncate(file, number);
    }
    if (strcmp(call, "commit") == 0) {
        return hunkravy_file_commit(file);
    }
    if (strcmp(call, "close") == 0) {
        scene->file = NULL;
        return hunkravy_file_close(file);
    }
    if (strncmp(call, "undo", 4) == 0) {
        hunkravy_file_undo(file, named_batch(scene, call[4] == '-'));
    } else {
        HOLDS(strcmp(call, "discard") == 0);
        hunkravy_file_discard(file);
    }
    return 0;
}

static int is_right_line(struct scene *scene, char **words, size_t count)
{
    if (strstr(words[0], "room") != NULL) {
        scene->disk.is_full = words[0][0] == 'n';
        return 1;
    }
    if (strcmp(words[0], "contents") == 0) {
        return has_contents(scene->file, words[1]);
    }
    return strcmp(words[0], "stored") == 0 ? has_stored(scene->disk, words[1])
                                           : has_result(made(scene, words), words[count - 1]);
}

static void check_batches(void)
{
    static struct scene scene;
    FILE *table = fopen("testkit/batches.txt", "r");
    char line[200], *words[MOST_FIELDS];
    unsigned long scenes = 0;
    size_t count;

    HOLDS(table != NULL);
    while (fgets(line, sizeof line, table) != NULL) {
        snprintf(row, sizeof row, "testkit/batches.txt:%d", ++scene.line);
        if (line[0] == '[') {
            begin_scene(&scene);
            scenes++;
        } else if (line[0] != '#' && (count = split(line, words)) > 0) {
            HOLDS(is_right_line(&scene, words, count));
        }
    }
    row[0] = '\0';
    kill_scene(&scene);
    HOLDS(fclose(table) == 0 && scenes > 20);
}

/* ---- Memory that runs out */

/* Opens the file again, once there are enough allocations for it. */
static void open_with_few_allocations(hunkravy_file **file, struct hunkravy_storage *storage, unsigned long *refused)
{
    int code;

    allocations_left = (long)draw(6);
    while ((code = hunkravy_file_open_in(file, storage, HUNKRAVY_AEGIS256, key, sizeof key)) != 0) {
        HOLDS(code == ENOMEM && *file == NULL);
        (*refused)++;
        allocations_left = (long)draw(6);
    }
}

/* Two changes in a batch, which ends or is undone. */
static int change_in_batch(hunkravy_file *file, struct model *model)
{
    static struct model saved;
    uint64_t batch;
    int code;

    saved = *model;
    code = hunkravy_file_begin(file, &batch);
    if (code == 0) {
        (void)!change(file, model, 12000);
        (void)!change(file, model, 12000);
        if (draw(2) || hunkravy_file_end(file, batch) != 0) {
            hunkravy_file_undo(file, batch);
            *model = saved;
        }
    }
    return code;
}

static void check_memory(void)
{
    static struct disk disk;
    static struct model model;
    struct hunkravy_storage storage = over(&disk);
    hunkravy_file *file = NULL;
    unsigned long refused = 0;

    if (__real_malloc == NULL) {
        return;
    }
    HOLDS(hunkravy_file_create_in(&file, &storage, HUNKRAVY_AEGIS256, key, sizeof key, 256) == 0);
    for (int turn = 0; turn < 20000; turn++) {
        uint64_t kind = draw(8);
        int code = 0;
        allocations_left = (long)draw(12);
        if (kind < 4) {
            code = change(file, &model, 12000);
        } else if (kind == 4) {
            code = hunkravy_file_commit(file);
        } else if (kind == 5) {
            code = change_in_batch(file, &model);
        } else {
            allocations_left = -1;
            HOLDS(hunkravy_file_commit(file) == 0 && hunkravy_file_close(file) == 0);
            open_with_few_allocations(&file, &storage, &refused);
        }
        HOLDS(code == 0 || code == ENOMEM);
        refused += code == ENOMEM;
        allocations_left = -1;
        check_equal(file, &model);
    }
    HOLDS(hunkravy_file_commit(file) == 0 && hunkravy_file_close(file) == 0);
    printf("refused allocations: %lu\n", refused);
}

/* ---- Files of the system */

/* A long journal of another file is rejected before there is memory for it, and so is another key. A page that is cut off is
   damaged. */
static void check_rejected(const char *path, const char *journal)
{
    hunkravy_file *file;
    uint8_t bytes[5];
    size_t length;
    int fd = open(journal, O_WRONLY | O_CREAT | O_EXCL, 0600);

    HOLDS(fd >= 0 && ftruncate(fd, (off_t)1 << 40) == 0 && close(fd) == 0);
    HOLDS(hunkravy_file_open(&file, path, HUNKRAVY_AEGIS256, key, sizeof key) == HUNKRAVY_WRONG_JOURNAL);
    HOLDS(hunkravy_file_open(&file, path, HUNKRAVY_AEGIS128L, key, 16) == HUNKRAVY_NO_FILE && unlink(journal) == 0);
    HOLDS(truncate(path, 5000) == 0 && hunkravy_file_open(&file, path, HUNKRAVY_AEGIS256, key, sizeof key) == 0);
    HOLDS(hunkravy_file_read(file, 0, bytes, sizeof bytes, &length) == HUNKRAVY_DAMAGED_PAGE && length == 0);
    HOLDS(hunkravy_file_damaged_page(file) == 0 && hunkravy_file_close(file) == 0);
    HOLDS(hunkravy_file_open(&file, path, HUNKRAVY_AEGIS128L, key, 16) == HUNKRAVY_NO_FILE);
}

static void check_system(void)
{
    static struct model model;
    char folder[] = "/tmp/check_file-XXXXXX", path[80], journal[90];
    hunkravy_file *file, *second;
    uint8_t mac[2][HUNKRAVY_FILE_COMMITMENT_BYTES];
    uint64_t batch;

    HOLDS(mkdtemp(folder) != NULL);
    snprintf(path, sizeof path, "%s/file", folder);
    snprintf(journal, sizeof journal, "%s.journal", path);
    HOLDS(hunkravy_file_open(&file, path, HUNKRAVY_AEGIS256, key, sizeof key) == ENOENT && file == NULL);
    HOLDS(hunkravy_file_create(&file, path, 6, key, sizeof key, 0) == HUNKRAVY_WRONG_VARIANT);
    HOLDS(hunkravy_file_create(&file, path, HUNKRAVY_AEGIS256, key, 16, 0) == HUNKRAVY_WRONG_KEY_LENGTH);
    HOLDS(hunkravy_file_create(&file, path, HUNKRAVY_AEGIS256, key, sizeof key, 255) == HUNKRAVY_WRONG_PAGE_SIZE);
    HOLDS(access(path, F_OK) != 0 && hunkravy_file_close(NULL) == 0);
    for (long left = 0, code = ENOMEM; code != 0; left++) {
        HOLDS(access(path, F_OK) != 0 && left < 20);
        allocations_left = left;
        code = hunkravy_file_create(&file, path, HUNKRAVY_AEGIS256, key, sizeof key, 0);
        allocations_left = -1;
        HOLDS(code == (file == NULL ? ENOMEM : 0));
    }
    HOLDS(hunkravy_file_create(&second, path, HUNKRAVY_AEGIS256, key, sizeof key, 0) == EEXIST);
    for (int i = 0; i < 200; i++) {
        HOLDS(change(file, &model, 12000) == 0);
        HOLDS(draw(20) != 0 || hunkravy_file_commit(file) == 0);
        check_equal(file, &model);
    }
    HOLDS(hunkravy_file_open_batches(file) == 0 && hunkravy_file_begin(file, &batch) == 0);
    HOLDS(hunkravy_file_open_batches(file) == 1 && hunkravy_file_end(file, batch) == 0);
    HOLDS(hunkravy_file_open_batches(file) == 0);
    HOLDS(hunkravy_file_write(file, UINT64_MAX, "x", 1) == HUNKRAVY_FILE_TOO_LONG);
    HOLDS(hunkravy_file_write(file, UINT64_C(1) << 59, "x", 1) == ENOMEM);
    /* A change has failed, so closing it would commit nothing. */
    HOLDS(hunkravy_file_commit(file) == 0 && hunkravy_file_commitment(file, mac[0]) == 0);
    HOLDS(hunkravy_file_write(file, 0, "x", 1) == 0);
    model.bytes[0] = 'x';
    check_equal(file, &model);
    HOLDS(hunkravy_file_commit(file) == 0 && hunkravy_file_commitment(file, mac[1]) == 0);
    HOLDS(memcmp(mac[0], mac[1], sizeof mac[0]) != 0 && hunkravy_file_close(file) == 0);
    HOLDS(hunkravy_file_open(&file, path, HUNKRAVY_AEGIS256, key, sizeof key) == 0);
    HOLDS(hunkravy_file_commitment(file, mac[0]) == 0 && memcmp(mac[0], mac[1], sizeof mac[0]) == 0);
    HOLDS(hunkravy_file_close(file) == 0);
    check_rejected(path, journal);
    HOLDS(unlink(path) == 0 && rmdir(folder) == 0);
}

/* The number of a damaged page stays until another one is found. */
static void check_damaged(void)
{
    static uint8_t contents[3 * 4032], zeros[100];
    char folder[] = "/tmp/check_file-XXXXXX", path[80];
    off_t place = (off_t)hunkravy_page_place(HUNKRAVY_AEGIS256, 4032, 1);
    uint8_t byte, mac[HUNKRAVY_FILE_COMMITMENT_BYTES];
    hunkravy_file *file;
    size_t length;
    int fd;

    HOLDS(mkdtemp(folder) != NULL);
    snprintf(path, sizeof path, "%s/file", folder);
    memset(contents, 7, sizeof contents);
    HOLDS(hunkravy_file_create(&file, path, HUNKRAVY_AEGIS256, key, sizeof key, 4032) == 0);
    HOLDS(hunkravy_file_write(file, 0, contents, sizeof contents) == 0 && hunkravy_file_close(file) == 0);
    fd = open(path, O_RDWR);
    HOLDS(fd >= 0 && pread(fd, &byte, 1, place) == 1);
    byte ^= 1;
    HOLDS(pwrite(fd, &byte, 1, place) == 1 && close(fd) == 0);
    HOLDS(hunkravy_file_open(&file, path, HUNKRAVY_AEGIS256, key, sizeof key) == 0);
    HOLDS(hunkravy_file_damaged_page(file) == 0);
    HOLDS(hunkravy_file_read(file, 4032, contents, 1, &length) == HUNKRAVY_DAMAGED_PAGE);
    HOLDS(hunkravy_file_read(file, 0, contents, 1, &length) == 0 && length == 1);
    HOLDS(hunkravy_file_commitment(file, mac) == 0 && hunkravy_file_damaged_page(file) == 1);
    /* What was read before the damaged page is erased. */
    HOLDS(hunkravy_file_read(file, 4000, contents, sizeof zeros, &length) == HUNKRAVY_DAMAGED_PAGE && length == 0);
    HOLDS(memcmp(contents, zeros, sizeof zeros) == 0);
    HOLDS(hunkravy_file_close(file) == 0 && truncate(path, place + 5000) == 0);
    HOLDS(hunkravy_file_open(&file, path, HUNKRAVY_AEGIS256, key, sizeof key) == 0);
    HOLDS(hunkravy_file_commitment(file, mac) == HUNKRAVY_DAMAGED_PAGE && hunkravy_file_damaged_page(file) == 2);
    HOLDS(hunkravy_file_close(file) == 0 && unlink(path) == 0 && rmdir(folder) == 0);
}

static int compare_nonces(const void *one, const void *other)
{
    return memcmp(one, other, HUNKRAVY_AEGIS256_KEY_BYTES);
}

/* The nonces of a commit differ, of however many pages. */
static void check_nonces(void)
{
    enum { PAGES = 9000, PAGE = 256 };
    static uint8_t contents[PAGES * PAGE], nonces[PAGES][HUNKRAVY_AEGIS256_KEY_BYTES];
    char folder[] = "/tmp/check_file-XXXXXX", path[80];
    hunkravy_file *file;
    int fd;

    HOLDS(mkdtemp(folder) != NULL);
    snprintf(path, sizeof path, "%s/file", folder);
    HOLDS(hunkravy_file_create(&file, path, HUNKRAVY_AEGIS256, key, sizeof key, PAGE) == 0);
    HOLDS(hunkravy_file_write(file, 0, contents, sizeof contents) == 0 && hunkravy_file_close(file) == 0);
    fd = open(path, O_RDONLY);
    for (uint64_t i = 0; i < PAGES; i++) {
        off_t place = (off_t)hunkravy_page_place(HUNKRAVY_AEGIS256, PAGE, i);
        HOLDS(pread(fd, nonces[i], sizeof nonces[i], place) == (ssize_t)sizeof nonces[i]);
    }
    HOLDS(close(fd) == 0 && unlink(path) == 0 && rmdir(folder) == 0);
    qsort(nonces, PAGES, sizeof nonces[0], compare_nonces);
    for (size_t i = 1; i < PAGES; i++) {
        HOLDS(compare_nonces(nonces[i - 1], nonces[i]) != 0);
    }
}

int main(void)
{
    check_system();
    check_damaged();
    check_nonces();
    check_batches();
    check_zeros();
    check_memory();
    printf("random-access files: %lu checks\n", checks);
    return EXIT_SUCCESS;
}
