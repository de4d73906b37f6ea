/*
 * The corpus of testkit/corpus: record streams, sealed files and random-access files, and what opening them returns. It runs
 * in the top folder of the repository.
 */
#ifndef _DEFAULT_SOURCE
#define _DEFAULT_SOURCE
#endif
#include "check.h"
#include "hunkravy_file.h"

#include <unistd.h>

#define PREFIX ((size_t)HUNKRAVY_RECORD_PREFIX_BYTES)
#define HEADER ((size_t)HUNKRAVY_RECORD_HEADER_BYTES)

/* A case. A field that its text does not have is empty. */
struct corpus_case {
    char name[200], variant[20], result[2 * MOST_BYTES];
    struct bytes key, prefix, context, stream, file, journal, commitment;
};

/* Reads a line into the field that it names. */
static void read_field(struct corpus_case *one, char *line)
{
    const struct {
        const char *name;
        struct bytes *field;
        char *text;
    } fields[] = {{"key", &one->key, NULL}, {"prefix", &one->prefix, NULL}, {"context", &one->context, NULL},
        {"stream", &one->stream, NULL}, {"file", &one->file, NULL}, {"journal", &one->journal, NULL},
        {"commitment", &one->commitment, NULL}, {"case", NULL, one->name}, {"variant", NULL, one->variant},
        {"result", NULL, one->result}};
    char *text = strstr(line, ": ");
    HOLDS(text != NULL);
    *text = '\0';
    for (size_t i = 0; i < COUNT(fields); i++) {
        if (strcmp(line, fields[i].name) == 0) {
            if (fields[i].field != NULL) {
                read_bytes(fields[i].field, text + 2);
            } else {
                strcpy(fields[i].text, text + 2);
            }
            return;
        }
    }
    HOLDS(!"a field's name");
}

/* Reads the contents of a result, in chunks, and returns whether it has any, or an error. */
static int read_contents(struct corpus_case *one, struct bytes *contents)
{
    int is_ok = strncmp(one->result, "ok", 2) == 0;
    for (char *at = one->result + 3; is_ok && (at = strchr(at, ' ')) != NULL;) {
        *at = ',';
    }
    if (is_ok) {
        read_bytes(contents, one->result[2] == '\0' ? "" : one->result + 3);
    }
    return is_ok;
}

/* ---- Record streams and sealed files */

/* Opens a stream, and compares its messages. */
static void check_stream(
    struct corpus_case *one, const uint8_t *prefix, const struct bytes *context, const uint8_t *stream, size_t length)
{
    static struct bytes found, expected;
    hunkravy_record_stream st;
    char fault[40] = "header";
    found.length = found.chunk_count = 0;
    if (length >= HEADER &&
        hunkravy_record_begin_open(&st, one->key.at, prefix, context->at, context->length, stream) == HUNKRAVY_OK) {
        open_records(&st, stream + HEADER, length - HEADER, &found, fault);
    }
    if (!read_contents(one, &expected)) {
        HOLDS(strcmp(fault, one->result) == 0);
        return;
    }
    if (one->stream.length == 0) {
        /* A sealed file has no more of its pieces than their contents. */
        found.chunk_count = 1;
        found.chunks[0] = found.length;
    }
    HOLDS(fault[0] == '\0' && are_same_chunks(&found, &expected));
}

static void check_records(struct corpus_case *one)
{
    /* A stream of version 1 is none that the library knows. */
    if (one->stream.length >= HEADER && memcmp(one->stream.at, "AGR1", HEADER) == 0) {
        strcpy(one->result, "header");
    }
    check_stream(one, one->prefix.at, &one->context, one->stream.at, one->stream.length);
}

/* A sealed file is a prefix and a stream of its own context. */
static void check_sealed(struct corpus_case *one)
{
    size_t prefix = one->file.length < PREFIX ? one->file.length : PREFIX;
    read_bytes(&one->context, "68756e6b72617679207631");
    check_stream(one, one->file.at, &one->context, one->file.at + prefix, one->file.length - prefix);
}

/* ---- Random-access files */

static void write_file(const char *path, const struct bytes *field)
{
    FILE *file = fopen(path, "w");
    HOLDS(file != NULL && fwrite(field->at, 1, field->length, file) == field->length && fclose(file) == 0);
}

static int has_bytes(const char *path, const struct bytes *field)
{
    static uint8_t found[MOST_BYTES + 1];
    FILE *file = fopen(path, "r");
    size_t length = file == NULL ? 0 : fread(found, 1, sizeof found, file);
    HOLDS(file == NULL || fclose(file) == 0);
    return length == field->length && are_equal(found, field->at, length);
}

/* Opens and reads a file. Returns the name of its error, or a null pointer after it has compared the contents. */
static const char *open_pages(struct corpus_case *one, const char *path, hunkravy_file **file)
{
    static struct bytes found, expected;
    uint8_t mac[HUNKRAVY_FILE_COMMITMENT_BYTES];
    int code = hunkravy_file_open(file, path, variant_of(one->variant)->number, one->key.at, one->key.length);
    if (code != HUNKRAVY_OK) {
        HOLDS(code == HUNKRAVY_NO_FILE || code == HUNKRAVY_WRONG_JOURNAL);
        return code == HUNKRAVY_NO_FILE ? "header" : "journal";
    }
    HOLDS(hunkravy_file_size(*file) <= MOST_BYTES);
    code = hunkravy_file_read(*file, 0, found.at, MOST_BYTES, &found.length);
    if (code != HUNKRAVY_OK) {
        HOLDS(code == HUNKRAVY_DAMAGED_PAGE);
        return "damaged";
    }
    HOLDS(read_contents(one, &expected) && found.length == expected.length);
    HOLDS(memcmp(found.at, expected.at, found.length) == 0);
    HOLDS(hunkravy_file_commitment(*file, mac) == HUNKRAVY_OK && one->commitment.length == sizeof mac);
    HOLDS(memcmp(mac, one->commitment.at, sizeof mac) == 0);
    return NULL;
}

static void check_pages(struct corpus_case *one)
{
    char folder[] = "/tmp/check_corpus-XXXXXX", path[80], journal[80], text[40];
    const char *error;
    hunkravy_file *file;

    HOLDS(mkdtemp(folder) != NULL);
    snprintf(path, sizeof path, "%s/file", folder);
    snprintf(journal, sizeof journal, "%s/file.journal", folder);
    write_file(path, &one->file);
    write_file(journal, &one->journal);
    error = open_pages(one, path, &file);
    if (error != NULL && file != NULL) {
        /* A page that is missing is damaged. */
        error = strncmp(one->result, "missing", 7) == 0 ? "missing" : error;
        snprintf(text, sizeof text, "%s %llu", error, (unsigned long long)hunkravy_file_damaged_page(file));
        HOLDS(strcmp(one->result, text) == 0);
    } else if (error != NULL) {
        HOLDS(strcmp(one->result, error) == 0 && has_bytes(path, &one->file) && has_bytes(journal, &one->journal));
    }
    HOLDS(hunkravy_file_close(file) == HUNKRAVY_OK && unlink(path) == 0);
    (void)unlink(journal);
    HOLDS(rmdir(folder) == 0);
}

/* ---- The cases */

static size_t check_all(const char *name, void (*check)(struct corpus_case *))
{
    static struct corpus_case one;
    static char line[3 * MOST_BYTES];
    char path[80];
    size_t count = 0;
    FILE *file;

    snprintf(path, sizeof path, "testkit/corpus/%s.txt", name);
    file = fopen(path, "r");
    HOLDS(file != NULL);
    for (int is_left = 1; is_left;) {
        is_left = fgets(line, sizeof line, file) != NULL;
        line[strcspn(line, "\n")] = '\0';
        if (is_left && line[0] != '\0') {
            read_field(&one, line);
            continue;
        }
        snprintf(row, sizeof row, "%s: %s", name, one.name);
        check(&one);
        memset(&one, 0, sizeof one);
        count++;
    }
    HOLDS(fclose(file) == 0);
    return count;
}

int main(void)
{
    size_t records, sealed, pages;
    records = check_all("records", check_records);
    sealed = check_all("sealed", check_sealed);
    pages = check_all("random-access", check_pages);
    HOLDS(records >= 70 && sealed >= 30 && pages >= 110);
    printf("the corpus: %zu record streams, %zu sealed files, %zu random-access files\n", records, sealed, pages);
    return EXIT_SUCCESS;
}
