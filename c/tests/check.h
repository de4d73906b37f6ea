/* What the test programs of this folder share: results, bytes, the variants and the stored lines. */
#ifndef CHECK_H
#define CHECK_H

#include "hunkravy.h"
#include "hunkravy_pages.h"
#include "hunkravy_records.h"

#include <errno.h>
#include <stdio.h>
#include <stdlib.h>
#include <string.h>

#define MOST_BYTES ((size_t)1 << 17)
#define MOST_CHUNKS 1024
#define MOST_FIELDS 8
#define TAG_BYTES 32
#define COUNT(values) (sizeof(values) / sizeof(values)[0])

/* ---- Ending the program at the first wrong result */

static unsigned long checks;
/* The row of a table that is checked, if there is any. */
static char row[240];

static inline void holds(int fact, const char *what, const char *file, int line)
{
    checks++;
    if (!fact) {
        fprintf(stderr, "%s:%d: not so: %s%s%s\n", file, line, what, row[0] == '\0' ? "" : ", in ", row);
        exit(EXIT_FAILURE);
    }
}

#define HOLDS(fact) holds(fact, #fact, __FILE__, __LINE__)

/* ---- Bytes */

/* Where the two buffers of a call lie in one: at the same place, and overlapping. */
static const struct { size_t from, to; } PLACES[] = {{0, 0}, {0, 1}, {1, 0}};

static inline int all_are(const void *bytes, size_t length, uint8_t value)
{
    const uint8_t *at = (const uint8_t *)bytes;

    for (size_t i = 0; i < length; i++) {
        if (at[i] != value) {
            return 0;
        }
    }
    return 1;
}

/* Compares bytes. Unlike memcmp it takes null pointers for no bytes. */
static inline int are_equal(const void *one, const void *other, size_t length)
{
    return length == 0 || memcmp(one, other, length) == 0;
}

/*
 * Returns memory of just this length, so that a sanitizer reports each access beyond it. For no
 * bytes it returns a null pointer, which each call has to take.
 */
static inline uint8_t *filled(size_t length, uint8_t value)
{
    uint8_t *bytes = NULL;

    if (length != 0) {
        bytes = (uint8_t *)malloc(length);
        HOLDS(bytes != NULL);
        memset(bytes, value, length);
    }
    return bytes;
}

static inline uint8_t *copied(const void *bytes, size_t length)
{
    uint8_t *copy = filled(length, 0);

    if (length != 0) {
        memcpy(copy, bytes, length);
    }
    return copy;
}

/* Random numbers, the same in each run. */
static inline uint64_t next_number(void)
{
    static uint64_t seed = UINT64_C(0x9e3779b97f4a7c15);
    seed ^= seed << 13;
    seed ^= seed >> 7;
    seed ^= seed << 17;
    return seed;
}

static inline void fill(uint8_t *bytes, size_t length)
{
    for (size_t i = 0; i < length; i++) {
        bytes[i] = (uint8_t)(next_number() >> 32);
    }
}

static inline void change_a_bit(uint8_t *bytes, size_t length)
{
    bytes[next_number() % length] ^= (uint8_t)(1 << next_number() % 8);
}

/* ---- The variants */

struct variant {
    const char *name;
    uint32_t number;
    size_t key_bytes;
};

static const struct variant VARIANTS[6] = {
    {"aegis128l", HUNKRAVY_AEGIS128L, 16},   {"aegis128x2", HUNKRAVY_AEGIS128X2, 16},
    {"aegis128x4", HUNKRAVY_AEGIS128X4, 16}, {"aegis256", HUNKRAVY_AEGIS256, 32},
    {"aegis256x2", HUNKRAVY_AEGIS256X2, 32}, {"aegis256x4", HUNKRAVY_AEGIS256X4, 32},
};

static inline const struct variant *variant_of(const char *name)
{
    for (size_t i = 0; i < COUNT(VARIANTS); i++) {
        if (strcmp(VARIANTS[i].name, name) == 0) {
            return &VARIANTS[i];
        }
    }
    HOLDS(!"a variant's name");
    return NULL;
}

/* ---- The stored lines */

/* Bytes, and the lengths of the chunks that they are cut into: at commas. A run of zeros may be its length in parentheses. */
struct bytes {
    uint8_t at[MOST_BYTES];
    size_t length;
    size_t chunks[MOST_CHUNKS];
    size_t chunk_count;
};

/*
 * A line of the line program, and its answer. A record stream has no variant. Its prefix is in
 * `nonce`, and its context in `ad`.
 */
struct line {
    char command[16];
    const struct variant *variant;
    size_t number; /* of the tag's bytes, or of the keystream's */
    struct bytes key, nonce, ad, text, tag;
    const char *refusal; /* or a null pointer */
    struct bytes answer[2];
};

static inline void read_bytes(struct bytes *bytes, const char *field)
{
    size_t start = 0;

    bytes->length = bytes->chunk_count = 0;
    for (;; field++) {
        if (*field == ',' || *field == '\0') {
            HOLDS(bytes->chunk_count < MOST_CHUNKS);
            bytes->chunks[bytes->chunk_count++] = bytes->length - start;
            start = bytes->length;
            if (*field == '\0') {
                return;
            }
        } else if (*field == '(') {
            char *end;
            size_t count = (size_t)strtoul(field + 1, &end, 10);
            HOLDS(*end == ')' && count <= MOST_BYTES - bytes->length);
            memset(bytes->at + bytes->length, 0, count);
            bytes->length += count;
            field = end;
        } else if (*field != '-') {
            const char digits[3] = {field[0], field[1], '\0'};
            HOLDS(bytes->length < MOST_BYTES && field[1] != '\0');
            bytes->at[bytes->length++] = (uint8_t)strtoul(digits, NULL, 16);
            field++;
        }
    }
}

/* Cuts a line of text at its spaces. */
static inline size_t split(char *text, char **words)
{
    size_t count = 0;
    char *word = strtok(text, " \n");
    for (; word != NULL && count < MOST_FIELDS; word = strtok(NULL, " \n")) {
        words[count++] = word;
    }
    return count;
}

static inline int is_command(const struct line *line, const char *command)
{
    return strcmp(line->command, command) == 0;
}

static inline void read_line(struct line *line, char *text)
{
    char none[] = "", *words[MOST_FIELDS] = {none}, **word = words;

    split(text, words);
    line->ad.length = line->text.length = 0;
    snprintf(line->command, sizeof line->command, "%s", *word++);
    if (!is_command(line, "sealrec") && !is_command(line, "openrec")) {
        line->variant = variant_of(*word++);
    }
    if (is_command(line, "seal") || is_command(line, "open") || is_command(line, "mac")) {
        line->number = (size_t)strtoul(*word++, NULL, 10);
    }
    read_bytes(&line->key, *word++);
    read_bytes(&line->nonce, *word++);
    if (is_command(line, "stream")) {
        line->number = (size_t)strtoul(*word, NULL, 10);
        return;
    }
    if (!is_command(line, "xor") && !is_command(line, "mac")) {
        read_bytes(&line->ad, *word++);
    }
    read_bytes(&line->text, *word++);
    if (is_command(line, "open")) {
        read_bytes(&line->tag, *word);
    }
}

static inline void read_answer(struct line *line, char *text)
{
    char none[] = "", *words[MOST_FIELDS] = {none};
    size_t count, first;

    line->refusal = NULL;
    if (strncmp(text, "invalid", 7) == 0 || strncmp(text, "refused", 7) == 0) {
        line->refusal = text;
        return;
    }
    count = split(text, words);
    first = strcmp(words[0], "ok") == 0;
    for (size_t i = first; i < count; i++) {
        read_bytes(&line->answer[i - first], words[i]);
    }
}

/*
 * Calls `check` with each line of FOLDER/NAME.in that the line program understands, and its answer
 * of FOLDER/NAME.out. Returns how many there are.
 */
static inline size_t for_each_line(const char *folder, const char *name,
                                   void (*check)(const struct line *))
{
    static char text[4 * MOST_BYTES], answer[4 * MOST_BYTES];
    static struct line line;
    char path[2][1024];
    FILE *lines, *answers;
    size_t count = 0;

    snprintf(path[0], sizeof path[0], "%s/%s.in", folder, name);
    snprintf(path[1], sizeof path[1], "%s/%s.out", folder, name);
    lines = fopen(path[0], "r");
    answers = fopen(path[1], "r");
    HOLDS(lines != NULL && answers != NULL);
    while (fgets(text, sizeof text, lines) != NULL) {
        HOLDS(fgets(answer, sizeof answer, answers) != NULL);
        answer[strcspn(answer, "\n")] = '\0';
        if (strncmp(answer, "error", 5) != 0) {
            read_line(&line, text);
            read_answer(&line, answer);
            check(&line);
            count++;
        }
    }
    fclose(lines);
    fclose(answers);
    HOLDS(count > 0);
    return count;
}

/* ---- Random-access files */

/* Whether a code is the result that the tables of testkit name so. */
static inline int has_result(int code, const char *name)
{
    static const struct {
        int code;
        const char *name;
    } results[] = {{0, "ok"}, {0, "trusted"}, {EINVAL, "rejected"}, {ENOSPC, "no-room"},
                   {HUNKRAVY_FILE_MOVED, "moved"}, {HUNKRAVY_FILE_LOCKED, "locked"},
                   {HUNKRAVY_WRONG_JOURNAL, "wrong-journal"}, {HUNKRAVY_OPEN_BATCH, "open-batch"},
                   {HUNKRAVY_WRONG_STATE, "wrong-state"}, {HUNKRAVY_FILE_TOO_LONG, "too-long"}};
    for (size_t i = 0; i < COUNT(results); i++) {
        if (strcmp(results[i].name, name) == 0) {
            return code == results[i].code;
        }
    }
    return strcmp(name, "failed") == 0 && code > 0;
}

/* ---- Record streams */

/*
 * Opens the records of a stream that was begun, and adds their messages to `found`. `fault` becomes what is wrong, as
 * testkit/corpus names it, or no text.
 */
static inline void open_records(
    hunkravy_record_stream *st, const uint8_t *bytes, size_t left, struct bytes *found, char *fault)
{
    static uint8_t record[MOST_BYTES];
    size_t length = 0, message;
    int is_last = 0;

    for (fault[0] = '\0'; !is_last; bytes += length, left -= length) {
        int code = left < HUNKRAVY_RECORD_HEAD_BYTES ? HUNKRAVY_OK : hunkravy_record_len(st, bytes, &length);
        if (left > 0 && bytes[0] > 1) {
            strcpy(fault, "flag");
        } else if (code == HUNKRAVY_MESSAGE_TOO_LONG) {
            strcpy(fault, "too-long");
        } else if (left < HUNKRAVY_RECORD_HEAD_BYTES || left < length) {
            strcpy(fault, "truncated");
        } else {
            memcpy(record, bytes, length);
            if (hunkravy_record_open(st, record, length, &message, &is_last) != HUNKRAVY_OK) {
                sprintf(fault, "damaged %lu", (unsigned long)found->chunk_count);
            }
        }
        if (fault[0] != '\0') {
            return;
        }
        memcpy(found->at + found->length, record + HUNKRAVY_RECORD_HEAD_BYTES, message);
        found->length += message;
        found->chunks[found->chunk_count++] = message;
    }
    strcpy(fault, left != 0 ? "trailing" : "");
}

static inline int are_same_chunks(const struct bytes *one, const struct bytes *other)
{
    return one->length == other->length && memcmp(one->at, other->at, one->length) == 0 &&
        one->chunk_count == other->chunk_count &&
        memcmp(one->chunks, other->chunks, one->chunk_count * sizeof one->chunks[0]) == 0;
}

#endif
