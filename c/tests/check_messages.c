/*
 * The functions for a whole message, of all six variants: the stored lines in each form, wrong lengths, and the texts and
 * constants of the headers. Its parameter is the folder of the stored lines. If the library has one build alone, LEVEL
 * is the level of that. It ends with status 0 only if every result is right.
 */
#include "check.h"

/* ---- The stored lines. Each buffer of a call has its own memory. */

struct given {
    uint32_t variant;
    size_t bytes, adlen, length;
    uint8_t *k, *npub, *ad, *text;
};

static struct given given_of(const struct line *line)
{
    struct given given;
    given.variant = line->variant->number;
    given.bytes = line->variant->key_bytes;
    HOLDS(line->key.length == given.bytes && line->nonce.length == given.bytes);
    given.k = copied(line->key.at, given.bytes);
    given.npub = copied(line->nonce.at, given.bytes);
    given.adlen = line->ad.length;
    given.ad = copied(line->ad.at, given.adlen);
    given.length = line->text.length;
    given.text = copied(line->text.at, given.length);
    return given;
}

static void drop(struct given given)
{
    free(given.k);
    free(given.npub);
    free(given.ad);
    free(given.text);
}

#define KEYS(given) given.npub, given.bytes, given.k, given.bytes
#define CONTEXT(given) given.ad, given.adlen, KEYS(given)

static void check_seal(const struct line *line)
{
    struct given given = given_of(line);
    size_t length = given.length, maclen = line->number;
    const uint8_t *expected = line->answer[0].at, *tag = line->answer[1].at;
    uint8_t *c = filled(length, 0x55), *mac = filled(maclen, 0);
    uint8_t *both = filled(length + maclen, 0x55);

    HOLDS(hunkravy_encrypt(given.variant, c, given.text, length, CONTEXT(given), mac, maclen) == HUNKRAVY_OK);
    HOLDS(are_equal(c, expected, length) && are_equal(mac, tag, maclen));
    HOLDS(hunkravy_encrypt_combined(given.variant, both, given.text, length, CONTEXT(given), maclen) == HUNKRAVY_OK);
    HOLDS(are_equal(both, expected, length) && are_equal(both + length, tag, maclen));
    HOLDS(are_equal(given.text, line->text.at, length));
    memset(mac, 0, maclen);
    HOLDS(hunkravy_encrypt_in_place(given.variant, given.text, length, CONTEXT(given), mac, maclen) == HUNKRAVY_OK);
    HOLDS(are_equal(given.text, expected, length) && are_equal(mac, tag, maclen));
    /* From and to the same pointer. */
    HOLDS(hunkravy_decrypt_combined(given.variant, both, both, length + maclen, CONTEXT(given), maclen) == HUNKRAVY_OK);
    HOLDS(are_equal(both, line->text.at, length));
    for (size_t i = 0; i < COUNT(PLACES); i++) {
        uint8_t *from = both + PLACES[i].from, *to = both + PLACES[i].to;
        memcpy(from, line->text.at, length);
        memset(mac, 0, maclen);
        HOLDS(hunkravy_encrypt(given.variant, to, from, length, CONTEXT(given), mac, maclen) == HUNKRAVY_OK);
        HOLDS(are_equal(to, expected, length) && are_equal(mac, tag, maclen));
    }
    free(c);
    free(mac);
    free(both);
    drop(given);
}

static void check_open(const struct line *line)
{
    struct given given = given_of(line);
    size_t length = given.length, maclen = line->tag.length;
    int code = line->refusal != NULL ? HUNKRAVY_INVALID_TAG : HUNKRAVY_OK;
    uint8_t *m = filled(length, 0x55), *other = filled(length, 0x55);
    uint8_t *both = filled(length + maclen, 0), *mac = copied(line->tag.at, maclen);
    uint8_t *expected = filled(length, 0xaa);

    memcpy(both, line->text.at, length);
    memcpy(both + length, mac, maclen);
    if (line->refusal == NULL && length != 0) {
        memcpy(expected, line->answer[0].at, length);
    }
    HOLDS(hunkravy_verify(given.variant, given.text, length, CONTEXT(given), mac, maclen) == code);
    HOLDS(hunkravy_decrypt(given.variant, m, given.text, length, CONTEXT(given), mac, maclen) == code);
    HOLDS(are_equal(m, expected, length) && are_equal(given.text, line->text.at, length));
    HOLDS(hunkravy_decrypt_combined(given.variant, other, both, length + maclen, CONTEXT(given), maclen) == code);
    HOLDS(are_equal(other, expected, length) && are_equal(both, line->text.at, length));
    HOLDS(hunkravy_decrypt_in_place(given.variant, given.text, length, CONTEXT(given), mac, maclen) == code);
    HOLDS(are_equal(given.text, expected, length));
    for (size_t i = 0; i < COUNT(PLACES); i++) {
        uint8_t *from = both + PLACES[i].from, *to = both + PLACES[i].to;
        memcpy(from, line->text.at, length);
        HOLDS(hunkravy_decrypt(given.variant, to, from, length, CONTEXT(given), mac, maclen) == code);
        HOLDS(are_equal(to, expected, length));
    }
    free(m);
    free(other);
    free(both);
    free(mac);
    free(expected);
    drop(given);
}

static void check_stream(const struct line *line)
{
    struct given given = given_of(line);
    uint8_t *out = filled(line->number, 0x55);

    HOLDS(hunkravy_stream(given.variant, out, line->number, KEYS(given)) == HUNKRAVY_OK);
    HOLDS(line->answer[0].length == line->number && are_equal(out, line->answer[0].at, line->number));
    free(out);
    drop(given);
}

static void check_xor(const struct line *line)
{
    struct given given = given_of(line);
    uint8_t *c = filled(given.length, 0x55);

    HOLDS(hunkravy_stream_xor(given.variant, c, given.text, given.length, KEYS(given)) == HUNKRAVY_OK);
    HOLDS(are_equal(c, line->answer[0].at, given.length) && are_equal(given.text, line->text.at, given.length));
    HOLDS(hunkravy_stream_xor_in_place(given.variant, given.text, given.length, KEYS(given)) == HUNKRAVY_OK);
    HOLDS(are_equal(given.text, c, given.length));
    free(c);
    drop(given);
}

static void check_mac(const struct line *line)
{
    struct given given = given_of(line);
    size_t maclen = line->number;
    uint8_t *mac = filled(maclen, 0);

    HOLDS(hunkravy_mac(given.variant, given.text, given.length, KEYS(given), mac, maclen) == HUNKRAVY_OK);
    HOLDS(are_equal(mac, line->answer[0].at, maclen));
    HOLDS(hunkravy_mac_verify(given.variant, given.text, given.length, KEYS(given), mac, maclen) == HUNKRAVY_OK);
    change_a_bit(mac, maclen);
    HOLDS(
        hunkravy_mac_verify(given.variant, given.text, given.length, KEYS(given), mac, maclen) == HUNKRAVY_INVALID_TAG);
    free(mac);
    drop(given);
}

static void check_line(const struct line *line)
{
    if (is_command(line, "seal")) {
        check_seal(line);
    } else if (is_command(line, "open")) {
        check_open(line);
    } else if (is_command(line, "stream")) {
        check_stream(line);
    } else if (is_command(line, "xor")) {
        check_xor(line);
    } else {
        check_mac(line);
    }
}

/* ---- Wrong lengths */

/* Each call returns this code for this variant and these lengths, and writes nothing. Keystreams have no tag. */
static void check_refused(uint32_t variant, size_t npublen, size_t klen, size_t maclen, int code)
{
    uint8_t bytes[64], out[64], *k = filled(klen, 0), *npub = filled(npublen, 0);
    uint8_t *mac = filled(maclen, 0x77);

    memset(bytes, 0x55, sizeof bytes);
    memset(out, 0x66, sizeof out);
    HOLDS(hunkravy_encrypt_in_place(variant, bytes, 20, NULL, 0, npub, npublen, k, klen, mac, maclen) == code);
    HOLDS(hunkravy_decrypt_in_place(variant, bytes, 20, NULL, 0, npub, npublen, k, klen, mac, maclen) == code);
    HOLDS(hunkravy_encrypt(variant, out, bytes, 20, NULL, 0, npub, npublen, k, klen, mac, maclen) == code);
    HOLDS(hunkravy_decrypt(variant, out, bytes, 20, NULL, 0, npub, npublen, k, klen, mac, maclen) == code);
    HOLDS(hunkravy_encrypt_combined(variant, out, bytes, 20, NULL, 0, npub, npublen, k, klen, maclen) == code);
    HOLDS(hunkravy_decrypt_combined(variant, out, bytes, 20 + maclen, NULL, 0, npub, npublen, k, klen, maclen) == code);
    HOLDS(hunkravy_decrypt_combined(variant, out, bytes, maclen / 2, NULL, 0, npub, npublen, k, klen, maclen) == code);
    HOLDS(hunkravy_verify(variant, bytes, 20, NULL, 0, npub, npublen, k, klen, mac, maclen) == code);
    HOLDS(hunkravy_mac(variant, bytes, 20, npub, npublen, k, klen, mac, maclen) == code);
    HOLDS(hunkravy_mac_verify(variant, bytes, 20, npub, npublen, k, klen, mac, maclen) == code);
    if (code != HUNKRAVY_WRONG_TAG_LENGTH) {
        HOLDS(hunkravy_stream(variant, bytes, 64, npub, npublen, k, klen) == code);
        HOLDS(hunkravy_stream_xor_in_place(variant, bytes, 64, npub, npublen, k, klen) == code);
        HOLDS(hunkravy_stream_xor(variant, out, bytes, 64, npub, npublen, k, klen) == code);
    }
    HOLDS(all_are(bytes, sizeof bytes, 0x55) && all_are(out, sizeof out, 0x66) && all_are(mac, maclen, 0x77));
    free(k);
    free(npub);
    free(mac);
}

/* Lengths that no buffer has, and ciphertexts that are shorter than a tag. The calls return before they read a byte. */
static void check_long_and_short(uint32_t variant, size_t n)
{
    const size_t most = (size_t)HUNKRAVY_MAX_BYTES;
    uint8_t bytes[64] = {0}, k[32] = {0}, mac[32] = {0};

    HOLDS(hunkravy_encrypt(variant, bytes, bytes, SIZE_MAX, NULL, 0, k, n, k, n, mac, 16) == HUNKRAVY_MESSAGE_TOO_LONG);
    HOLDS(hunkravy_encrypt_combined(variant, bytes, bytes, SIZE_MAX, NULL, 0, k, n, k, n, 16) ==
        HUNKRAVY_MESSAGE_TOO_LONG);
    HOLDS(hunkravy_decrypt(variant, bytes, bytes, 64, bytes, most + 1, k, n, k, n, mac, 32) == HUNKRAVY_DATA_TOO_LONG);
    HOLDS(hunkravy_decrypt_combined(variant, bytes, bytes, 15, bytes, most + 1, k, n, k, n, 16) ==
        HUNKRAVY_DATA_TOO_LONG);
    HOLDS(hunkravy_decrypt_combined(variant, bytes, bytes, SIZE_MAX / 2 + 17, NULL, 0, k, n, k, n, 16) ==
        HUNKRAVY_MESSAGE_TOO_LONG);
    HOLDS(hunkravy_verify(variant, bytes, SIZE_MAX, bytes, SIZE_MAX, k, n, k, n, mac, 17) == HUNKRAVY_MESSAGE_TOO_LONG);
    HOLDS(hunkravy_verify(variant, bytes, 64, bytes, SIZE_MAX, k, n, k, n, mac, 17) == HUNKRAVY_DATA_TOO_LONG);
    HOLDS(hunkravy_decrypt_combined(variant, bytes, bytes, 15, NULL, 0, k, n, k, n, 16) == HUNKRAVY_INVALID_TAG);
    HOLDS(hunkravy_decrypt_combined(variant, NULL, NULL, 0, NULL, 0, k, n, k, n, 32) == HUNKRAVY_INVALID_TAG);
    HOLDS(all_are(bytes, sizeof bytes, 0));
}

static void check_lengths(uint32_t variant, size_t n)
{
    static const size_t tags[] = {0, 1, 15, 17, 31, 33};
    const size_t wrong[] = {0, n - 1, n + 1};

    for (size_t i = 0; i < COUNT(wrong); i++) {
        check_refused(variant, wrong[i], n, 16, HUNKRAVY_WRONG_NONCE_LENGTH);
        check_refused(variant, n, wrong[i], 16, HUNKRAVY_WRONG_KEY_LENGTH);
        check_refused(variant, wrong[i], wrong[i], 16, HUNKRAVY_WRONG_NONCE_LENGTH);
    }
    for (size_t i = 0; i < COUNT(tags); i++) {
        check_refused(variant, n, n, tags[i], HUNKRAVY_WRONG_TAG_LENGTH);
    }
    check_long_and_short(variant, n);
}

/* A number that is no variant's is refused, for any lengths. */
static void check_variants(void)
{
    static const uint32_t wrong[] = {6, 255, 256, UINT32_C(1) << 31, UINT32_MAX};

    for (uint32_t i = 0; i < COUNT(VARIANTS); i++) {
        HOLDS(VARIANTS[i].number == i && hunkravy_key_bytes(i) == VARIANTS[i].key_bytes);
        check_lengths(i, VARIANTS[i].key_bytes);
    }
    for (size_t i = 0; i < COUNT(wrong); i++) {
        for (size_t length = 0; length <= 32; length += 16) {
            check_refused(wrong[i], length, length, length, HUNKRAVY_WRONG_VARIANT);
        }
        HOLDS(hunkravy_key_bytes(wrong[i]) == 0);
    }
}

/* ---- Texts and constants */

/* The codes, from 0 down. */
static void check_texts(void)
{
    static const struct {
        int code;
        const char *text;
    } TEXTS[] = {
        {HUNKRAVY_OK, "success"},
        {HUNKRAVY_INVALID_TAG, "invalid tag: the data, the key, the nonce or the associated data is wrong"},
        {HUNKRAVY_WRONG_NONCE_LENGTH, "wrong nonce length for this variant"},
        {HUNKRAVY_WRONG_KEY_LENGTH, "wrong key length for this variant"},
        {HUNKRAVY_MESSAGE_TOO_LONG, "the message is too long"},
        {HUNKRAVY_DATA_TOO_LONG, "the associated data are too long"},
        {HUNKRAVY_WRONG_TAG_LENGTH, "the tag length must be 16 or 32 bytes"},
        {HUNKRAVY_WRONG_STATE, "the state has ended, was not initialised, or belongs to other functions"},
        {HUNKRAVY_WRONG_VARIANT, "unknown variant"},
        {HUNKRAVY_CONTEXT_TOO_LONG, "the context is too long"},
        {HUNKRAVY_UNKNOWN_HEADER, "unknown record stream header"},
        {HUNKRAVY_WRONG_RECORD_LENGTH, "the record is shorter than its head and tag"},
        {HUNKRAVY_WRONG_PAGE_SIZE, "the page size must be 256 to 65,536 bytes"},
        {HUNKRAVY_FILE_TOO_LONG, "the contents or the page number are too large"},
        {HUNKRAVY_WRONG_MESSAGE_LENGTH, "the length is neither 0 nor that of the decrypted message"},
        {HUNKRAVY_WRONG_JOURNAL, "the journal is of another file, or of another state of this one"},
        {HUNKRAVY_NO_FILE, "cannot open the header: wrong key or variant, damaged file, or not a random-access file"},
        {HUNKRAVY_DAMAGED_PAGE, "a page is damaged"},
        {HUNKRAVY_FILE_LOCKED, "the file is already open, here or in another process"},
        {HUNKRAVY_FILE_MOVED, "the file was renamed, removed or replaced, or has several hard links"},
        {HUNKRAVY_FILE_BROKEN, "a commit failed: open the file again"},
        {HUNKRAVY_OPEN_BATCH, "a batch has not ended"},
        {-22, "unknown error code"},
    };

    for (int i = 0; i < (int)COUNT(TEXTS); i++) {
        HOLDS(TEXTS[i].code == -i && strcmp(hunkravy_error_text(-i), TEXTS[i].text) == 0);
    }
    HOLDS(strcmp(hunkravy_error_text(1), "unknown error code") == 0);
}

/* The constants of the headers that name lengths and limits. */
static void check_constants(void)
{
    HOLDS(HUNKRAVY_AEGIS128_KEY_BYTES == 16 && HUNKRAVY_AEGIS256_KEY_BYTES == 32);
    HOLDS(HUNKRAVY_AEGIS128_NONCE_BYTES == 16 && HUNKRAVY_AEGIS256_NONCE_BYTES == 32);
    HOLDS(HUNKRAVY_AEGIS128_TAG_BYTES == 32 && HUNKRAVY_AEGIS256_TAG_BYTES == 32);
    HOLDS(HUNKRAVY_SHORT_TAG_BYTES == 16 && HUNKRAVY_LONG_TAG_BYTES == 32);
    HOLDS(HUNKRAVY_MAX_BYTES == UINT64_C(2305843009213693951));
    HOLDS(HUNKRAVY_RECORD_KEY_BYTES == 32 && HUNKRAVY_RECORD_PREFIX_BYTES == 24);
    HOLDS(HUNKRAVY_RECORD_HEADER_BYTES == 4 && HUNKRAVY_RECORD_HEAD_BYTES == 5);
    HOLDS(HUNKRAVY_RECORD_BYTES == 37 && HUNKRAVY_RECORD_MAX_MESSAGE_BYTES == 16777216);
    HOLDS(HUNKRAVY_RECORD_MAX_CONTEXT_BYTES == 65535 && HUNKRAVY_PAGE_ID_BYTES == 24 && HUNKRAVY_PAGE_TAG_BYTES == 32);
    HOLDS(HUNKRAVY_PAGE_MAX_ADDED_BYTES == 64 && HUNKRAVY_PAGE_MIN_SIZE == 256 && HUNKRAVY_PAGE_MAX_SIZE == 65536);
    HOLDS(HUNKRAVY_PAGE_HEADER_BLOCK_BYTES == 512 && HUNKRAVY_PAGE_FIRST == 4096);
    HOLDS(HUNKRAVY_PAGE_MAX_CONTENTS_BYTES == UINT64_C(1152921504606846976));
}

static void check_version(void)
{
    char version[32];

    snprintf(
        version, sizeof version, "%d.%d.%d", HUNKRAVY_VERSION_MAJOR, HUNKRAVY_VERSION_MINOR, HUNKRAVY_VERSION_PATCH);
    HOLDS(strcmp(version, HUNKRAVY_VERSION) == 0 && strcmp(hunkravy_version(), HUNKRAVY_VERSION) == 0);
}

int main(int count, char **arguments)
{
    static const char *const files[] = {"published", "wycheproof", "calls", "in-pieces"};
    const char *level = getenv("LEVEL");
    size_t lines = 0;

    HOLDS(count == 2);
    HOLDS(level == NULL || level[0] == '\0' || hunkravy_level() == atoi(level));
    for (size_t i = 0; i < COUNT(files); i++) {
        lines += for_each_line(arguments[1], files[i], check_line);
    }
    check_variants();
    check_texts();
    check_constants();
    check_version();
    printf("hunkravy.h: %lu stored lines, %lu checks, all right\n", (unsigned long)lines, checks);
    return EXIT_SUCCESS;
}
