/*
 * The calls on a state, of all six variants: the stored lines in chunks of several lengths, wrong lengths and tags,
 * states of another role, and states that have ended or were never initialised. Its parameter is the folder of the
 * stored lines. It ends with status 0 only if every result is right.
 */
#include "check.h"

static int is_zeros(const hunkravy_state *st)
{
    return all_are(st, sizeof *st, 0);
}

static int is_same(const hunkravy_state *st, const hunkravy_state *other)
{
    return memcmp(st, other, sizeof *st) == 0;
}

/* ---- The stored lines. Each chunk has memory of its own, or is a null pointer if it is empty. */

/* Initialises a state whose memory was anything. */
static hunkravy_state begun(const struct line *line)
{
    hunkravy_state st;

    memset(&st, 0x55, sizeof st);
    HOLDS(hunkravy_state_init(line->variant->number, &st, line->ad.at, line->ad.length, line->nonce.at,
              line->nonce.length, line->key.at, line->key.length) == HUNKRAVY_OK);
    return st;
}

/* Encrypts or decrypts a chunk to a buffer that overlaps it, by a copy of the state. */
static void check_overlap(hunkravy_state st, const uint8_t *from, const uint8_t *expected, size_t length,
    int (*update)(hunkravy_state *, uint8_t *, const uint8_t *, size_t))
{
    uint8_t *both = filled(length + 1, 0x55);

    for (size_t i = 0; i < COUNT(PLACES); i++) {
        hunkravy_state copy = st;
        memcpy(both + PLACES[i].from, from, length);
        HOLDS(update(&copy, both + PLACES[i].to, both + PLACES[i].from, length) == HUNKRAVY_OK);
        HOLDS(are_equal(both + PLACES[i].to, expected, length));
    }
    free(both);
}

/* In place, and to another buffer by a copy of the state. Both states are then the same. */
static void check_seal(const struct line *line)
{
    hunkravy_state st = begun(line), copy = st;
    uint8_t mac[TAG_BYTES];

    for (size_t i = 0, at = 0; i < line->text.chunk_count; at += line->text.chunks[i++]) {
        size_t length = line->text.chunks[i];
        uint8_t *mc = copied(line->text.at + at, length), *c = filled(length, 0x55);
        check_overlap(st, line->text.at + at, line->answer[0].at + at, length, hunkravy_state_encrypt);
        HOLDS(hunkravy_state_encrypt(&copy, c, mc, length) == HUNKRAVY_OK);
        HOLDS(are_equal(c, line->answer[0].at + at, length) && are_equal(mc, line->text.at + at, length));
        HOLDS(hunkravy_state_encrypt_in_place(&st, mc, length) == HUNKRAVY_OK);
        HOLDS(are_equal(mc, c, length) && is_same(&st, &copy));
        free(mc);
        free(c);
    }
    memset(mac, 0x77, sizeof mac);
    HOLDS(hunkravy_state_encrypt_final(&st, mac, 17) == HUNKRAVY_WRONG_TAG_LENGTH);
    HOLDS(hunkravy_state_encrypt_final(&st, NULL, 0) == HUNKRAVY_WRONG_TAG_LENGTH);
    HOLDS(all_are(mac, sizeof mac, 0x77) && is_same(&st, &copy));
    HOLDS(hunkravy_state_encrypt_final(&st, mac, line->number) == HUNKRAVY_OK);
    HOLDS(are_equal(mac, line->answer[1].at, line->number) && is_zeros(&st));
}

/* Ends a message that was decrypted to `m`, which has one byte more. After a wrong length nothing has changed. */
static void check_final(const struct line *line, hunkravy_state st, uint8_t *m)
{
    const hunkravy_state old = st;
    size_t length = line->text.length, maclen = line->tag.length;
    uint8_t *mac = copied(line->tag.at, maclen), *before = copied(m, length + 1);
    int code = line->refusal != NULL ? HUNKRAVY_INVALID_TAG : HUNKRAVY_OK;

    HOLDS(hunkravy_state_decrypt_final(&st, m, length, mac, 17) == HUNKRAVY_WRONG_TAG_LENGTH);
    HOLDS(hunkravy_state_decrypt_final(&st, m, length, NULL, 0) == HUNKRAVY_WRONG_TAG_LENGTH);
    HOLDS(hunkravy_state_decrypt_final(&st, m, length + 1, mac, maclen) == HUNKRAVY_WRONG_MESSAGE_LENGTH);
    HOLDS(length < 2 || hunkravy_state_decrypt_final(&st, m, length - 1, mac, maclen) == HUNKRAVY_WRONG_MESSAGE_LENGTH);
    HOLDS(is_same(&st, &old) && are_equal(m, before, length + 1));
    HOLDS(hunkravy_state_decrypt_final(&st, NULL, 0, mac, maclen) == code && is_zeros(&st));
    st = old;
    HOLDS(hunkravy_state_decrypt_final(&st, m, length, mac, maclen) == code && is_zeros(&st));
    if (line->refusal != NULL) {
        HOLDS(all_are(m, length, 0xaa));
    } else {
        HOLDS(are_equal(m, line->answer[0].at, length));
        st = old;
        change_a_bit(mac, maclen);
        HOLDS(hunkravy_state_decrypt_final(&st, m, length, mac, maclen) == HUNKRAVY_INVALID_TAG);
        HOLDS(all_are(m, length, 0xaa) && is_zeros(&st));
    }
    HOLDS(m[length] == 0x55);
    free(mac);
    free(before);
}

/* Ends a message that was only checked: no byte of it was written, so no length but 0 is right. */
static void check_checked(const struct line *line, hunkravy_state st, uint8_t *m)
{
    hunkravy_state old;
    size_t length = line->text.length, maclen = line->tag.length;
    uint8_t *mac = copied(line->tag.at, maclen), *before = copied(m, length + 1);
    int code = line->refusal != NULL ? HUNKRAVY_INVALID_TAG : HUNKRAVY_OK;

    HOLDS(hunkravy_state_decrypt_check(&st, NULL, 0) == HUNKRAVY_OK);
    old = st;
    HOLDS(length == 0 || hunkravy_state_decrypt_final(&st, m, length, mac, maclen) == HUNKRAVY_WRONG_MESSAGE_LENGTH);
    HOLDS(hunkravy_state_decrypt_in_place_unverified(&st, m, length) == HUNKRAVY_WRONG_STATE);
    HOLDS(hunkravy_state_decrypt_unverified(&st, m, m, length) == HUNKRAVY_WRONG_STATE);
    HOLDS(is_same(&st, &old) && are_equal(m, before, length + 1));
    HOLDS(hunkravy_state_decrypt_final(&st, NULL, 0, mac, maclen) == code && is_zeros(&st));
    free(mac);
    free(before);
}

/* In place, to another buffer, and without an output. */
static void check_open(const struct line *line)
{
    hunkravy_state st = begun(line), copy = st, checked = st;
    uint8_t *m = filled(line->text.length + 1, 0x55);

    for (size_t i = 0, at = 0; i < line->text.chunk_count; at += line->text.chunks[i++]) {
        size_t length = line->text.chunks[i];
        uint8_t *mc = copied(line->text.at + at, length), *to = length == 0 ? NULL : m + at;
        HOLDS(hunkravy_state_decrypt_check(&checked, mc, length) == HUNKRAVY_OK);
        HOLDS(hunkravy_state_decrypt_unverified(&copy, to, mc, length) == HUNKRAVY_OK);
        check_overlap(st, line->text.at + at, to, length, hunkravy_state_decrypt_unverified);
        HOLDS(are_equal(mc, line->text.at + at, length));
        HOLDS(hunkravy_state_decrypt_in_place_unverified(&st, mc, length) == HUNKRAVY_OK);
        HOLDS(are_equal(mc, to, length) && is_same(&st, &copy));
        free(mc);
    }
    check_final(line, st, m);
    check_checked(line, checked, m);
    free(m);
}

/* More input may follow after hunkravy_mac_final. */
static void check_mac(const struct line *line)
{
    hunkravy_state st, old;
    uint8_t mac[TAG_BYTES + 1] = {0};
    size_t maclen = line->number;

    memset(&st, 0x55, sizeof st);
    HOLDS(hunkravy_mac_init(line->variant->number, &st, line->nonce.at, line->nonce.length, line->key.at,
              line->key.length) == HUNKRAVY_OK);
    for (size_t i = 0, at = 0; i < line->text.chunk_count; at += line->text.chunks[i++]) {
        uint8_t *input = copied(line->text.at + at, line->text.chunks[i]);
        HOLDS(hunkravy_mac_final(&st, mac, maclen) == HUNKRAVY_OK);
        HOLDS(hunkravy_mac_update(&st, input, line->text.chunks[i]) == HUNKRAVY_OK);
        free(input);
    }
    old = st;
    HOLDS(hunkravy_mac_final(&st, mac, maclen) == HUNKRAVY_OK && are_equal(mac, line->answer[0].at, maclen));
    HOLDS(hunkravy_mac_final(&st, mac, 15) == HUNKRAVY_WRONG_TAG_LENGTH);
    HOLDS(hunkravy_mac_final(&st, NULL, 0) == HUNKRAVY_WRONG_TAG_LENGTH);
    HOLDS(hunkravy_mac_final_verify(&st, mac, 33) == HUNKRAVY_WRONG_TAG_LENGTH);
    HOLDS(hunkravy_mac_final_verify(&st, NULL, 0) == HUNKRAVY_WRONG_TAG_LENGTH);
    HOLDS(hunkravy_mac_final_verify(&st, mac, maclen) == HUNKRAVY_OK);
    change_a_bit(mac, maclen);
    HOLDS(hunkravy_mac_final_verify(&st, mac, maclen) == HUNKRAVY_INVALID_TAG && is_same(&st, &old));
}

static void check_line(const struct line *line)
{
    if (is_command(line, "seal")) {
        check_seal(line);
    } else if (is_command(line, "open")) {
        check_open(line);
    } else {
        check_mac(line);
    }
}

/* Cuts bytes into chunks of this length, and a last one of what is left. */
static void cut_into(struct bytes *bytes, size_t length)
{
    size_t left = bytes->length;

    for (bytes->chunk_count = 0; left != 0; bytes->chunk_count++) {
        size_t next = left < length ? left : length;
        HOLDS(bytes->chunk_count < MOST_CHUNKS);
        bytes->chunks[bytes->chunk_count] = next;
        left -= next;
    }
}

/* In the chunks of the line, and in others. */
static void check_cuts(const struct line *line)
{
    static const size_t cuts[] = {1, 7, 16, 33, 128, 200};
    static struct line cut;

    check_line(line);
    cut = *line;
    for (size_t i = 0; i < COUNT(cuts); i++) {
        cut_into(&cut.text, cuts[i]);
        check_line(&cut);
    }
}

/* ---- States that are refused */

enum { ENCRYPT = 1, DECRYPT = 2, MAC = 4, ANY = 7 };

/* Each call for these roles refuses the state, and writes nothing. */
static void check_refused(hunkravy_state st, int roles)
{
    const hunkravy_state old = st;
    uint8_t bytes[64], out[64], tag[TAG_BYTES];

    memset(bytes, 0x55, sizeof bytes);
    memset(out, 0x66, sizeof out);
    memset(tag, 0x77, sizeof tag);
    if (roles & ENCRYPT) {
        HOLDS(hunkravy_state_encrypt_in_place(&st, bytes, 64) == HUNKRAVY_WRONG_STATE);
        HOLDS(hunkravy_state_encrypt_in_place(&st, NULL, 0) == HUNKRAVY_WRONG_STATE);
        HOLDS(hunkravy_state_encrypt(&st, out, bytes, 64) == HUNKRAVY_WRONG_STATE);
        HOLDS(hunkravy_state_encrypt_final(&st, tag, 16) == HUNKRAVY_WRONG_STATE);
        HOLDS(hunkravy_state_encrypt_final(&st, tag, 17) == HUNKRAVY_WRONG_STATE);
    }
    if (roles & DECRYPT) {
        HOLDS(hunkravy_state_decrypt_check(&st, bytes, 64) == HUNKRAVY_WRONG_STATE);
        HOLDS(hunkravy_state_decrypt_in_place_unverified(&st, bytes, 64) == HUNKRAVY_WRONG_STATE);
        HOLDS(hunkravy_state_decrypt_in_place_unverified(&st, NULL, 0) == HUNKRAVY_WRONG_STATE);
        HOLDS(hunkravy_state_decrypt_unverified(&st, out, bytes, 64) == HUNKRAVY_WRONG_STATE);
        HOLDS(hunkravy_state_decrypt_final(&st, out, 64, tag, 32) == HUNKRAVY_WRONG_STATE);
    }
    if (roles & MAC) {
        HOLDS(hunkravy_mac_update(&st, bytes, 64) == HUNKRAVY_WRONG_STATE);
        HOLDS(hunkravy_mac_update(&st, NULL, 0) == HUNKRAVY_WRONG_STATE);
        HOLDS(hunkravy_mac_final(&st, tag, 32) == HUNKRAVY_WRONG_STATE);
        HOLDS(hunkravy_mac_final_verify(&st, tag, 16) == HUNKRAVY_WRONG_STATE);
    }
    HOLDS(all_are(bytes, sizeof bytes, 0x55) && all_are(out, sizeof out, 0x66));
    HOLDS(all_are(tag, sizeof tag, 0x77) && is_same(&st, &old));
}

/* An init that fails leaves zeros, and each call refuses them. */
static void check_inits(uint32_t variant, size_t n)
{
    const struct {
        uint32_t variant;
        size_t npublen, klen;
        int code;
    } wrong[] = {
        {variant, 0, n, HUNKRAVY_WRONG_NONCE_LENGTH},
        {variant, n - 1, n, HUNKRAVY_WRONG_NONCE_LENGTH},
        {variant, n, 0, HUNKRAVY_WRONG_KEY_LENGTH},
        {variant, n, n + 1, HUNKRAVY_WRONG_KEY_LENGTH},
        {6, n, n, HUNKRAVY_WRONG_VARIANT},
        {UINT32_MAX, n, n, HUNKRAVY_WRONG_VARIANT},
    };
    hunkravy_state st;

    memset(&st, 0x55, sizeof st);
    check_refused(st, ANY);
    for (size_t i = 0; i < COUNT(wrong); i++) {
        uint8_t *npub = filled(wrong[i].npublen, 0), *k = filled(wrong[i].klen, 0);
        memset(&st, 0x55, sizeof st);
        HOLDS(hunkravy_state_init(wrong[i].variant, &st, NULL, 0, npub, wrong[i].npublen, k, wrong[i].klen) ==
            wrong[i].code);
        HOLDS(is_zeros(&st));
        memset(&st, 0x55, sizeof st);
        HOLDS(hunkravy_mac_init(wrong[i].variant, &st, npub, wrong[i].npublen, k, wrong[i].klen) == wrong[i].code);
        HOLDS(is_zeros(&st));
        free(npub);
        free(k);
    }
    check_refused(st, ANY);
}

/* The first call on a message decides its role, also one of no bytes. Nothing makes it a MAC, or a MAC a message. */
static void check_roles(uint32_t variant, size_t n)
{
    uint8_t bytes[TAG_BYTES] = {0}, k[32] = {0};
    hunkravy_state fresh, st;

    HOLDS(hunkravy_state_init(variant, &fresh, NULL, 0, k, n, k, n) == HUNKRAVY_OK);
    check_refused(fresh, MAC);
    st = fresh;
    HOLDS(hunkravy_state_encrypt_in_place(&st, NULL, 0) == HUNKRAVY_OK);
    check_refused(st, DECRYPT | MAC);
    HOLDS(hunkravy_state_encrypt_in_place(&st, bytes, 20) == HUNKRAVY_OK);
    HOLDS(hunkravy_state_encrypt_final(&st, bytes, 16) == HUNKRAVY_OK);
    check_refused(st, ANY);
    st = fresh;
    HOLDS(hunkravy_state_decrypt_check(&st, NULL, 0) == HUNKRAVY_OK);
    check_refused(st, ENCRYPT | MAC);
    HOLDS(hunkravy_state_decrypt_final(&st, NULL, 0, k, 16) == HUNKRAVY_INVALID_TAG);
    check_refused(st, ANY);
    st = fresh;
    HOLDS(hunkravy_state_decrypt_in_place_unverified(&st, bytes, 20) == HUNKRAVY_OK);
    check_refused(st, ENCRYPT | MAC);
    HOLDS(hunkravy_state_decrypt_check(&st, bytes, 20) == HUNKRAVY_WRONG_STATE);
    HOLDS(hunkravy_mac_init(variant, &st, k, n, k, n) == HUNKRAVY_OK);
    check_refused(st, ENCRYPT | DECRYPT);
    HOLDS(hunkravy_mac_update(&st, bytes, 20) == HUNKRAVY_OK);
    check_refused(st, ENCRYPT | DECRYPT);
}

/* The words of a state after its lanes, which no program but a test reads or writes. */
enum { DATA_BYTES = 81, MESSAGE_BYTES = 82, VARIANT_AND_ROLE = 83 };

/* Counts past the limit, variants and roles that do not exist, and a MAC of associated data. */
static void check_words(uint32_t variant, size_t n)
{
    const struct {
        size_t place;
        uint64_t word;
    } wrong[] = {
        {DATA_BYTES, HUNKRAVY_MAX_BYTES + 1},
        {MESSAGE_BYTES, UINT64_MAX},
        {VARIANT_AND_ROLE, UINT64_C(1) << 32 | 6},
        {VARIANT_AND_ROLE, UINT64_C(1) << 32 | UINT32_MAX},
        {VARIANT_AND_ROLE, variant},
        {VARIANT_AND_ROLE, UINT64_C(5) << 32 | variant},
    };
    hunkravy_state fresh, st;
    uint8_t k[32] = {0};

    HOLDS(hunkravy_state_init(variant, &fresh, NULL, 0, k, n, k, n) == HUNKRAVY_OK);
    for (size_t i = 0; i < COUNT(wrong); i++) {
        st = fresh;
        st.opaque[wrong[i].place] = wrong[i].word;
        check_refused(st, ANY);
    }
    HOLDS(hunkravy_mac_init(variant, &st, k, n, k, n) == HUNKRAVY_OK);
    st.opaque[DATA_BYTES] = 1;
    HOLDS(hunkravy_mac_final(&st, k, 16) == HUNKRAVY_WRONG_STATE);
    HOLDS(hunkravy_mac_final_verify(&st, k, 16) == HUNKRAVY_WRONG_STATE && all_are(k, sizeof k, 0));
}

/* A message that is as long as it may be takes no byte more. */
static void check_limit(uint32_t variant, size_t n)
{
    uint8_t bytes[8] = {0}, out[8] = {0}, k[32] = {0};
    hunkravy_state st;

    HOLDS(hunkravy_state_init(variant, &st, NULL, 0, k, n, k, n) == HUNKRAVY_OK);
    st.opaque[MESSAGE_BYTES] = HUNKRAVY_MAX_BYTES - 7;
    HOLDS(hunkravy_state_encrypt_in_place(&st, bytes, 8) == HUNKRAVY_MESSAGE_TOO_LONG);
    HOLDS(hunkravy_state_encrypt(&st, out, bytes, 8) == HUNKRAVY_MESSAGE_TOO_LONG);
    HOLDS(hunkravy_state_decrypt_check(&st, bytes, 8) == HUNKRAVY_MESSAGE_TOO_LONG);
    HOLDS(hunkravy_state_decrypt_in_place_unverified(&st, bytes, 8) == HUNKRAVY_MESSAGE_TOO_LONG);
    HOLDS(hunkravy_state_decrypt_unverified(&st, out, bytes, 8) == HUNKRAVY_MESSAGE_TOO_LONG);
    HOLDS(all_are(bytes, 8, 0) && all_are(out, 8, 0));
    HOLDS(hunkravy_state_encrypt_in_place(&st, bytes, 7) == HUNKRAVY_OK);
    HOLDS(hunkravy_state_encrypt_in_place(&st, bytes, 1) == HUNKRAVY_MESSAGE_TOO_LONG);
    HOLDS(hunkravy_mac_init(variant, &st, k, n, k, n) == HUNKRAVY_OK);
    st.opaque[MESSAGE_BYTES] = HUNKRAVY_MAX_BYTES - 7;
    HOLDS(hunkravy_mac_update(&st, bytes, 8) == HUNKRAVY_MESSAGE_TOO_LONG);
    HOLDS(hunkravy_mac_update(&st, bytes, 7) == HUNKRAVY_OK);
}

int main(int count, char **arguments)
{
    size_t lines;

    HOLDS(count == 2);
    lines = for_each_line(arguments[1], "in-pieces", check_cuts);
    for (size_t i = 0; i < COUNT(VARIANTS); i++) {
        check_inits(VARIANTS[i].number, VARIANTS[i].key_bytes);
        check_roles(VARIANTS[i].number, VARIANTS[i].key_bytes);
        check_words(VARIANTS[i].number, VARIANTS[i].key_bytes);
        check_limit(VARIANTS[i].number, VARIANTS[i].key_bytes);
    }
    printf("hunkravy.h on a state: %lu stored lines, %lu checks, all right\n", (unsigned long)lines, checks);
    return EXIT_SUCCESS;
}
