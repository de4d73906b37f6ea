/*
 * libsodium's calls of hunkravy_sodium.h, against the stored lines whose tags have 32 bytes. With WITH_LIBSODIUM it is
 * a test of libsodium itself: the same program with the other include line has to find the same. Its parameter is the
 * folder of the stored lines. It ends with status 0 only if every result is right.
 */
#ifndef _GNU_SOURCE
#define _GNU_SOURCE
#endif
#ifdef WITH_LIBSODIUM
#include <sodium.h>
#define LIBRARY "libsodium itself"
#else
#include "hunkravy_sodium.h"
#define LIBRARY "hunkravy_sodium.h"
#endif

#include "check.h"

#ifndef WITH_LIBSODIUM
#include <sys/syscall.h>
#include <unistd.h>

/* In the place of the system's: it gives at most 7 bytes, and is interrupted each third time. */
ssize_t getrandom(void *bytes, size_t length, unsigned int flags)
{
    static int calls;

    /* With no flag it waits until the system has gathered enough for its first bytes. */
    HOLDS(flags == 0);
    if (++calls % 3 == 0) {
        errno = EINTR;
        return -1;
    }
    return syscall(SYS_getrandom, bytes, length < 7 ? length : 7, flags);
}
#endif

#include <signal.h>
#include <sys/wait.h>
#include <unistd.h>

typedef unsigned char *out;
typedef const unsigned char *in;
typedef unsigned long long length_of, *length_to;

/* The calls of one cipher, with the types that libsodium documents. */
struct cipher {
    const char *name;
    size_t key_bytes;
    int (*encrypt)(out c, length_to clen, in m, length_of, in ad, length_of, in nsec, in npub, in k);
    int (*decrypt)(out m, length_to mlen, out nsec, in c, length_of, in ad, length_of, in npub, in k);
    int (*encrypt_detached)(
        out c, out mac, length_to maclen, in m, length_of, in ad, length_of, in nsec, in npub, in k);
    int (*decrypt_detached)(out m, out nsec, in c, length_of, in mac, in ad, length_of, in npub, in k);
    void (*keygen)(unsigned char *k);
    size_t (*keybytes)(void);
    size_t (*npubbytes)(void);
    size_t (*nsecbytes)(void);
    size_t (*abytes)(void);
    size_t (*messagebytes_max)(void);
};

static const struct cipher CIPHERS[] = {
    {"aegis128l", 16, crypto_aead_aegis128l_encrypt, crypto_aead_aegis128l_decrypt,
        crypto_aead_aegis128l_encrypt_detached, crypto_aead_aegis128l_decrypt_detached, crypto_aead_aegis128l_keygen,
        crypto_aead_aegis128l_keybytes, crypto_aead_aegis128l_npubbytes, crypto_aead_aegis128l_nsecbytes,
        crypto_aead_aegis128l_abytes, crypto_aead_aegis128l_messagebytes_max},
    {"aegis256", 32, crypto_aead_aegis256_encrypt, crypto_aead_aegis256_decrypt, crypto_aead_aegis256_encrypt_detached,
        crypto_aead_aegis256_decrypt_detached, crypto_aead_aegis256_keygen, crypto_aead_aegis256_keybytes,
        crypto_aead_aegis256_npubbytes, crypto_aead_aegis256_nsecbytes, crypto_aead_aegis256_abytes,
        crypto_aead_aegis256_messagebytes_max},
};

static int (*const init)(void) = sodium_init;
static void (*const random_bytes)(void *, size_t) = randombytes_buf;
static void (*const set_to_zeros)(void *, size_t) = sodium_memzero;

/* ---- The stored lines */

#define KEYS line->nonce.at, line->key.at
#define AD line->ad.at, line->ad.length
#define NO_LENGTH 12345

static void check_seal(const struct cipher *cipher, const struct line *line)
{
    size_t length = line->text.length;
    const uint8_t *m = line->text.at, *expected = line->answer[0].at, *tag = line->answer[1].at;
    uint8_t *c = filled(length + TAG_BYTES, 0x55), mac[TAG_BYTES];
    unsigned long long clen = NO_LENGTH, maclen = NO_LENGTH, mlen = NO_LENGTH;

    HOLDS(cipher->encrypt_detached(c, mac, &maclen, m, length, AD, NULL, KEYS) == 0);
    HOLDS(maclen == TAG_BYTES && memcmp(mac, tag, TAG_BYTES) == 0);
    HOLDS(memcmp(c, expected, length) == 0 && all_are(c + length, TAG_BYTES, 0x55));
    HOLDS(cipher->encrypt(c, &clen, m, length, AD, NULL, KEYS) == 0);
    HOLDS(clen == length + TAG_BYTES && memcmp(c, expected, length) == 0 && memcmp(c + length, tag, TAG_BYTES) == 0);
    /* From and to the same pointer. */
    HOLDS(cipher->decrypt(c, &mlen, NULL, c, clen, AD, KEYS) == 0 && mlen == length && memcmp(c, m, length) == 0);
    HOLDS(cipher->encrypt(c, NULL, c, length, AD, NULL, KEYS) == 0);
    HOLDS(memcmp(c, expected, length) == 0 && memcmp(c + length, tag, TAG_BYTES) == 0);
    memcpy(c, m, length);
    memset(mac, 0, sizeof mac);
    HOLDS(cipher->encrypt_detached(c, mac, NULL, c, length, AD, NULL, KEYS) == 0);
    HOLDS(memcmp(c, expected, length) == 0 && memcmp(mac, tag, TAG_BYTES) == 0);
    free(c);
}

static void check_open(const struct cipher *cipher, const struct line *line)
{
    size_t length = line->text.length, clen = length + TAG_BYTES;
    uint8_t both[MOST_BYTES + TAG_BYTES], m[MOST_BYTES], expected[MOST_BYTES] = {0};
    const uint8_t *mac = both + length;
    int result = line->refusal != NULL ? -1 : 0;
    unsigned long long mlen = NO_LENGTH, right = line->refusal != NULL ? 0 : length;

    memcpy(both, line->text.at, length);
    memcpy(both + length, line->tag.at, TAG_BYTES);
    if (line->refusal == NULL) {
        memcpy(expected, line->answer[0].at, length);
    }
    memset(m, 0x55, sizeof m);
    HOLDS(cipher->decrypt(m, &mlen, NULL, both, clen, AD, KEYS) == result);
    HOLDS(mlen == right && memcmp(m, expected, length) == 0 && m[length] == 0x55);
    memset(m, 0x55, sizeof m);
    HOLDS(cipher->decrypt_detached(m, NULL, both, length, mac, AD, KEYS) == result);
    HOLDS(memcmp(m, expected, length) == 0 && m[length] == 0x55);
    mlen = NO_LENGTH;
    HOLDS(cipher->decrypt(NULL, &mlen, NULL, both, clen, AD, KEYS) == result && mlen == right);
    HOLDS(cipher->decrypt(NULL, NULL, NULL, both, clen, AD, KEYS) == result);
    HOLDS(cipher->decrypt_detached(NULL, NULL, both, length, mac, AD, KEYS) == result);
    HOLDS(memcmp(both, line->text.at, length) == 0);
    HOLDS(cipher->decrypt(both, NULL, NULL, both, clen, AD, KEYS) == result);
    HOLDS(memcmp(both, expected, length) == 0 && memcmp(mac, line->tag.at, TAG_BYTES) == 0);
    for (size_t less = 0; less < TAG_BYTES; less++) {
        mlen = NO_LENGTH;
        HOLDS(cipher->decrypt(m, &mlen, NULL, both, less, AD, KEYS) == -1);
        HOLDS(mlen == 0 && memcmp(m, expected, length) == 0);
    }
}

static void check_line(const struct line *line)
{
    for (size_t i = 0; i < COUNT(CIPHERS); i++) {
        if (strcmp(line->variant->name, CIPHERS[i].name) != 0) {
            continue;
        }
        if (is_command(line, "seal") && line->number == TAG_BYTES) {
            check_seal(&CIPHERS[i], line);
        } else if (is_command(line, "open") && line->number == TAG_BYTES) {
            check_open(&CIPHERS[i], line);
        }
    }
}

/* ---- Constants, null pointers and lengths */

static void check_constants(void)
{
    HOLDS(crypto_aead_aegis128l_KEYBYTES == 16U && crypto_aead_aegis256_KEYBYTES == 32U);
    HOLDS(crypto_aead_aegis128l_NPUBBYTES == 16U && crypto_aead_aegis256_NPUBBYTES == 32U);
    HOLDS(crypto_aead_aegis128l_NSECBYTES == 0U && crypto_aead_aegis256_NSECBYTES == 0U);
    HOLDS(crypto_aead_aegis128l_ABYTES == 32U && crypto_aead_aegis256_ABYTES == 32U);
    HOLDS(crypto_aead_aegis128l_MESSAGEBYTES_MAX == (1ULL << 61) - 1);
    HOLDS(crypto_aead_aegis256_MESSAGEBYTES_MAX == (1ULL << 61) - 1);
    for (size_t i = 0; i < COUNT(CIPHERS); i++) {
        HOLDS(CIPHERS[i].keybytes() == CIPHERS[i].key_bytes && CIPHERS[i].npubbytes() == CIPHERS[i].key_bytes);
        HOLDS(CIPHERS[i].nsecbytes() == 0 && CIPHERS[i].abytes() == 32);
        HOLDS(CIPHERS[i].messagebytes_max() == (1ULL << 61) - 1);
    }
}

static void check_lengths(const struct cipher *cipher)
{
    uint8_t k[32] = {0}, npub[32] = {0}, c[TAG_BYTES], byte = 0x55;
    unsigned long long length = NO_LENGTH;

    HOLDS(cipher->encrypt(c, &length, NULL, 0, NULL, 0, NULL, npub, k) == 0 && length == TAG_BYTES);
    HOLDS(cipher->decrypt(NULL, &length, NULL, c, TAG_BYTES, NULL, 0, npub, k) == 0 && length == 0);
    HOLDS(cipher->decrypt(&byte, &length, NULL, c, TAG_BYTES, NULL, 0, npub, k) == 0 && length == 0 && byte == 0x55);
    /* Too long, and so refused before a byte is read. */
    length = NO_LENGTH;
    HOLDS(cipher->decrypt(&byte, &length, NULL, c, ~0ULL, NULL, 0, npub, k) == -1 && length == 0);
    HOLDS(cipher->decrypt_detached(&byte, NULL, c, 1, c, c, ~0ULL, npub, k) == -1);
    HOLDS(cipher->decrypt_detached(&byte, NULL, c, ~0ULL, c, c, 1, npub, k) == -1 && byte == 0x55);
}

/* Whether a message that is too long ends the program. It is encrypted in another process. */
static int ends(const struct cipher *cipher, int is_detached, length_of mlen, length_of adlen)
{
    uint8_t c[64] = {0}, k[32] = {0};
    int status = 0;
    pid_t child = fork();

    HOLDS(child >= 0);
    if (child == 0) {
        if (is_detached) {
            cipher->encrypt_detached(c, c, NULL, c, mlen, c, adlen, NULL, k, k);
        } else {
            cipher->encrypt(c, NULL, c, mlen, c, adlen, NULL, k, k);
        }
        _exit(EXIT_SUCCESS);
    }
    HOLDS(waitpid(child, &status, 0) == child);
    return WIFSIGNALED(status) && WTERMSIG(status) == SIGABRT;
}

static void check_too_long(const struct cipher *cipher)
{
    static const length_of lengths[] = {1ULL << 61, ~0ULL};

    for (size_t i = 0; i < COUNT(lengths); i++) {
        for (int is_detached = 0; is_detached < 2; is_detached++) {
            HOLDS(ends(cipher, is_detached, lengths[i], 0) && ends(cipher, is_detached, 0, lengths[i]));
        }
    }
    HOLDS(!ends(cipher, 1, 20, 20));
}

/* ---- Random bytes */

/* By chance no byte is zero 20 times, and no 8 bytes of two keys are the same. */
static void check_random(void)
{
    uint8_t bytes[64], drawn[64] = {0}, k[32], other[32];

    for (size_t turn = 0; turn < 20; turn++) {
        memset(bytes, 0, sizeof bytes);
        random_bytes(bytes, sizeof bytes);
        for (size_t i = 0; i < sizeof bytes; i++) {
            drawn[i] |= bytes[i];
        }
    }
    HOLDS(memchr(drawn, 0, sizeof drawn) == NULL);
    for (size_t i = 0; i < COUNT(CIPHERS); i++) {
        memset(k, 0, sizeof k);
        memset(other, 0, sizeof other);
        CIPHERS[i].keygen(k);
        CIPHERS[i].keygen(other);
        for (size_t at = 0; at < CIPHERS[i].key_bytes; at += 8) {
            HOLDS(memcmp(k + at, other + at, 8) != 0);
        }
        HOLDS(all_are(k + CIPHERS[i].key_bytes, sizeof k - CIPHERS[i].key_bytes, 0));
    }
}

static void check_memzero(void)
{
    uint8_t bytes[64];

    memset(bytes, 0x55, sizeof bytes);
    set_to_zeros(bytes, sizeof bytes);
    set_to_zeros(NULL, 0);
    HOLDS(all_are(bytes, sizeof bytes, 0));
}

int main(int count, char **arguments)
{
    static const char *const files[] = {"published", "wycheproof", "calls", "in-pieces"};

    HOLDS(count == 2 && init() >= 0);
    for (size_t i = 0; i < COUNT(files); i++) {
        for_each_line(arguments[1], files[i], check_line);
    }
    check_constants();
    for (size_t i = 0; i < COUNT(CIPHERS); i++) {
        check_lengths(&CIPHERS[i]);
        check_too_long(&CIPHERS[i]);
    }
    check_random();
    check_memzero();
    printf("%s: %lu checks, all right\n", LIBRARY, checks);
    return EXIT_SUCCESS;
}
