/*
 * libsodium's crypto_aead_aegis128l and crypto_aead_aegis256, with the names and parameters of libsodium, built on
 * hunkravy.h. Also sodium_init, randombytes_buf and sodium_memzero. A program that uses no other function of libsodium
 * includes this header in place of sodium.h, and links with libhunkravy in place of libsodium.
 *
 * The same as in libsodium:
 *
 * - The ciphertexts and tags. Tags have 32 bytes; in the combined form the tag is after the ciphertext.
 * - Message and ciphertext may be the same buffer, and must not overlap otherwise.
 * - A decryption that fails returns -1, and writes zeros in place of the message. If `m` is null, a decryption only
 *   verifies the tag.
 * - A parameter whose name ends in `_p` is null or points to a length, which the function sets. After a decryption that
 *   fails the length is 0.
 * - With more than crypto_aead_.._MESSAGEBYTES_MAX bytes encryption aborts the program, and decryption returns -1.
 * - Never encrypt two messages with the same key and nonce. `nsec` is not used.
 *
 * Different from libsodium:
 *
 * - The functions use neither AES instructions nor look-up tables in memory.
 * - An output must not overlap the key, the nonce, the associated data or, in the detached form, the tag.
 * - The functions are inline, in C89 too: there are no symbols with libsodium's names to link with. A source file includes
 *   either this header or sodium.h; different files of one program may differ.
 * - Random bytes come from getrandom. There is no function to replace their source.
 */
#ifndef HUNKRAVY_SODIUM_H
#define HUNKRAVY_SODIUM_H

#if defined(sodium_H) || defined(crypto_aead_aegis128l_H) || defined(crypto_aead_aegis256_H)
#error "include hunkravy_sodium.h in place of sodium.h, not beside it"
#endif

#include "hunkravy.h"

#include <errno.h>
#include <stdlib.h>
#include <string.h>
#include <sys/random.h>

#ifdef __cplusplus
extern "C" {
#endif

/* Does nothing, and returns 0. */
static __inline int sodium_init(void)
{
    return 0;
}

/* Writes `size` random bytes to `buf`. Aborts the program if the system has none. */
static __inline void randombytes_buf(void *const buf, const size_t size)
{
    size_t done = 0;
    while (done < size) {
        ssize_t more = getrandom((unsigned char *)buf + done, size - done, 0);
        if (more >= 0) {
            done += (size_t)more;
        } else if (errno != EINTR) {
            abort();
        }
    }
}

/* Overwrites `len` bytes with zeros, even if nothing reads them afterwards. */
static __inline void sodium_memzero(void *const pnt, const size_t len)
{
    hunkravy_wipe(pnt, len);
}

#define HUNKRAVY_SODIUM_TAG_BYTES 32U
#define HUNKRAVY_SODIUM_MOST_BYTES ((1ULL << 61) - 1)

/*
 * Writes the ciphertext of the `mlen` bytes at `m` to `c`, and its tag of 32 bytes to `mac`. Sets `*maclen_p`
 * to 32. Returns 0. Aborts the program if the message or the associated data are too long.
 */
static __inline int hunkravy_sodium_encrypt_detached(uint32_t variant, unsigned char *c, unsigned char *mac,
    unsigned long long *maclen_p, const unsigned char *m, unsigned long long mlen, const unsigned char *ad,
    unsigned long long adlen, const unsigned char *npub, const unsigned char *k)
{
    size_t bytes = hunkravy_key_bytes(variant);
    if (maclen_p != NULL) {
        *maclen_p = HUNKRAVY_SODIUM_TAG_BYTES;
    }
    if (mlen > HUNKRAVY_SODIUM_MOST_BYTES || adlen > HUNKRAVY_SODIUM_MOST_BYTES ||
        hunkravy_encrypt(variant, c, m, (size_t)mlen, ad, (size_t)adlen, npub, bytes, k, bytes, mac,
                         HUNKRAVY_SODIUM_TAG_BYTES) != HUNKRAVY_OK) {
        abort();
    }
    return 0;
}

/*
 * Writes the message to `m` and returns 0 if `mac` is the tag of the `clen` bytes at `c`. Otherwise returns -1, and
 * writes zeros to the `clen` bytes at `m`, or nothing if `clen` or `adlen` is more than 2^61 - 1. If `m` is null, it
 * only verifies.
 */
HUNKRAVY_MUST_USE static __inline int hunkravy_sodium_decrypt_detached(uint32_t variant, unsigned char *m,
    const unsigned char *c, unsigned long long clen, const unsigned char *mac, const unsigned char *ad,
    unsigned long long adlen, const unsigned char *npub, const unsigned char *k)
{
    size_t bytes = hunkravy_key_bytes(variant);
    int code;
    if (clen > HUNKRAVY_SODIUM_MOST_BYTES || adlen > HUNKRAVY_SODIUM_MOST_BYTES) {
        return -1;
    }
    if (m == NULL) {
        code = hunkravy_verify(variant, c, (size_t)clen, ad, (size_t)adlen, npub, bytes, k, bytes, mac,
                               HUNKRAVY_SODIUM_TAG_BYTES);
        return code == HUNKRAVY_OK ? 0 : -1;
    }
    code = hunkravy_decrypt(variant, m, c, (size_t)clen, ad, (size_t)adlen, npub, bytes, k, bytes, mac,
                            HUNKRAVY_SODIUM_TAG_BYTES);
    if (code != HUNKRAVY_OK) {
        memset(m, 0, (size_t)clen);
        return -1;
    }
    return 0;
}

/*
 * Writes the ciphertext of the `mlen` bytes at `m` and then its tag to `c`. Sets `*clen_p` to `mlen + 32`. Returns 0.
 * Aborts the program if the message or the associated data are too long.
 */
static __inline int hunkravy_sodium_encrypt(uint32_t variant, unsigned char *c, unsigned long long *clen_p,
    const unsigned char *m, unsigned long long mlen, const unsigned char *ad, unsigned long long adlen,
    const unsigned char *npub, const unsigned char *k)
{
    if (mlen > HUNKRAVY_SODIUM_MOST_BYTES) {
        abort();
    }
    if (clen_p != NULL) {
        *clen_p = mlen + HUNKRAVY_SODIUM_TAG_BYTES;
    }
    return hunkravy_sodium_encrypt_detached(variant, c, c + mlen, NULL, m, mlen, ad, adlen, npub, k);
}

/*
 * Writes the message to `m`, sets `*mlen_p` to `clen - 32` and returns 0 if the last 32 of the `clen` bytes at `c` are
 * its tag. Otherwise sets `*mlen_p` to 0, returns -1, and writes zeros to the `clen - 32` bytes at `m`, or nothing if
 * no message has these lengths. If `m` is null, it only verifies.
 */
HUNKRAVY_MUST_USE static __inline int hunkravy_sodium_decrypt(uint32_t variant, unsigned char *m,
    unsigned long long *mlen_p, const unsigned char *c, unsigned long long clen, const unsigned char *ad,
    unsigned long long adlen, const unsigned char *npub, const unsigned char *k)
{
    unsigned long long mlen = 0;
    int result = -1;
    if (clen >= HUNKRAVY_SODIUM_TAG_BYTES && clen - HUNKRAVY_SODIUM_TAG_BYTES <= HUNKRAVY_SODIUM_MOST_BYTES) {
        mlen = clen - HUNKRAVY_SODIUM_TAG_BYTES;
        result = hunkravy_sodium_decrypt_detached(variant, m, c, mlen, c + mlen, ad, adlen, npub, k);
    }
    if (mlen_p != NULL) {
        *mlen_p = result == 0 ? mlen : 0;
    }
    return result;
}

/* ---- The functions of a cipher: those above with its variant, a random key, and the constants below */

#define HUNKRAVY_SODIUM_FUNCTIONS(cipher, variant) \
    static __inline size_t cipher##_keybytes(void) { return cipher##_KEYBYTES; } \
    static __inline size_t cipher##_nsecbytes(void) { return cipher##_NSECBYTES; } \
    static __inline size_t cipher##_npubbytes(void) { return cipher##_NPUBBYTES; } \
    static __inline size_t cipher##_abytes(void) { return cipher##_ABYTES; } \
    static __inline size_t cipher##_messagebytes_max(void) { return cipher##_MESSAGEBYTES_MAX; } \
    static __inline void cipher##_keygen(unsigned char k[cipher##_KEYBYTES]) \
    { \
        randombytes_buf(k, cipher##_KEYBYTES); \
    } \
    static __inline int cipher##_encrypt_detached(unsigned char *c, unsigned char *mac, unsigned long long *maclen_p, \
        const unsigned char *m, unsigned long long mlen, const unsigned char *ad, unsigned long long adlen, \
        const unsigned char *nsec, const unsigned char *npub, const unsigned char *k) \
    { \
        (void)nsec; \
        return hunkravy_sodium_encrypt_detached(variant, c, mac, maclen_p, m, mlen, ad, adlen, npub, k); \
    } \
    HUNKRAVY_MUST_USE static __inline int cipher##_decrypt_detached(unsigned char *m, unsigned char *nsec, \
        const unsigned char *c, unsigned long long clen, const unsigned char *mac, const unsigned char *ad, \
        unsigned long long adlen, const unsigned char *npub, const unsigned char *k) \
    { \
        (void)nsec; \
        return hunkravy_sodium_decrypt_detached(variant, m, c, clen, mac, ad, adlen, npub, k); \
    } \
    static __inline int cipher##_encrypt(unsigned char *c, unsigned long long *clen_p, const unsigned char *m, \
        unsigned long long mlen, const unsigned char *ad, unsigned long long adlen, const unsigned char *nsec, \
        const unsigned char *npub, const unsigned char *k) \
    { \
        (void)nsec; \
        return hunkravy_sodium_encrypt(variant, c, clen_p, m, mlen, ad, adlen, npub, k); \
    } \
    HUNKRAVY_MUST_USE static __inline int cipher##_decrypt(unsigned char *m, unsigned long long *mlen_p, \
        unsigned char *nsec, const unsigned char *c, unsigned long long clen, const unsigned char *ad, \
        unsigned long long adlen, const unsigned char *npub, const unsigned char *k) \
    { \
        (void)nsec; \
        return hunkravy_sodium_decrypt(variant, m, mlen_p, c, clen, ad, adlen, npub, k); \
    }

#define crypto_aead_aegis128l_KEYBYTES 16U
#define crypto_aead_aegis128l_NSECBYTES 0U
#define crypto_aead_aegis128l_NPUBBYTES 16U
#define crypto_aead_aegis128l_ABYTES HUNKRAVY_SODIUM_TAG_BYTES
#define crypto_aead_aegis128l_MESSAGEBYTES_MAX HUNKRAVY_SODIUM_MOST_BYTES
HUNKRAVY_SODIUM_FUNCTIONS(crypto_aead_aegis128l, HUNKRAVY_AEGIS128L)

#define crypto_aead_aegis256_KEYBYTES 32U
#define crypto_aead_aegis256_NSECBYTES 0U
#define crypto_aead_aegis256_NPUBBYTES 32U
#define crypto_aead_aegis256_ABYTES HUNKRAVY_SODIUM_TAG_BYTES
#define crypto_aead_aegis256_MESSAGEBYTES_MAX HUNKRAVY_SODIUM_MOST_BYTES
HUNKRAVY_SODIUM_FUNCTIONS(crypto_aead_aegis256, HUNKRAVY_AEGIS256)

#ifdef __cplusplus
}
#endif

#endif
