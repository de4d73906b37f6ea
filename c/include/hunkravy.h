/*
 * Hunkravy: the six AEGIS ciphers, and their MACs and keystreams, for Linux on x86-64-v2 or better and on aarch64.
 * Record streams are in hunkravy_records.h, random-access files in hunkravy_file.h, and their pages in hunkravy_pages.h. No
 * function allocates memory, except those of hunkravy_file.h.
 *
 * Build a program with `cc program.c $(pkg-config --cflags --libs hunkravy)`. If the library is in /some/where, set
 * PKG_CONFIG_PATH to /some/where/lib/pkgconfig first, and LD_LIBRARY_PATH to /some/where/lib to run the program. If it
 * is in /usr/local, run ldconfig once. To link the static library use -l:libhunkravy.a in place of -lhunkravy, and
 * -Wl,--gc-sections, so that the program has only the functions that it calls. Examples are in
 * share/doc/hunkravy/examples, or of Debian's package in share/doc/libhunkravy-dev/examples.
 *
 * FUNCTIONS FOR
 *
 * - a message in one buffer: hunkravy_encrypt_in_place, hunkravy_decrypt_in_place;
 * - a message in another buffer: hunkravy_encrypt, hunkravy_decrypt; with the tag after the ciphertext:
 *   hunkravy_encrypt_combined, hunkravy_decrypt_combined; to verify only: hunkravy_verify;
 * - a message in chunks: hunkravy_state_init, then hunkravy_state_encrypt_in_place and hunkravy_state_encrypt_final;
 * - a ciphertext in chunks that can be read twice, in two passes. To verify: hunkravy_state_init,
 *   hunkravy_state_decrypt_check.., hunkravy_state_decrypt_final(NULL, 0). To decrypt: the same functions again, with
 *   hunkravy_state_decrypt_in_place_unverified.. in the middle;
 * - a ciphertext in chunks that can be read once: hunkravy_state_decrypt_in_place_unverified, and
 *   hunkravy_state_decrypt_final with the whole message;
 * - a MAC: hunkravy_mac, hunkravy_mac_verify, hunkravy_mac_init; a keystream: hunkravy_stream.
 *
 * RULES. Nothing checks them:
 *
 * - Do not encrypt two messages with the same key and nonce, and do not use a nonce for both a message and a
 *   keystream. An attacker then learns about both messages, and may forge others. Nonces of 32 bytes can be random.
 *   Nonces of 16 bytes can be random for up to 2^48 messages under one key.
 * - Do not continue two copies of a state with different messages. That uses its nonce twice.
 * - Do not use decrypted bytes before their tag is verified. Functions whose names end in `_unverified` write such
 *   bytes.
 * - Do not ignore a returned code. After an error a buffer may still hold the plaintext.
 * - Do not use the key of a MAC for anything else.
 *
 * POINTERS. No function checks this:
 *
 * - A pointer points to as many bytes as its length, which is the next parameter or is in the comment. Inputs are
 *   initialised; outputs need not be. A pointer may be null if its length is a parameter and is 0.
 * - An output overlaps no other argument, unless the comment allows it.
 * - Until a function returns, no other thread or process may read an output, or write an output or an input. Meanwhile
 *   an output may hold the plaintext, or bytes that are not verified yet, even if the process is killed.
 *
 * THREADS. Use a state from one thread at a time. All other functions can run in any number of threads, with outputs
 * of their own.
 *
 * PARAMETERS. Lengths are in bytes. `m` is a message, `c` a ciphertext, and `mc` a buffer for both, in place. `ad` is
 * the associated data, `npub` the nonce, `k` the key, and `mac` a tag or a MAC of `maclen` bytes, 16 or 32.
 *
 * ERRORS. A function that is marked HUNKRAVY_MUST_USE returns HUNKRAVY_OK or one of the codes below. It checks the
 * variant or the state, and then the lengths of the nonce, the key, the message, the associated data and the tag, in
 * this order. The first wrong one gives the code. After an error nothing is written, unless the comment says so.
 *
 * ABI. Before 1.0.0 any minor version may change the ABI, and then the soname of libhunkravy.so.
 */
#ifndef HUNKRAVY_H
#define HUNKRAVY_H

#include <stddef.h>
#include <stdint.h>

#ifdef __cplusplus
extern "C" {
#endif

/* gcc and clang warn if the result is not used, and if null is passed where it is never allowed. */
#if defined(__GNUC__) || defined(__clang__)
#define HUNKRAVY_MUST_USE __attribute__((warn_unused_result))
#define HUNKRAVY_NONNULL(...) __attribute__((nonnull(__VA_ARGS__)))
#else
#define HUNKRAVY_MUST_USE
#define HUNKRAVY_NONNULL(...)
#endif

/* ---- Errors */

enum hunkravy_code {
    HUNKRAVY_OK = 0,
    /* The tag or the MAC is wrong, or the bytes are not the expected record or page. */
    HUNKRAVY_INVALID_TAG = -1,
    /* The nonce does not have the length of the variant. */
    HUNKRAVY_WRONG_NONCE_LENGTH = -2,
    /* The key does not have the length of the variant. */
    HUNKRAVY_WRONG_KEY_LENGTH = -3,
    /* The message, or the input of a MAC, has more than HUNKRAVY_MAX_BYTES, or the message of a record is too long. */
    HUNKRAVY_MESSAGE_TOO_LONG = -4,
    /* The associated data has more than HUNKRAVY_MAX_BYTES. */
    HUNKRAVY_DATA_TOO_LONG = -5,
    /* The tag, or the MAC, has neither 16 nor 32 bytes. */
    HUNKRAVY_WRONG_TAG_LENGTH = -6,
    /* The state is zeroed (it has ended, or was not initialised), or belongs to other functions. */
    HUNKRAVY_WRONG_STATE = -7,
    /* The variant is none of the six. */
    HUNKRAVY_WRONG_VARIANT = -8,
    /* The context of a record stream has more than HUNKRAVY_RECORD_MAX_CONTEXT_BYTES. */
    HUNKRAVY_CONTEXT_TOO_LONG = -9,
    /* The header is not that of a record stream. */
    HUNKRAVY_UNKNOWN_HEADER = -10,
    /* A record has less than HUNKRAVY_RECORD_BYTES. */
    HUNKRAVY_WRONG_RECORD_LENGTH = -11,
    /* The page size is less than HUNKRAVY_PAGE_MIN_SIZE or more than HUNKRAVY_PAGE_MAX_SIZE. */
    HUNKRAVY_WRONG_PAGE_SIZE = -12,
    /* The contents of a file have more than HUNKRAVY_PAGE_MAX_CONTENTS_BYTES, a page would begin after that many, a
       journal is too long, or no more commits are possible. */
    HUNKRAVY_FILE_TOO_LONG = -13,
    /* The length is neither 0 nor that of the message that was decrypted. */
    HUNKRAVY_WRONG_MESSAGE_LENGTH = -14,
    /* A journal is that of another file, or of another state of this one. */
    HUNKRAVY_WRONG_JOURNAL = -15,
    /* Of files: see hunkravy_file.h. */
    HUNKRAVY_NO_FILE = -16,
    HUNKRAVY_DAMAGED_PAGE = -17,
    HUNKRAVY_FILE_LOCKED = -18,
    HUNKRAVY_FILE_MOVED = -19,
    HUNKRAVY_FILE_BROKEN = -20,
    HUNKRAVY_OPEN_BATCH = -21
};

/* Returns an error message for a code, in English. */
const char *hunkravy_error_text(int code);

/* ---- Variants. Use HUNKRAVY_AEGIS256 unless you have a reason for another. */

#define HUNKRAVY_AEGIS128L 0
#define HUNKRAVY_AEGIS128X2 1
#define HUNKRAVY_AEGIS128X4 2
#define HUNKRAVY_AEGIS256 3
#define HUNKRAVY_AEGIS256X2 4
#define HUNKRAVY_AEGIS256X4 5

/* Lengths for the AEGIS-128 variants, and for the AEGIS-256 variants. A tag may also have 16 bytes. */
#define HUNKRAVY_AEGIS128_KEY_BYTES 16
#define HUNKRAVY_AEGIS128_NONCE_BYTES 16
#define HUNKRAVY_AEGIS128_TAG_BYTES 32
#define HUNKRAVY_AEGIS256_KEY_BYTES 32
#define HUNKRAVY_AEGIS256_NONCE_BYTES 32
#define HUNKRAVY_AEGIS256_TAG_BYTES 32

/* The two lengths of a tag or a MAC. */
#define HUNKRAVY_SHORT_TAG_BYTES 16
#define HUNKRAVY_LONG_TAG_BYTES 32

/* The limit on a message, on associated data, and on the input of a MAC. A keystream has no limit. */
#define HUNKRAVY_MAX_BYTES ((UINT64_C(1) << 61) - 1)

/* Returns the length of the variant's keys, which is that of its nonces, or 0 if there is no such variant. */
size_t hunkravy_key_bytes(uint32_t variant);

/* ---- A message in one call */

/*
 * Encrypts the `mclen` bytes at `mc` in place, and writes the tag to `mac`. After an error `mc` still holds the
 * plaintext.
 */
HUNKRAVY_MUST_USE int hunkravy_encrypt_in_place(uint32_t variant, uint8_t *mc, size_t mclen,
    const uint8_t *ad, size_t adlen, const uint8_t *npub, size_t npublen, const uint8_t *k, size_t klen,
    uint8_t *mac, size_t maclen);

/*
 * Decrypts the `mclen` bytes at `mc` in place, and verifies the tag `mac`. After HUNKRAVY_INVALID_TAG each byte at
 * `mc` is 0xaa. After any other error `mc` still holds the ciphertext.
 */
HUNKRAVY_MUST_USE int hunkravy_decrypt_in_place(uint32_t variant, uint8_t *mc, size_t mclen,
    const uint8_t *ad, size_t adlen, const uint8_t *npub, size_t npublen, const uint8_t *k, size_t klen,
    const uint8_t *mac, size_t maclen);

/*
 * Encrypts the `mlen` bytes at `m`. Writes the ciphertext of `mlen` bytes to `c`, which may be the same pointer or
 * overlap `m`, and the tag to `mac`.
 */
HUNKRAVY_MUST_USE int hunkravy_encrypt(uint32_t variant, uint8_t *c, const uint8_t *m, size_t mlen,
    const uint8_t *ad, size_t adlen, const uint8_t *npub, size_t npublen, const uint8_t *k, size_t klen,
    uint8_t *mac, size_t maclen);

/*
 * Decrypts the `clen` bytes at `c`, and verifies the tag `mac`. Writes the message of `clen` bytes to `m`, which may
 * be the same pointer or overlap `c`. After HUNKRAVY_INVALID_TAG each byte at `m` is 0xaa.
 */
HUNKRAVY_MUST_USE int hunkravy_decrypt(uint32_t variant, uint8_t *m, const uint8_t *c, size_t clen,
    const uint8_t *ad, size_t adlen, const uint8_t *npub, size_t npublen, const uint8_t *k, size_t klen,
    const uint8_t *mac, size_t maclen);

/*
 * Encrypts the `mlen` bytes at `m`. Writes the ciphertext and then the tag to `c`: `mlen + maclen` bytes. `c` may be
 * the same pointer.
 */
HUNKRAVY_MUST_USE int hunkravy_encrypt_combined(uint32_t variant, uint8_t *c, const uint8_t *m, size_t mlen,
    const uint8_t *ad, size_t adlen, const uint8_t *npub, size_t npublen, const uint8_t *k, size_t klen,
    size_t maclen);

/*
 * Decrypts the `clen` bytes at `c`, a ciphertext and its tag of `maclen` bytes. Writes the message of `clen - maclen`
 * bytes to `m`, which may be the same pointer. After HUNKRAVY_INVALID_TAG each byte at `m` is 0xaa. If the lengths of the
 * key, the nonce and the tag are right and `clen` is less than `maclen`, returns HUNKRAVY_INVALID_TAG and writes nothing.
 */
HUNKRAVY_MUST_USE int hunkravy_decrypt_combined(uint32_t variant, uint8_t *m, const uint8_t *c, size_t clen,
    const uint8_t *ad, size_t adlen, const uint8_t *npub, size_t npublen, const uint8_t *k, size_t klen,
    size_t maclen);

/* Verifies the tag `mac` of the `clen` bytes of ciphertext at `c`. Writes nothing. */
HUNKRAVY_MUST_USE int hunkravy_verify(uint32_t variant, const uint8_t *c, size_t clen,
    const uint8_t *ad, size_t adlen, const uint8_t *npub, size_t npublen, const uint8_t *k, size_t klen,
    const uint8_t *mac, size_t maclen);

/* ---- A message in chunks of any length, including 0 */

/*
 * The state of a message, of a MAC, or of a journal (hunkravy_pages.h). It holds its variant and its use. Do not write
 * to it: the functions are safe on any state, but their output is then unspecified.
 *
 * A state can be copied with `=`, and dropped at any time. Nothing has to be freed. For a zeroed state every function
 * except those that initialise it returns HUNKRAVY_WRONG_STATE. Until it has ended a state is as secret as the key:
 * call hunkravy_wipe before you drop it.
 */
typedef struct hunkravy_state {
    uint64_t opaque[84];
} hunkravy_state;

/*
 * Initialises a state for a message with `adlen` bytes of associated data. The first function that is called with it
 * decides whether the message is encrypted or decrypted. After an error the state is zeroed.
 */
HUNKRAVY_MUST_USE int hunkravy_state_init(uint32_t variant, hunkravy_state *st,
    const uint8_t *ad, size_t adlen, const uint8_t *npub, size_t npublen, const uint8_t *k, size_t klen)
    HUNKRAVY_NONNULL(2);

/*
 * Encrypts the next `mclen` bytes of the message in place. Returns HUNKRAVY_MESSAGE_TOO_LONG if all chunks together
 * are too long. After an error `mc` still holds the plaintext, and the state is unchanged.
 */
HUNKRAVY_MUST_USE int hunkravy_state_encrypt_in_place(hunkravy_state *st, uint8_t *mc, size_t mclen)
    HUNKRAVY_NONNULL(1);

/*
 * Encrypts the next `mlen` bytes of the message, from `m` to `c`, which may be the same pointer or overlap `m`. Returns
 * the codes of hunkravy_state_encrypt_in_place. After an error nothing is written.
 */
HUNKRAVY_MUST_USE int hunkravy_state_encrypt(hunkravy_state *st, uint8_t *c, const uint8_t *m, size_t mlen)
    HUNKRAVY_NONNULL(1);

/* Writes the tag of all chunks to `mac`, and zeroes the state. After an error the state is unchanged. */
HUNKRAVY_MUST_USE int hunkravy_state_encrypt_final(hunkravy_state *st, uint8_t *mac, size_t maclen) HUNKRAVY_NONNULL(1);

/*
 * Decrypts the next `mclen` bytes of the ciphertext in place, BEFORE THE TAG IS VERIFIED. The bytes may be forged: do
 * not use them until hunkravy_state_decrypt_final has returned HUNKRAVY_OK. Returns HUNKRAVY_MESSAGE_TOO_LONG if all
 * chunks together are too long. After an error `mc` still holds the ciphertext, and the state is unchanged.
 */
HUNKRAVY_MUST_USE int hunkravy_state_decrypt_in_place_unverified(hunkravy_state *st, uint8_t *mc, size_t mclen)
    HUNKRAVY_NONNULL(1);

/*
 * Decrypts the next `clen` bytes of the ciphertext, from `c` to `m`, which may be the same pointer or overlap `c`,
 * BEFORE THE TAG IS VERIFIED. Returns the codes of hunkravy_state_decrypt_in_place_unverified. After an error nothing is
 * written.
 */
HUNKRAVY_MUST_USE int hunkravy_state_decrypt_unverified(hunkravy_state *st, uint8_t *m, const uint8_t *c,
    size_t clen) HUNKRAVY_NONNULL(1);

/*
 * Processes the next `clen` bytes of the ciphertext, and writes only the state. If hunkravy_state_decrypt_final then
 * returns HUNKRAVY_OK, the tag is right. So if you can read the ciphertext twice, avoid unverified bytes: check it
 * first, then initialise the state again and decrypt. Verify the tag again at the end, since the ciphertext may have
 * changed. Returns HUNKRAVY_MESSAGE_TOO_LONG if all chunks together are too long, and HUNKRAVY_WRONG_STATE if a chunk
 * was decrypted: a state checks or decrypts, and not both. After an error the state is unchanged.
 */
HUNKRAVY_MUST_USE int hunkravy_state_decrypt_check(hunkravy_state *st, const uint8_t *c, size_t clen)
    HUNKRAVY_NONNULL(1);

/*
 * Verifies the tag `mac` of all chunks, and zeroes the state. This function never reads `m`, and writes it only after a
 * wrong tag. Make sure that `m` still holds the decrypted bytes. hunkravy_decrypt verifies and decrypts in one call.
 *
 * `m` has the `mlen` bytes of the whole message. If its chunks are in several buffers, pass 0 as `mlen`, and erase the
 * buffers after an error. After hunkravy_state_decrypt_check pass 0 too. Any other length is
 * HUNKRAVY_WRONG_MESSAGE_LENGTH.
 *
 * After HUNKRAVY_OK the decrypted chunks are the message. After HUNKRAVY_INVALID_TAG the state is zeroed too, and
 * each of the `mlen` bytes at `m` is 0xaa. After any other error the state is unchanged, and the chunks are still
 * unverified.
 */
HUNKRAVY_MUST_USE int hunkravy_state_decrypt_final(hunkravy_state *st, uint8_t *m, size_t mlen,
    const uint8_t *mac, size_t maclen) HUNKRAVY_NONNULL(1);

/* ---- MACs. Without a nonce pass zeros. */

/* Writes the MAC of the `inputlen` bytes at `input` to `mac`. */
HUNKRAVY_MUST_USE int hunkravy_mac(uint32_t variant, const uint8_t *input, size_t inputlen,
    const uint8_t *npub, size_t npublen, const uint8_t *k, size_t klen, uint8_t *mac, size_t maclen);

/*
 * Verifies that `mac` is the MAC of the `inputlen` bytes at `input`. Returns HUNKRAVY_INVALID_TAG if not. Writes
 * nothing.
 */
HUNKRAVY_MUST_USE int hunkravy_mac_verify(uint32_t variant, const uint8_t *input, size_t inputlen,
    const uint8_t *npub, size_t npublen, const uint8_t *k, size_t klen, const uint8_t *mac, size_t maclen);

/* Initialises a state for a MAC whose input comes in chunks. After an error the state is zeroed. */
HUNKRAVY_MUST_USE int hunkravy_mac_init(uint32_t variant, hunkravy_state *st,
    const uint8_t *npub, size_t npublen, const uint8_t *k, size_t klen) HUNKRAVY_NONNULL(2);

/*
 * Processes the next `inputlen` bytes of the input. Returns HUNKRAVY_MESSAGE_TOO_LONG if all chunks together are too
 * long. After an error the state is unchanged.
 */
HUNKRAVY_MUST_USE int hunkravy_mac_update(hunkravy_state *st, const uint8_t *input, size_t inputlen)
    HUNKRAVY_NONNULL(1);

/*
 * Writes the MAC of the input so far to `mac`. The state is unchanged, so more input may follow. Call hunkravy_wipe
 * after the last use of the state.
 */
HUNKRAVY_MUST_USE int hunkravy_mac_final(const hunkravy_state *st, uint8_t *mac, size_t maclen) HUNKRAVY_NONNULL(1);

/* Verifies that `mac` is the MAC of the input so far. Returns HUNKRAVY_INVALID_TAG if not. Writes nothing. */
HUNKRAVY_MUST_USE int hunkravy_mac_final_verify(const hunkravy_state *st, const uint8_t *mac, size_t maclen)
    HUNKRAVY_NONNULL(1);

/* ---- Keystreams, which encrypt and decrypt WITHOUT A TAG */

/* Writes `len` bytes of keystream to `out`. */
HUNKRAVY_MUST_USE int hunkravy_stream(uint32_t variant, uint8_t *out, size_t len,
    const uint8_t *npub, size_t npublen, const uint8_t *k, size_t klen);

/* Xors the `mclen` bytes at `mc` with the keystream. */
HUNKRAVY_MUST_USE int hunkravy_stream_xor_in_place(uint32_t variant, uint8_t *mc, size_t mclen,
    const uint8_t *npub, size_t npublen, const uint8_t *k, size_t klen);

/* Xors the `mlen` bytes at `m` with the keystream, and writes them to `c`, which may be the same pointer. */
HUNKRAVY_MUST_USE int hunkravy_stream_xor(uint32_t variant, uint8_t *c, const uint8_t *m, size_t mlen,
    const uint8_t *npub, size_t npublen, const uint8_t *k, size_t klen);

/* ---- Other functions */

/*
 * Overwrites `length` bytes with zeros, even if nothing reads them again. Use it for keys, and for states that are
 * dropped before they have ended. Copies that the compiler or the library has made are not overwritten.
 */
void hunkravy_wipe(void *bytes, size_t length);

/* The version of this header. hunkravy_version returns the version of the library that runs. */
#define HUNKRAVY_VERSION "0.1.0"
#define HUNKRAVY_VERSION_MAJOR 0
#define HUNKRAVY_VERSION_MINOR 1
#define HUNKRAVY_VERSION_PATCH 0
const char *hunkravy_version(void);

/*
 * Returns the processor level of the build that runs: 3 or 2 for x86-64-v3 or x86-64-v2, and 1 on aarch64. It returns 0
 * on a processor that no build runs on, such as one below x86-64-v2. There a function that computes may end the program
 * with SIGILL.
 */
int hunkravy_level(void);

#ifdef __cplusplus
}
#endif

#endif
