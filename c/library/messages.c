/*
 * The calls of hunkravy.h whose bodies are proved. Each passes its arguments on to a proved export. What is here, and is
 * tested and not proved: null pointers (proved.h), buffers that overlap, and tags that lie after their ciphertext. If the
 * buffers of a message and of its ciphertext overlap, one is copied to the other, unless they are the same, and processed
 * there. Such a call, and one whose tag lies after the ciphertext, asks a proved export first whether it will be refused.
 */
#include "hunkravy.h"
#include "proved.h"

#include <stdbool.h>
#include <string.h>

typedef char a_state_has_672_bytes[sizeof(hunkravy_state) == 672 ? 1 : -1];

/* Returns whether no byte is in both buffers. */
static bool are_apart(const uint8_t *one, const uint8_t *other, size_t length)
{
    uintptr_t a = (uintptr_t)one, b = (uintptr_t)other;
    return (a < b ? b - a : a - b) >= length;
}

/* Copies `length` bytes, unless they are there, and returns `to`. */
static uint8_t *copy(uint8_t *to, const uint8_t *from, size_t length)
{
    return length == 0 || to == from ? to : memmove(to, from, length);
}

size_t hunkravy_key_bytes(uint32_t variant)
{
    return hunkravy_proved_key_bytes(variant);
}

/* ---- A message at once */

int hunkravy_encrypt_in_place(uint32_t variant, uint8_t *mc, size_t mclen, const uint8_t *ad, size_t adlen,
    const uint8_t *npub, size_t npublen, const uint8_t *k, size_t klen, uint8_t *mac, size_t maclen)
{
    return hunkravy_proved_encrypt_in_place(
        variant, OUT(mc, mclen), IN(ad, adlen), IN(npub, npublen), IN(k, klen), OUT(mac, maclen));
}

int hunkravy_decrypt_in_place(uint32_t variant, uint8_t *mc, size_t mclen, const uint8_t *ad, size_t adlen,
    const uint8_t *npub, size_t npublen, const uint8_t *k, size_t klen, const uint8_t *mac, size_t maclen)
{
    return hunkravy_proved_decrypt_in_place(
        variant, OUT(mc, mclen), IN(ad, adlen), IN(npub, npublen), IN(k, klen), IN(mac, maclen));
}

int hunkravy_encrypt(uint32_t variant, uint8_t *c, const uint8_t *m, size_t mlen, const uint8_t *ad, size_t adlen,
    const uint8_t *npub, size_t npublen, const uint8_t *k, size_t klen, uint8_t *mac, size_t maclen)
{
    if (are_apart(c, m, mlen)) {
        return hunkravy_proved_encrypt(
            variant, IN(m, mlen), OUT(c, mlen), IN(ad, adlen), IN(npub, npublen), IN(k, klen), OUT(mac, maclen));
    }
    int code = hunkravy_proved_check_lengths(variant, npublen, klen, mlen, adlen, maclen);
    return code != HUNKRAVY_OK
        ? code
        : hunkravy_encrypt_in_place(variant, copy(c, m, mlen), mlen, ad, adlen, npub, npublen, k, klen, mac, maclen);
}

int hunkravy_decrypt(uint32_t variant, uint8_t *m, const uint8_t *c, size_t clen, const uint8_t *ad, size_t adlen,
    const uint8_t *npub, size_t npublen, const uint8_t *k, size_t klen, const uint8_t *mac, size_t maclen)
{
    if (are_apart(m, c, clen)) {
        return hunkravy_proved_decrypt(
            variant, IN(c, clen), OUT(m, clen), IN(ad, adlen), IN(npub, npublen), IN(k, klen), IN(mac, maclen));
    }
    int code = hunkravy_proved_check_lengths(variant, npublen, klen, clen, adlen, maclen);
    return code != HUNKRAVY_OK
        ? code
        : hunkravy_decrypt_in_place(variant, copy(m, c, clen), clen, ad, adlen, npub, npublen, k, klen, mac, maclen);
}

int hunkravy_encrypt_combined(uint32_t variant, uint8_t *c, const uint8_t *m, size_t mlen, const uint8_t *ad,
    size_t adlen, const uint8_t *npub, size_t npublen, const uint8_t *k, size_t klen, size_t maclen)
{
    int code = hunkravy_proved_check_lengths(variant, npublen, klen, mlen, adlen, maclen);
    return code != HUNKRAVY_OK
        ? code
        : hunkravy_encrypt(variant, c, m, mlen, ad, adlen, npub, npublen, k, klen, c + mlen, maclen);
}

int hunkravy_decrypt_combined(uint32_t variant, uint8_t *m, const uint8_t *c, size_t clen, const uint8_t *ad,
    size_t adlen, const uint8_t *npub, size_t npublen, const uint8_t *k, size_t klen, size_t maclen)
{
    size_t mlen = clen < maclen ? 0 : clen - maclen;
    int code = hunkravy_proved_check_lengths(variant, npublen, klen, mlen, adlen, maclen);
    if (code == HUNKRAVY_OK && clen < maclen) {
        code = HUNKRAVY_INVALID_TAG;
    }
    return code != HUNKRAVY_OK
        ? code
        : hunkravy_decrypt(variant, m, c, mlen, ad, adlen, npub, npublen, k, klen, c + mlen, maclen);
}

int hunkravy_verify(uint32_t variant, const uint8_t *c, size_t clen, const uint8_t *ad, size_t adlen,
    const uint8_t *npub, size_t npublen, const uint8_t *k, size_t klen, const uint8_t *mac, size_t maclen)
{
    hunkravy_state st;
    int code = hunkravy_proved_check_lengths(variant, npublen, klen, clen, adlen, maclen);
    if (code == HUNKRAVY_OK) {
        code = hunkravy_state_init(variant, &st, ad, adlen, npub, npublen, k, klen);
    }
    if (code == HUNKRAVY_OK) {
        code = hunkravy_state_decrypt_check(&st, c, clen);
    }
    return code == HUNKRAVY_OK ? hunkravy_state_decrypt_final(&st, NULL, 0, mac, maclen) : code;
}

/* ---- A message in chunks */

int hunkravy_state_init(uint32_t variant, hunkravy_state *st, const uint8_t *ad, size_t adlen, const uint8_t *npub,
    size_t npublen, const uint8_t *k, size_t klen)
{
    memset(st, 0, sizeof *st);
    return hunkravy_proved_state_init(variant, st->opaque, IN(ad, adlen), IN(npub, npublen), IN(k, klen));
}

int hunkravy_state_encrypt_in_place(hunkravy_state *st, uint8_t *mc, size_t mclen)
{
    return hunkravy_proved_state_encrypt_in_place(st->opaque, OUT(mc, mclen));
}

int hunkravy_state_encrypt(hunkravy_state *st, uint8_t *c, const uint8_t *m, size_t mlen)
{
    if (are_apart(c, m, mlen)) {
        return hunkravy_proved_state_encrypt(st->opaque, IN(m, mlen), OUT(c, mlen));
    }
    int code = hunkravy_proved_state_may_encrypt(st->opaque, mlen);
    return code != HUNKRAVY_OK ? code : hunkravy_state_encrypt_in_place(st, copy(c, m, mlen), mlen);
}

int hunkravy_state_encrypt_final(hunkravy_state *st, uint8_t *mac, size_t maclen)
{
    return hunkravy_proved_state_encrypt_final(st->opaque, OUT(mac, maclen));
}

int hunkravy_state_decrypt_check(hunkravy_state *st, const uint8_t *c, size_t clen)
{
    return hunkravy_proved_state_decrypt_check(st->opaque, IN(c, clen));
}

int hunkravy_state_decrypt_in_place_unverified(hunkravy_state *st, uint8_t *mc, size_t mclen)
{
    return hunkravy_proved_state_decrypt_in_place_unverified(st->opaque, OUT(mc, mclen));
}

int hunkravy_state_decrypt_unverified(hunkravy_state *st, uint8_t *m, const uint8_t *c, size_t clen)
{
    if (are_apart(m, c, clen)) {
        return hunkravy_proved_state_decrypt_unverified(st->opaque, IN(c, clen), OUT(m, clen));
    }
    int code = hunkravy_proved_state_may_decrypt(st->opaque, clen);
    return code != HUNKRAVY_OK ? code : hunkravy_state_decrypt_in_place_unverified(st, copy(m, c, clen), clen);
}

int hunkravy_state_decrypt_final(hunkravy_state *st, uint8_t *m, size_t mlen, const uint8_t *mac, size_t maclen)
{
    return hunkravy_proved_state_decrypt_final(st->opaque, OUT(m, mlen), IN(mac, maclen));
}

/* ---- MACs, and keystreams */

int hunkravy_mac(uint32_t variant, const uint8_t *input, size_t inputlen, const uint8_t *npub, size_t npublen,
    const uint8_t *k, size_t klen, uint8_t *mac, size_t maclen)
{
    return hunkravy_proved_mac(variant, IN(input, inputlen), IN(npub, npublen), IN(k, klen), OUT(mac, maclen));
}

int hunkravy_mac_verify(uint32_t variant, const uint8_t *input, size_t inputlen, const uint8_t *npub, size_t npublen,
    const uint8_t *k, size_t klen, const uint8_t *mac, size_t maclen)
{
    return hunkravy_proved_mac_verify(variant, IN(input, inputlen), IN(npub, npublen), IN(k, klen), IN(mac, maclen));
}

int hunkravy_mac_init(
    uint32_t variant, hunkravy_state *st, const uint8_t *npub, size_t npublen, const uint8_t *k, size_t klen)
{
    memset(st, 0, sizeof *st);
    return hunkravy_proved_mac_init(variant, st->opaque, IN(npub, npublen), IN(k, klen));
}

int hunkravy_mac_update(hunkravy_state *st, const uint8_t *input, size_t inputlen)
{
    return hunkravy_proved_mac_update(st->opaque, IN(input, inputlen));
}

int hunkravy_mac_final(const hunkravy_state *st, uint8_t *mac, size_t maclen)
{
    return hunkravy_proved_mac_final(st->opaque, OUT(mac, maclen));
}

int hunkravy_mac_final_verify(const hunkravy_state *st, const uint8_t *mac, size_t maclen)
{
    return hunkravy_proved_mac_final_verify(st->opaque, IN(mac, maclen));
}

int hunkravy_stream(
    uint32_t variant, uint8_t *out, size_t len, const uint8_t *npub, size_t npublen, const uint8_t *k, size_t klen)
{
    return hunkravy_proved_stream(variant, OUT(out, len), IN(npub, npublen), IN(k, klen));
}

int hunkravy_stream_xor_in_place(
    uint32_t variant, uint8_t *mc, size_t mclen, const uint8_t *npub, size_t npublen, const uint8_t *k, size_t klen)
{
    return hunkravy_proved_stream_xor_in_place(variant, OUT(mc, mclen), IN(npub, npublen), IN(k, klen));
}

int hunkravy_stream_xor(uint32_t variant, uint8_t *c, const uint8_t *m, size_t mlen, const uint8_t *npub,
    size_t npublen, const uint8_t *k, size_t klen)
{
    /* A keystream has any length, and no tag. */
    int code = hunkravy_proved_check_lengths(variant, npublen, klen, 0, 0, HUNKRAVY_SHORT_TAG_BYTES);
    return code != HUNKRAVY_OK ? code
                               : hunkravy_stream_xor_in_place(variant, copy(c, m, mlen), mlen, npub, npublen, k, klen);
}
