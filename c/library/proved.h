/*
 * The exports of crates/aegis_c. They are proved, and no program sees them: c/levels/join.sh makes their names local.
 *
 * Each meets its contract if what Rust assumes of references holds, which is ensured here for all calls:
 *
 * - No pointer is null, even if its length is 0. The macros below pass the address of a byte in the place of one that
 *   may be null.
 * - What a pointer points to is initialised, if it is read. A buffer of the caller that is only written to may not be: Rust
 *   asks that of references, but no export reads it first, and the C is compiled apart.
 * - A message and its ciphertext in another buffer are equally long.
 *
 * Callers of the library must ensure the rest, as hunkravy.h says: a pointer points to as many bytes as its length, no
 * output overlaps another argument, and no other thread uses an output.
 */
#ifndef HUNKRAVY_PROVED_H
#define HUNKRAVY_PROVED_H

#include <stddef.h>
#include <stdint.h>

/* The pointer, or, if there are no bytes, an address where nothing is read or written. */
static inline uint8_t *hunkravy_writable(uint8_t *bytes, size_t length)
{
    static uint8_t none[1];
    return length == 0 ? none : bytes;
}

static inline const uint8_t *hunkravy_readable(const uint8_t *bytes, size_t length)
{
    static const uint8_t none[1] = {0};
    return length == 0 ? none : bytes;
}

/* The two arguments for a slice. */
#define IN(bytes, length) hunkravy_readable(bytes, length), length
#define OUT(bytes, length) hunkravy_writable(bytes, length), length

#pragma GCC visibility push(hidden)

size_t hunkravy_proved_key_bytes(uint32_t variant);
int hunkravy_proved_check_lengths(uint32_t variant, size_t npublen, size_t klen, size_t mlen, size_t adlen,
    size_t maclen);
int hunkravy_proved_encrypt_in_place(uint32_t variant, uint8_t *mc, size_t mclen, const uint8_t *ad, size_t adlen,
    const uint8_t *npub, size_t npublen, const uint8_t *k, size_t klen, uint8_t *mac, size_t maclen);
int hunkravy_proved_encrypt(uint32_t variant, const uint8_t *m, size_t mlen, uint8_t *c, size_t clen,
    const uint8_t *ad, size_t adlen, const uint8_t *npub, size_t npublen, const uint8_t *k, size_t klen, uint8_t *mac,
    size_t maclen);
int hunkravy_proved_decrypt_in_place(uint32_t variant, uint8_t *mc, size_t mclen, const uint8_t *ad, size_t adlen,
    const uint8_t *npub, size_t npublen, const uint8_t *k, size_t klen, const uint8_t *mac, size_t maclen);
int hunkravy_proved_decrypt(uint32_t variant, const uint8_t *c, size_t clen, uint8_t *m, size_t mlen,
    const uint8_t *ad, size_t adlen, const uint8_t *npub, size_t npublen, const uint8_t *k, size_t klen,
    const uint8_t *mac, size_t maclen);
int hunkravy_proved_stream(uint32_t variant, uint8_t *out, size_t len, const uint8_t *npub, size_t npublen,
    const uint8_t *k, size_t klen);
int hunkravy_proved_stream_xor_in_place(uint32_t variant, uint8_t *mc, size_t mclen, const uint8_t *npub,
    size_t npublen, const uint8_t *k, size_t klen);
int hunkravy_proved_mac(uint32_t variant, const uint8_t *input, size_t inputlen, const uint8_t *npub, size_t npublen,
    const uint8_t *k, size_t klen, uint8_t *mac, size_t maclen);
int hunkravy_proved_mac_verify(uint32_t variant, const uint8_t *input, size_t inputlen, const uint8_t *npub,
    size_t npublen, const uint8_t *k, size_t klen, const uint8_t *mac, size_t maclen);

int hunkravy_proved_state_init(uint32_t variant, uint64_t *st, const uint8_t *ad, size_t adlen, const uint8_t *npub,
    size_t npublen, const uint8_t *k, size_t klen);
int hunkravy_proved_state_may_encrypt(const uint64_t *st, size_t mlen);
int hunkravy_proved_state_may_decrypt(const uint64_t *st, size_t clen);
int hunkravy_proved_state_encrypt_in_place(uint64_t *st, uint8_t *mc, size_t mclen);
int hunkravy_proved_state_encrypt(uint64_t *st, const uint8_t *m, size_t mlen, uint8_t *c, size_t clen);
int hunkravy_proved_state_encrypt_final(uint64_t *st, uint8_t *mac, size_t maclen);
int hunkravy_proved_state_decrypt_check(uint64_t *st, const uint8_t *c, size_t clen);
int hunkravy_proved_state_decrypt_in_place_unverified(uint64_t *st, uint8_t *mc, size_t mclen);
int hunkravy_proved_state_decrypt_unverified(uint64_t *st, const uint8_t *c, size_t clen, uint8_t *m, size_t mlen);
int hunkravy_proved_state_decrypt_final(uint64_t *st, uint8_t *m, size_t mlen, const uint8_t *mac, size_t maclen);
int hunkravy_proved_mac_init(uint32_t variant, uint64_t *st, const uint8_t *npub, size_t npublen, const uint8_t *k,
    size_t klen);
int hunkravy_proved_mac_update(uint64_t *st, const uint8_t *input, size_t inputlen);
int hunkravy_proved_mac_final(const uint64_t *st, uint8_t *mac, size_t maclen);
int hunkravy_proved_mac_final_verify(const uint64_t *st, const uint8_t *mac, size_t maclen);

int hunkravy_proved_record_begin(uint64_t *st, const uint8_t *k, const uint8_t *prefix, const uint8_t *context,
    size_t contextlen, uint8_t *header);
int hunkravy_proved_record_begin_open(uint64_t *st, const uint8_t *k, const uint8_t *prefix, const uint8_t *context,
    size_t contextlen, const uint8_t *header);
int hunkravy_proved_record_begin_open_at(uint64_t *st, const uint8_t *k, const uint8_t *prefix, const uint8_t *context,
    size_t contextlen, uint64_t number, uint64_t before);
int hunkravy_proved_record_seal(uint64_t *st, const uint8_t *context, size_t contextlen, uint8_t *record,
    size_t recordlen);
int hunkravy_proved_record_seal_last(uint64_t *st, const uint8_t *context, size_t contextlen, uint8_t *record,
    size_t recordlen);
int hunkravy_proved_record_len(const uint64_t *st, const uint8_t *head, size_t *recordlen);
int hunkravy_proved_record_open(uint64_t *st, const uint8_t *context, size_t contextlen, uint8_t *record,
    size_t recordlen, uint8_t *is_last);

int hunkravy_proved_page_place(uint32_t variant, uint32_t page_size, uint64_t number, uint64_t *place);
int hunkravy_proved_page_seal(uint32_t variant, uint8_t *page, size_t pagelen, const uint8_t *id, uint64_t number,
    const uint8_t *npub, size_t npublen, const uint8_t *k, size_t klen);
int hunkravy_proved_page_open(uint32_t variant, uint8_t *page, size_t pagelen, const uint8_t *id, uint64_t number,
    const uint8_t *k, size_t klen);
int hunkravy_proved_page_header_seal(uint32_t variant, uint8_t *header_block, uint32_t page_size, const uint8_t *id,
    uint64_t counter, uint64_t contentslen, const uint8_t *npub, size_t npublen, const uint8_t *k, size_t klen);
int hunkravy_proved_page_header_open(uint32_t variant, const uint8_t *header_block, const uint8_t *k, size_t klen,
    uint32_t *page_size, uint8_t *id, uint64_t *counter, uint64_t *contentslen);

int hunkravy_proved_journal_init(uint32_t variant, uint64_t *st, uint32_t page_size, const uint8_t *id,
    const uint8_t *npub, const uint8_t *k, size_t klen, uint8_t *start);
int hunkravy_proved_journal_entry(uint64_t *st, uint64_t place, const uint8_t *bytes, size_t byteslen, uint8_t *head);
int hunkravy_proved_journal_final(uint64_t *st, uint8_t *mac);
int hunkravy_proved_journal_check(uint32_t variant, const uint8_t *file, size_t filelen, const uint8_t *k, size_t klen,
    const uint8_t *journal, size_t journallen, size_t *writeslen);
int hunkravy_proved_journal_next(const uint8_t *writes, size_t writeslen, uint64_t *place, size_t *byteslen);
uint32_t hunkravy_proved_commit_step(uint64_t number, uint64_t writes, uint64_t *write);
uint32_t hunkravy_proved_recovery_step(uint64_t number, uint64_t writes, uint64_t *write);

#pragma GCC visibility pop

#endif
