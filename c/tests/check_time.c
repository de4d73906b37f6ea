/*
 * Whether a branch or an address depends on a secret, for valgrind's memcheck. The calls on messages, MACs, keystreams,
 * records, pages and headers run on keys, nonces, associated data and messages that are marked as undefined: memcheck
 * reports each conditional branch and each address that depends on such bytes. Lengths and returned codes are public.
 * The calls on journals are not run. tools/check_time.sh runs it.
 *
 * The last word of its output is the number of openings at once, which is that of openings on a state, of records, and
 * of pages too. With the parameter `branch` or `address` it only does what memcheck has to report.
 */
#include "check.h"

#include <valgrind/memcheck.h>

#define LONGEST 1000
#define LONGEST_DATA 133

static const size_t LENGTHS[] = {0, 1, 15, 16, 17, 31, 32, 33, 63, 64, 65, 127, 128, 129, 300, LONGEST};
static const size_t DATA_LENGTHS[] = {0, 13, LONGEST_DATA};

/* ---- What is secret, and what is public */

struct secret {
    uint8_t k[32], npub[32], ad[LONGEST_DATA], text[LONGEST];
};

struct message {
    const struct variant *calls;
    size_t length, adlen, maclen;
    struct secret secret;
};

static void renew(struct secret *secret)
{
    fill((uint8_t *)secret, sizeof *secret);
    (void)VALGRIND_MAKE_MEM_UNDEFINED(secret, sizeof *secret);
}

/* The caller sees the returned code, so it may depend on secrets, as it does in opening. */
static int public_code(int code)
{
    (void)VALGRIND_MAKE_MEM_DEFINED(&code, sizeof code);
    return code;
}

#define RETURNS(wanted, call) HOLDS(public_code(call) == (wanted))

#define KEYS(this) (this)->secret.npub, (this)->calls->key_bytes, (this)->secret.k, (this)->calls->key_bytes
#define CONTEXT(this) (this)->secret.ad, (this)->adlen, KEYS(this)

/* ---- The calls */

static void check_at_once(const struct message *this)
{
    uint32_t variant = this->calls->number;
    uint8_t mc[LONGEST], c[LONGEST + TAG_BYTES], mac[TAG_BYTES], wrong[TAG_BYTES];
    size_t length = this->length, maclen = this->maclen;

    memcpy(mc, this->secret.text, length);
    RETURNS(HUNKRAVY_OK, hunkravy_encrypt_in_place(variant, mc, length, CONTEXT(this), mac, maclen));
    memcpy(c, mc, length);
    memcpy(wrong, mac, maclen);
    wrong[maclen - 1] ^= 128;
    RETURNS(HUNKRAVY_OK, hunkravy_verify(variant, c, length, CONTEXT(this), mac, maclen));
    RETURNS(HUNKRAVY_OK, hunkravy_decrypt_in_place(variant, mc, length, CONTEXT(this), mac, maclen));
    RETURNS(HUNKRAVY_INVALID_TAG, hunkravy_decrypt(variant, mc, c, length, CONTEXT(this), wrong, maclen));
    RETURNS(HUNKRAVY_OK, hunkravy_encrypt(variant, c, this->secret.text, length, CONTEXT(this), mac, maclen));
    RETURNS(HUNKRAVY_OK, hunkravy_encrypt_combined(variant, c, this->secret.text, length, CONTEXT(this), maclen));
    RETURNS(HUNKRAVY_OK, hunkravy_decrypt_combined(variant, c, c, length + maclen, CONTEXT(this), maclen));
    RETURNS(HUNKRAVY_OK, hunkravy_stream(variant, mc, length, KEYS(this)));
    RETURNS(HUNKRAVY_OK, hunkravy_stream_xor(variant, mc, this->secret.text, length, KEYS(this)));
    RETURNS(HUNKRAVY_OK, hunkravy_stream_xor_in_place(variant, mc, length, KEYS(this)));
    RETURNS(HUNKRAVY_OK, hunkravy_mac(variant, c, length, KEYS(this), mac, maclen));
    RETURNS(HUNKRAVY_OK, hunkravy_mac_verify(variant, c, length, KEYS(this), mac, maclen));
    mac[0] ^= 1;
    RETURNS(HUNKRAVY_INVALID_TAG, hunkravy_mac_verify(variant, c, length, KEYS(this), mac, maclen));
}

static void begin(const struct message *this, hunkravy_state *st)
{
    RETURNS(HUNKRAVY_OK, hunkravy_state_init(this->calls->number, st, CONTEXT(this)));
}

/* Accepts the right tag, and rejects one that differs in a bit. */
static void check_end(const struct message *this, hunkravy_state st, uint8_t *m, size_t mlen, const uint8_t *mac)
{
    uint8_t wrong[TAG_BYTES];
    hunkravy_state copy = st;

    memcpy(wrong, mac, this->maclen);
    wrong[0] ^= 1;
    RETURNS(HUNKRAVY_OK, hunkravy_state_decrypt_final(&st, m, mlen, mac, this->maclen));
    RETURNS(HUNKRAVY_INVALID_TAG, hunkravy_state_decrypt_final(&copy, m, mlen, wrong, this->maclen));
}

/* The message in two chunks, and the first of them ends within a block. */
static void check_messages(const struct message *this)
{
    size_t first = this->length / 3, rest = this->length - first;
    uint8_t mc[LONGEST], c[LONGEST], mac[TAG_BYTES];
    hunkravy_state st;

    begin(this, &st);
    RETURNS(HUNKRAVY_OK, hunkravy_state_encrypt(&st, c, this->secret.text, first));
    memcpy(c + first, this->secret.text + first, rest);
    RETURNS(HUNKRAVY_OK, hunkravy_state_encrypt_in_place(&st, c + first, rest));
    RETURNS(HUNKRAVY_OK, hunkravy_state_encrypt_final(&st, mac, this->maclen));

    begin(this, &st);
    RETURNS(HUNKRAVY_OK, hunkravy_state_decrypt_check(&st, c, first));
    RETURNS(HUNKRAVY_OK, hunkravy_state_decrypt_check(&st, c + first, rest));
    check_end(this, st, NULL, 0, mac);

    begin(this, &st);
    memcpy(mc, c, first);
    RETURNS(HUNKRAVY_OK, hunkravy_state_decrypt_in_place_unverified(&st, mc, first));
    RETURNS(HUNKRAVY_OK, hunkravy_state_decrypt_unverified(&st, mc + first, c + first, rest));
    check_end(this, st, mc, this->length, mac);
}

static void check_macs(const struct message *this)
{
    size_t first = this->length / 3;
    uint8_t mac[TAG_BYTES];
    hunkravy_state st;

    RETURNS(HUNKRAVY_OK, hunkravy_mac_init(this->calls->number, &st, KEYS(this)));
    RETURNS(HUNKRAVY_OK, hunkravy_mac_update(&st, this->secret.text, first));
    RETURNS(HUNKRAVY_OK, hunkravy_mac_update(&st, this->secret.text + first, this->length - first));
    RETURNS(HUNKRAVY_OK, hunkravy_mac_final(&st, mac, this->maclen));
    RETURNS(HUNKRAVY_OK, hunkravy_mac_final_verify(&st, mac, this->maclen));
    mac[this->maclen / 2] ^= 16;
    RETURNS(HUNKRAVY_INVALID_TAG, hunkravy_mac_final_verify(&st, mac, this->maclen));
}

/* Two records, whatever the variant. The message is their context too: its length decides how much stack that takes. */
static void check_records(const struct message *this)
{
    size_t length = this->length, recordlen = length + HUNKRAVY_RECORD_BYTES, mlen = 0;
    uint8_t header[HUNKRAVY_RECORD_HEADER_BYTES];
    uint8_t records[3][LONGEST + HUNKRAVY_RECORD_BYTES];
    hunkravy_record_stream st;
    int is_last = -1;

    for (size_t i = 0; i < 2; i++) {
        memcpy(records[i] + HUNKRAVY_RECORD_HEAD_BYTES, this->secret.text, length);
    }
    RETURNS(
        HUNKRAVY_OK, hunkravy_record_begin(&st, this->secret.k, this->secret.npub, this->secret.text, length, header));
    RETURNS(HUNKRAVY_OK, hunkravy_record_seal(&st, records[0], length));
    RETURNS(HUNKRAVY_OK, hunkravy_record_seal_last(&st, records[1], length));
    memcpy(records[2], records[0], recordlen);
    records[2][recordlen - 1] ^= 1;

    RETURNS(HUNKRAVY_OK,
        hunkravy_record_begin_open(&st, this->secret.k, this->secret.npub, this->secret.text, length, header));
    RETURNS(HUNKRAVY_INVALID_TAG, hunkravy_record_open(&st, records[2], recordlen, &mlen, &is_last));
    RETURNS(HUNKRAVY_OK, hunkravy_record_len(&st, records[0], &mlen));
    RETURNS(HUNKRAVY_OK, hunkravy_record_open(&st, records[0], recordlen, &mlen, &is_last));
    HOLDS(mlen == length && is_last == 0);
    RETURNS(HUNKRAVY_OK, hunkravy_record_open(&st, records[1], recordlen, &mlen, &is_last));
    HOLDS(mlen == length && is_last == 1);
}

/*
 * A page of as many bytes more than the least, which is opened three times, and a header, which is
 * opened twice. The file's id is public. So are the counter and the length in a header, which whoever
 * opens it compares; but memcheck counts what is decrypted as secret.
 */
static void check_pages(const struct message *this)
{
    static const uint8_t id[HUNKRAVY_PAGE_ID_BYTES] = "an id";
    uint32_t variant = this->calls->number;
    size_t n = this->calls->key_bytes, size = HUNKRAVY_PAGE_MIN_SIZE + this->length;
    size_t pagelen = n + size + HUNKRAVY_PAGE_TAG_BYTES;
    uint8_t pages[3][HUNKRAVY_PAGE_MIN_SIZE + LONGEST + HUNKRAVY_PAGE_MAX_ADDED_BYTES];
    uint8_t *text = pages[0] + n, header_block[HUNKRAVY_PAGE_HEADER_BLOCK_BYTES], name[HUNKRAVY_PAGE_ID_BYTES];
    const uint8_t *k = this->secret.k;
    uint32_t found;
    uint64_t counter, contentslen;

    memcpy(text, this->secret.text, HUNKRAVY_PAGE_MIN_SIZE);
    memcpy(text + HUNKRAVY_PAGE_MIN_SIZE, this->secret.text, this->length);
    RETURNS(HUNKRAVY_OK, hunkravy_page_seal(variant, pages[0], pagelen, id, 7, KEYS(this)));
    memcpy(pages[1], pages[0], pagelen);
    memcpy(pages[2], pages[0], pagelen);
    pages[2][pagelen - 1] ^= 1;
    RETURNS(HUNKRAVY_OK, hunkravy_page_open(variant, pages[0], pagelen, id, 7, k, n));
    RETURNS(HUNKRAVY_INVALID_TAG, hunkravy_page_open(variant, pages[1], pagelen, id, 8, k, n));
    RETURNS(HUNKRAVY_INVALID_TAG, hunkravy_page_open(variant, pages[2], pagelen, id, 7, k, n));
    RETURNS(
        HUNKRAVY_OK, hunkravy_page_header_seal(variant, header_block, (uint32_t)size, id, 1, this->length, KEYS(this)));
    RETURNS(HUNKRAVY_OK, hunkravy_page_header_open(variant, header_block, k, n, &found, name, &counter, &contentslen));
    HOLDS(found == size && memcmp(name, id, sizeof id) == 0);
    header_block[n + 40] ^= 1;
    RETURNS(HUNKRAVY_INVALID_TAG,
        hunkravy_page_header_open(variant, header_block, k, n, &found, name, &counter, &contentslen));
}

/* Returns the number of messages. Each is opened three times in each way. */
static unsigned check_variant(const struct variant *calls)
{
    struct message message;
    unsigned count = 0;

    message.calls = calls;
    for (size_t i = 0; i < COUNT(LENGTHS); i++) {
        for (size_t j = 0; j < COUNT(DATA_LENGTHS); j++) {
            for (message.maclen = 16; message.maclen <= TAG_BYTES; message.maclen += 16) {
                message.length = LENGTHS[i];
                message.adlen = DATA_LENGTHS[j];
                renew(&message.secret);
                check_at_once(&message);
                check_messages(&message);
                check_macs(&message);
                check_records(&message);
                check_pages(&message);
                count++;
            }
        }
    }
    return count;
}

/* ---- What has to be reported */

static void depend_on_secret(const char *how)
{
    static volatile uint8_t table[256];
    struct secret secret;
    int index = 0;

    renew(&secret);
    if (strcmp(how, "address") == 0) {
        index = table[secret.k[0]];
    } else if ((secret.k[0] & 1) != 0) {
        index = table[1];
    }
    (void)index;
}

int main(int count, char **arguments)
{
    unsigned messages = 0;

    if (count == 2) {
        depend_on_secret(arguments[1]);
        return EXIT_SUCCESS;
    }
    HOLDS(RUNNING_ON_VALGRIND);
    for (size_t i = 0; i < COUNT(VARIANTS); i++) {
        messages += check_variant(&VARIANTS[i]);
    }
    printf("level %d: %lu calls; openings: %u\n", hunkravy_level(), checks - 1, 3 * messages);
    return EXIT_SUCCESS;
}
