/*
 * Pages of random-access files. USE hunkravy_file.h to read and write such files. These functions encrypt and decrypt a
 * page or a header alone, for programs that inspect a file, or that store pages elsewhere.
 *
 * The contents are split into pages of one size. Each page is encrypted separately, with any variant and a tag of 32
 * bytes. A page decrypts only under its number and the id of its file. An older page of the same number decrypts too.
 * `aegis_pages` and `raf` read and write the same files; FORMATS.md defines the format.
 *
 * A file begins with a header block of HUNKRAVY_PAGE_HEADER_BLOCK_BYTES: the variant, the page size, the file's id, a
 * counter, and the length of the contents. The pages begin at byte HUNKRAVY_PAGE_FIRST. All pages have the full
 * length, even the last: a nonce of hunkravy_key_bytes(variant) bytes, the ciphertext, and the tag.
 *
 * Do not write to a file with these functions: a crash may tear the write, and a file with a torn header is lost. A file
 * whose journal is not empty must first be opened with hunkravy_file.h.
 *
 * `k` is a key and `npub` a nonce, of hunkravy_key_bytes(variant) bytes each. Use a FRESH RANDOM NONCE for each page
 * and each header that you encrypt. With nonces of 16 bytes encrypt at most 2^48 pages and headers under one key. `id`
 * is 24 bytes that are unique to the file. They may be random, and need not be secret. The nonce whose bytes are all
 * 255 is reserved.
 *
 * The rules of hunkravy.h on pointers, threads and errors apply here too. Pointers without a length are never null.
 */
#ifndef HUNKRAVY_PAGES_H
#define HUNKRAVY_PAGES_H

#include "hunkravy.h"

#ifdef __cplusplus
extern "C" {
#endif

#define HUNKRAVY_PAGE_ID_BYTES 24
#define HUNKRAVY_PAGE_TAG_BYTES 32
/* The most bytes that a page has besides its contents: its nonce and its tag. */
#define HUNKRAVY_PAGE_MAX_ADDED_BYTES 64
/* The page size, in bytes of contents: minimum, maximum, and default for nonces of this length. With the default a page
 * fills a block of 4,096 bytes. */
#define HUNKRAVY_PAGE_MIN_SIZE 256
#define HUNKRAVY_PAGE_MAX_SIZE 65536
#define HUNKRAVY_PAGE_DEFAULT_SIZE(npublen) (4096 - (npublen) - HUNKRAVY_PAGE_TAG_BYTES)
/* The length of the header block. */
#define HUNKRAVY_PAGE_HEADER_BLOCK_BYTES 512
/* The position of page 0 in the file. */
#define HUNKRAVY_PAGE_FIRST 4096
/* The limit on the contents of a file. */
#define HUNKRAVY_PAGE_MAX_CONTENTS_BYTES (UINT64_C(1) << 60)

/*
 * Returns the position of page `number` in a file of this variant and page size. Returns UINT64_MAX, which is never a
 * position, if there is no such variant or page size, or if the page would begin after
 * HUNKRAVY_PAGE_MAX_CONTENTS_BYTES of the contents.
 */
uint64_t hunkravy_page_place(uint32_t variant, uint32_t page_size, uint64_t number);

/*
 * Encrypts page `number` in place. Its contents are at `page + hunkravy_key_bytes(variant)`. The `pagelen` bytes at
 * `page` become the page: `pagelen` is the length of a nonce, the page size and HUNKRAVY_PAGE_TAG_BYTES together.
 *
 * Returns HUNKRAVY_OK, a code for a wrong variant or a wrong length of `npub` or `k`, HUNKRAVY_WRONG_PAGE_SIZE, or
 * HUNKRAVY_FILE_TOO_LONG if more than HUNKRAVY_PAGE_MAX_CONTENTS_BYTES of the contents are in front of the page. After
 * an error nothing is written, and `page` still holds the plaintext.
 */
HUNKRAVY_MUST_USE int hunkravy_page_seal(uint32_t variant, uint8_t *page, size_t pagelen, const uint8_t *id,
    uint64_t number, const uint8_t *npub, size_t npublen, const uint8_t *k, size_t klen) HUNKRAVY_NONNULL(4);

/*
 * Decrypts page `number`, the `pagelen` bytes at `page`, in place. Its contents are then at
 * `page + hunkravy_key_bytes(variant)`.
 *
 * Returns the codes of hunkravy_page_seal, or HUNKRAVY_INVALID_TAG if the bytes are not a page of this variant, number,
 * id and key. After HUNKRAVY_INVALID_TAG each of the `pagelen` bytes is 0xaa. After any other error nothing is written.
 */
HUNKRAVY_MUST_USE int hunkravy_page_open(uint32_t variant, uint8_t *page, size_t pagelen, const uint8_t *id,
    uint64_t number, const uint8_t *k, size_t klen) HUNKRAVY_NONNULL(4);

/*
 * Encrypts the header with `counter` and `contentslen`, the length of the contents. Writes it to the
 * HUNKRAVY_PAGE_HEADER_BLOCK_BYTES at `header_block`, which are the first bytes of the file. A new file has the counter
 * 0 and no contents. The rest of the block is zeros, which are never read.
 *
 * Returns HUNKRAVY_OK, a code for a wrong variant or a wrong length of `npub` or `k`, HUNKRAVY_WRONG_PAGE_SIZE or
 * HUNKRAVY_FILE_TOO_LONG. After an error nothing is written.
 */
HUNKRAVY_MUST_USE int hunkravy_page_header_seal(uint32_t variant, uint8_t *header_block, uint32_t page_size,
    const uint8_t *id, uint64_t counter, uint64_t contentslen, const uint8_t *npub, size_t npublen, const uint8_t *k,
    size_t klen) HUNKRAVY_NONNULL(2, 4);

/*
 * Decrypts the header in the HUNKRAVY_PAGE_HEADER_BLOCK_BYTES at `header_block`, and writes its fields to `page_size`,
 * `id`, `counter` and `contentslen`.
 *
 * Returns HUNKRAVY_OK, a code for a wrong variant or a wrong length of `k`, or HUNKRAVY_INVALID_TAG if the block has no
 * header of this variant and key. After an error nothing is written.
 */
HUNKRAVY_MUST_USE int hunkravy_page_header_open(uint32_t variant, const uint8_t *header_block, const uint8_t *k,
    size_t klen, uint32_t *page_size, uint8_t *id, uint64_t *counter, uint64_t *contentslen)
    HUNKRAVY_NONNULL(2, 5, 6, 7, 8);

#ifdef __cplusplus
}
#endif

#endif
