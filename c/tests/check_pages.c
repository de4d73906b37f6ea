/*
 * The calls on pages and headers: pages of several sizes, changed pages, pages and headers of another number, file or key,
 * wrong lengths, the limits, and the places of pages. The bytes of the format are in testkit/corpus.
 */
#include "check.h"

#define TAG HUNKRAVY_PAGE_TAG_BYTES
#define BLOCK HUNKRAVY_PAGE_HEADER_BLOCK_BYTES
#define MOST_CONTENTS HUNKRAVY_PAGE_MAX_CONTENTS_BYTES

static const uint32_t SIZES[] = {256, 257, 271, 272, 511, 512, 4096, 65535, 65536};

/* What the pages of a file are encrypted under. The keys and nonces of the variant have n bytes. */
struct layout {
    uint32_t variant;
    size_t n;
    uint8_t k[32], id[HUNKRAVY_PAGE_ID_BYTES];
    uint32_t size;
};

static struct layout layout_of(const struct variant *variant, uint32_t size)
{
    struct layout layout;

    layout.variant = variant->number;
    layout.n = variant->key_bytes;
    fill(layout.k, sizeof layout.k);
    fill(layout.id, sizeof layout.id);
    layout.size = size;
    return layout;
}

/* ---- The calls under a layout */

static int seal_page(const struct layout *layout, uint8_t *page, size_t length, uint64_t number, const uint8_t *npub)
{
    return hunkravy_page_seal(layout->variant, page, length, layout->id, number, npub, layout->n, layout->k, layout->n);
}

static int open_page(const struct layout *layout, uint8_t *page, size_t length, uint64_t number)
{
    return hunkravy_page_open(layout->variant, page, length, layout->id, number, layout->k, layout->n);
}

static int seal_header(
    const struct layout *layout, uint8_t *header_block, uint64_t counter, uint64_t contentslen, const uint8_t *npub)
{
    return hunkravy_page_header_seal(layout->variant, header_block, layout->size, layout->id, counter, contentslen,
        npub, layout->n, layout->k, layout->n);
}

/* ---- Pages */

/* These bytes are refused as page `number`, and erased. */
static void check_is_damaged(const struct layout *layout, uint64_t number, const uint8_t *bytes, size_t length)
{
    uint8_t *page = copied(bytes, length);

    HOLDS(open_page(layout, page, length, number) == HUNKRAVY_INVALID_TAG && all_are(page, length, 0xaa));
    free(page);
}

/* A changed bit, and the page at another number, of another file, and under another key. */
static void check_others(const struct layout *layout, uint64_t number, const uint8_t *page, size_t length)
{
    struct layout other = *layout;
    uint8_t *changed = copied(page, length);

    change_a_bit(changed, length);
    check_is_damaged(layout, number, changed, length);
    free(changed);
    check_is_damaged(layout, number == 0 ? 1 : number - 1, page, length);
    change_a_bit(other.id, sizeof other.id);
    check_is_damaged(&other, number, page, length);
    other = *layout;
    change_a_bit(other.k, other.n);
    check_is_damaged(&other, number, page, length);
}

static void check_page(const struct variant *variant, uint32_t size, uint64_t number)
{
    static uint8_t contents[HUNKRAVY_PAGE_MAX_SIZE];
    const struct layout layout = layout_of(variant, size);
    size_t length = layout.n + size + TAG;
    uint8_t *page = filled(length, 0x55), npub[32], tag[TAG];

    fill(npub, sizeof npub);
    fill(contents, size);
    memcpy(page + layout.n, contents, size);
    HOLDS(seal_page(&layout, page, length, number, npub) == HUNKRAVY_OK);
    memcpy(tag, page + length - TAG, TAG);
    check_others(&layout, number, page, length);
    HOLDS(open_page(&layout, page, length, number) == HUNKRAVY_OK && memcmp(page, npub, layout.n) == 0);
    HOLDS(memcmp(page + layout.n, contents, size) == 0 && memcmp(page + length - TAG, tag, TAG) == 0);
    free(page);
}

/* ---- Headers */

/* The block has no header under this key, and nothing is written. */
static void check_no_header(const struct layout *layout, const uint8_t *k, const uint8_t *block)
{
    uint8_t id[HUNKRAVY_PAGE_ID_BYTES];
    uint32_t size = 7;
    uint64_t counter = 8, contentslen = 9;

    memset(id, 0x55, sizeof id);
    HOLDS(hunkravy_page_header_open(layout->variant, block, k, layout->n, &size, id, &counter, &contentslen) ==
        HUNKRAVY_INVALID_TAG);
    HOLDS(size == 7 && all_are(id, sizeof id, 0x55) && counter == 8 && contentslen == 9);
}

static void check_has_header(const struct layout *layout, const uint8_t *block, uint64_t counter, uint64_t contentslen)
{
    uint8_t id[HUNKRAVY_PAGE_ID_BYTES];
    uint32_t size;
    uint64_t count, length;

    HOLDS(hunkravy_page_header_open(layout->variant, block, layout->k, layout->n, &size, id, &count, &length) ==
        HUNKRAVY_OK);
    HOLDS(size == layout->size && memcmp(id, layout->id, sizeof id) == 0 && count == counter && length == contentslen);
}

static void check_header(const struct variant *variant, uint32_t size, uint64_t counter, uint64_t contentslen)
{
    const struct layout layout = layout_of(variant, size);
    size_t length = 33 + layout.n + 16 + TAG;
    uint8_t *block = filled(BLOCK + 1, 0x55), expected[BLOCK], npub[32], k[32];

    fill(npub, sizeof npub);
    HOLDS(seal_header(&layout, block, counter, contentslen, npub) == HUNKRAVY_OK && block[BLOCK] == 0x55);
    memcpy(k, layout.k, sizeof k);
    change_a_bit(k, layout.n);
    check_no_header(&layout, k, block);
    /* The zeros at the end are not read. */
    change_a_bit(block + length, BLOCK - length);
    memcpy(expected, block, BLOCK);
    check_has_header(&layout, block, counter, contentslen);
    HOLDS(memcmp(block, expected, BLOCK) == 0);
    change_a_bit(block, length);
    check_no_header(&layout, layout.k, block);
    free(block);
}

/* ---- What is refused */

/*
 * Each call returns this code for this variant and these lengths, although 10 bytes are no page and
 * 255 is no page size. Nothing is written.
 */
static void check_refused(uint32_t variant, size_t npublen, size_t klen, int code)
{
    uint8_t page[10], block[BLOCK], id[HUNKRAVY_PAGE_ID_BYTES] = {0};
    uint8_t *npub = filled(npublen, 0), *k = filled(klen, 0);
    uint32_t size = 7;
    uint64_t counter = 8, contentslen = 9;

    memset(page, 0x55, sizeof page);
    memset(block, 0x55, sizeof block);
    HOLDS(hunkravy_page_seal(variant, page, 10, id, 0, npub, npublen, k, klen) == code);
    HOLDS(hunkravy_page_header_seal(variant, block, 255, id, 0, 0, npub, npublen, k, klen) == code);
    if (code != HUNKRAVY_WRONG_NONCE_LENGTH) {
        HOLDS(hunkravy_page_open(variant, page, 10, id, 0, k, klen) == code);
        HOLDS(hunkravy_page_header_open(variant, block, k, klen, &size, id, &counter, &contentslen) == code);
    }
    HOLDS(all_are(page, sizeof page, 0x55) && all_are(block, sizeof block, 0x55));
    HOLDS(size == 7 && all_are(id, sizeof id, 0) && counter == 8 && contentslen == 9);
    free(npub);
    free(k);
}

static void check_lengths(uint32_t variant, size_t n)
{
    const size_t wrong[] = {0, n - 1, n + 1, 48 - n};

    for (size_t i = 0; i < COUNT(wrong); i++) {
        check_refused(variant, wrong[i], n, HUNKRAVY_WRONG_NONCE_LENGTH);
        check_refused(variant, n, wrong[i], HUNKRAVY_WRONG_KEY_LENGTH);
    }
    check_refused(6, n, n, HUNKRAVY_WRONG_VARIANT);
    check_refused(UINT32_MAX, n, n, HUNKRAVY_WRONG_VARIANT);
}

static void check_page_refused(const struct layout *layout, size_t length, uint64_t number, int code)
{
    uint8_t *page = filled(length, 0x55);

    HOLDS(seal_page(layout, page, length, number, layout->k) == code);
    HOLDS(open_page(layout, page, length, number) == code && all_are(page, length, 0x55));
    free(page);
}

static void check_header_refused(const struct variant *variant, uint32_t size, uint64_t contentslen, int code)
{
    const struct layout layout = layout_of(variant, size);
    uint8_t block[BLOCK];

    memset(block, 0x55, sizeof block);
    HOLDS(seal_header(&layout, block, 3, contentslen, layout.k) == code && all_are(block, sizeof block, 0x55));
}

static void check_sizes(const struct variant *variant)
{
    static const uint32_t wrong[] = {0, 1, 255, 65537, UINT32_MAX};
    const struct layout layout = layout_of(variant, 256);
    size_t more = layout.n + TAG;

    for (size_t i = 0; i < COUNT(wrong); i++) {
        check_header_refused(variant, wrong[i], UINT64_MAX, HUNKRAVY_WRONG_PAGE_SIZE);
        HOLDS(hunkravy_page_place(layout.variant, wrong[i], 0) == UINT64_MAX);
    }
    check_page_refused(&layout, 0, 0, HUNKRAVY_WRONG_PAGE_SIZE);
    check_page_refused(&layout, more, 0, HUNKRAVY_WRONG_PAGE_SIZE);
    check_page_refused(&layout, 255 + more, 0, HUNKRAVY_WRONG_PAGE_SIZE);
    check_page_refused(&layout, 65537 + more, UINT64_MAX, HUNKRAVY_WRONG_PAGE_SIZE);
}

/* ---- Each page size */

static void check_size(const struct variant *variant, uint32_t size)
{
    static const uint64_t lengths[] = {0, 1, 1000000, MOST_CONTENTS};
    const struct layout layout = layout_of(variant, size);
    uint64_t last = MOST_CONTENTS / size, length = layout.n + size + TAG;

    check_page(variant, size, 0);
    check_page(variant, size, next_number() % last);
    check_page(variant, size, last);
    check_page_refused(&layout, length, last + 1, HUNKRAVY_FILE_TOO_LONG);
    check_page_refused(&layout, length, UINT64_MAX / size + 1, HUNKRAVY_FILE_TOO_LONG);
    check_page_refused(&layout, length, UINT64_MAX, HUNKRAVY_FILE_TOO_LONG);
    for (size_t i = 0; i < COUNT(lengths); i++) {
        check_header(variant, size, i, lengths[i]);
        check_header(variant, size, UINT64_MAX - i, lengths[i]);
    }
    check_header_refused(variant, size, MOST_CONTENTS + 1, HUNKRAVY_FILE_TOO_LONG);
    check_header_refused(variant, size, UINT64_MAX, HUNKRAVY_FILE_TOO_LONG);
    HOLDS(hunkravy_page_place(layout.variant, size, 0) == HUNKRAVY_PAGE_FIRST);
    HOLDS(hunkravy_page_place(layout.variant, size, 3) == 4096 + 3 * length);
    HOLDS(hunkravy_page_place(layout.variant, size, UINT64_C(1) << 32) == 4096 + (length << 32));
    HOLDS(hunkravy_page_place(layout.variant, size, last) == 4096 + last * length);
    HOLDS(hunkravy_page_place(layout.variant, size, last + 1) == UINT64_MAX);
    HOLDS(hunkravy_page_place(layout.variant, size, UINT64_MAX / size + 1) == UINT64_MAX);
    HOLDS(hunkravy_page_place(layout.variant, size, UINT64_MAX) == UINT64_MAX);
}

int main(void)
{
    HOLDS(HUNKRAVY_PAGE_MIN_SIZE == SIZES[0] && HUNKRAVY_PAGE_MAX_SIZE == SIZES[COUNT(SIZES) - 1]);
    HOLDS(HUNKRAVY_PAGE_MAX_ADDED_BYTES == HUNKRAVY_AEGIS256_NONCE_BYTES + TAG);
    /* Such a page lies in one block of a disk. */
    HOLDS(HUNKRAVY_PAGE_DEFAULT_SIZE(16) == 4048 && HUNKRAVY_PAGE_DEFAULT_SIZE(32) == 4032);
    for (size_t i = 0; i < COUNT(VARIANTS); i++) {
        uint32_t n = (uint32_t)VARIANTS[i].key_bytes, size = HUNKRAVY_PAGE_DEFAULT_SIZE(n);
        HOLDS(hunkravy_page_place(VARIANTS[i].number, size, 3) == UINT64_C(4) * 4096);
    }
    HOLDS(hunkravy_page_place(6, SIZES[0], 0) == UINT64_MAX);
    for (size_t i = 0; i < COUNT(VARIANTS); i++) {
        for (size_t j = 0; j < COUNT(SIZES); j++) {
            check_size(&VARIANTS[i], SIZES[j]);
        }
        check_sizes(&VARIANTS[i]);
        check_lengths(VARIANTS[i].number, VARIANTS[i].key_bytes);
    }
    printf("hunkravy.h on pages: %lu checks, all right\n", checks);
    return EXIT_SUCCESS;
}
