/* The calls of hunkravy_pages.h and of journal.h, over the proved exports. */
#include "hunkravy_pages.h"
#include "journal.h"
#include "proved.h"

#include <string.h>

uint64_t hunkravy_page_place(uint32_t variant, uint32_t page_size, uint64_t number)
{
    uint64_t place = UINT64_MAX;
    (void)hunkravy_proved_page_place(variant, page_size, number, &place);
    return place;
}

int hunkravy_page_seal(uint32_t variant, uint8_t *page, size_t pagelen, const uint8_t *id, uint64_t number,
    const uint8_t *npub, size_t npublen, const uint8_t *k, size_t klen)
{
    return hunkravy_proved_page_seal(variant, OUT(page, pagelen), id, number, IN(npub, npublen), IN(k, klen));
}

int hunkravy_page_open(
    uint32_t variant, uint8_t *page, size_t pagelen, const uint8_t *id, uint64_t number, const uint8_t *k, size_t klen)
{
    return hunkravy_proved_page_open(variant, OUT(page, pagelen), id, number, IN(k, klen));
}

int hunkravy_page_header_seal(uint32_t variant, uint8_t *header_block, uint32_t page_size, const uint8_t *id,
    uint64_t counter, uint64_t contentslen, const uint8_t *npub, size_t npublen, const uint8_t *k, size_t klen)
{
    return hunkravy_proved_page_header_seal(
        variant, header_block, page_size, id, counter, contentslen, IN(npub, npublen), IN(k, klen));
}

int hunkravy_page_header_open(uint32_t variant, const uint8_t *header_block, const uint8_t *k, size_t klen,
    uint32_t *page_size, uint8_t *id, uint64_t *counter, uint64_t *contentslen)
{
    uint32_t size = 0;
    uint64_t count = 0, length = 0;
    uint8_t name[HUNKRAVY_PAGE_ID_BYTES] = {0};
    int code = hunkravy_proved_page_header_open(variant, header_block, IN(k, klen), &size, name, &count, &length);
    if (code == HUNKRAVY_OK) {
        *page_size = size;
        memcpy(id, name, sizeof name);
        *counter = count;
        *contentslen = length;
    }
    return code;
}

/* ---- The journal */

int hunkravy_journal_init(uint32_t variant, hunkravy_state *st, uint32_t page_size, const uint8_t *id,
    const uint8_t *npub, const uint8_t *k, size_t klen, uint8_t *start)
{
    memset(st, 0, sizeof *st);
    return hunkravy_proved_journal_init(variant, st->opaque, page_size, id, npub, IN(k, klen), start);
}

int hunkravy_journal_entry(hunkravy_state *st, uint64_t place, const uint8_t *bytes, size_t byteslen, uint8_t *head)
{
    return hunkravy_proved_journal_entry(st->opaque, place, IN(bytes, byteslen), head);
}

int hunkravy_journal_final(hunkravy_state *st, uint8_t *mac)
{
    return hunkravy_proved_journal_final(st->opaque, mac);
}

int hunkravy_journal_check(uint32_t variant, const uint8_t *file, size_t filelen, const uint8_t *k, size_t klen,
    const uint8_t *journal, size_t journallen, size_t *writeslen)
{
    size_t found = 0;
    int code = hunkravy_proved_journal_check(variant, IN(file, filelen), IN(k, klen), IN(journal, journallen), &found);
    if (code == HUNKRAVY_OK) {
        *writeslen = found;
    }
    return code;
}

int hunkravy_journal_next(const uint8_t *writes, size_t writeslen, uint64_t *place, size_t *byteslen)
{
    uint64_t found = 0;
    size_t length = 0;
    int code = hunkravy_proved_journal_next(IN(writes, writeslen), &found, &length);
    if (code == HUNKRAVY_OK) {
        *place = found;
        *byteslen = length;
    }
    return code;
}

uint32_t hunkravy_commit_step(uint64_t number, uint64_t writes, uint64_t *write)
{
    return hunkravy_proved_commit_step(number, writes, write);
}

uint32_t hunkravy_recovery_step(uint64_t number, uint64_t writes, uint64_t *write)
{
    return hunkravy_proved_recovery_step(number, writes, write);
}
