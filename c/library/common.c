/* The calls of hunkravy.h that have no build for a processor level. */
#include "hunkravy.h"

#include <string.h>

const char *hunkravy_version(void)
{
    return HUNKRAVY_VERSION;
}

static const char *const TEXTS[] = {
    [-HUNKRAVY_OK] = "success",
    [-HUNKRAVY_INVALID_TAG] = "invalid tag: the data, the key, the nonce or the associated data is wrong",
    [-HUNKRAVY_WRONG_NONCE_LENGTH] = "wrong nonce length for this variant",
    [-HUNKRAVY_WRONG_KEY_LENGTH] = "wrong key length for this variant",
    [-HUNKRAVY_MESSAGE_TOO_LONG] = "the message is too long",
    [-HUNKRAVY_DATA_TOO_LONG] = "the associated data are too long",
    [-HUNKRAVY_WRONG_TAG_LENGTH] = "the tag length must be 16 or 32 bytes",
    [-HUNKRAVY_WRONG_STATE] = "the state has ended, was not initialised, or belongs to other functions",
    [-HUNKRAVY_WRONG_VARIANT] = "unknown variant",
    [-HUNKRAVY_CONTEXT_TOO_LONG] = "the context is too long",
    [-HUNKRAVY_UNKNOWN_HEADER] = "unknown record stream header",
    [-HUNKRAVY_WRONG_RECORD_LENGTH] = "the record is shorter than its head and tag",
    [-HUNKRAVY_WRONG_PAGE_SIZE] = "the page size must be 256 to 65,536 bytes",
    [-HUNKRAVY_FILE_TOO_LONG] = "the contents or the page number are too large",
    [-HUNKRAVY_WRONG_MESSAGE_LENGTH] = "the length is neither 0 nor that of the decrypted message",
    [-HUNKRAVY_WRONG_JOURNAL] = "the journal is of another file, or of another state of this one",
    [-HUNKRAVY_NO_FILE] = "cannot open the header: wrong key or variant, damaged file, or not a random-access file",
    [-HUNKRAVY_DAMAGED_PAGE] = "a page is damaged",
    [-HUNKRAVY_FILE_LOCKED] = "the file is already open, here or in another process",
    [-HUNKRAVY_FILE_MOVED] = "the file was renamed, removed or replaced, or has several hard links",
    [-HUNKRAVY_FILE_BROKEN] = "a commit failed: open the file again",
    [-HUNKRAVY_OPEN_BATCH] = "a batch has not ended",
};

const char *hunkravy_error_text(int code)
{
    return code > HUNKRAVY_OK || code < HUNKRAVY_OPEN_BATCH ? "unknown error code" : TEXTS[-code];
}

void hunkravy_wipe(void *bytes, size_t length)
{
    if (length != 0) {
        memset(bytes, 0, length);
    }
    /* The compiler must assume that this reads the bytes. */
    __asm__ __volatile__("" : : "r"(bytes) : "memory");
}
