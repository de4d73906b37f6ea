/*
 * The functions of c/library/journal.h: what writing a journal rejects, and the order of the steps. The bytes of a journal, and
 * what is made of one, are in testkit/corpus.
 */
#include "../library/journal.h"
#include "check.h"

/* A write past the end of all files is left out, and a journal ends once. */
static void check_writing(uint32_t variant)
{
    static const uint8_t id[HUNKRAVY_PAGE_ID_BYTES], nonce[HUNKRAVY_JOURNAL_NONCE_BYTES], k[32];
    hunkravy_state st;
    uint8_t start[HUNKRAVY_JOURNAL_START_BYTES], head[HUNKRAVY_JOURNAL_HEAD_BYTES], mac[HUNKRAVY_JOURNAL_MAC_BYTES];
    size_t n = hunkravy_key_bytes(variant), length = 7;
    uint64_t place = 7;

    HOLDS(hunkravy_journal_init(variant, &st, 255, id, nonce, k, n, start) == HUNKRAVY_WRONG_PAGE_SIZE);
    HOLDS(hunkravy_journal_init(variant, &st, 256, id, nonce, k, n, start) == HUNKRAVY_OK);
    HOLDS(hunkravy_journal_entry(&st, (UINT64_C(1) << 63) - 3, k, 3, head) == HUNKRAVY_FILE_TOO_LONG);
    HOLDS(hunkravy_journal_entry(&st, (UINT64_C(1) << 63) - 4, k, 3, head) == HUNKRAVY_OK);
    HOLDS(hunkravy_mac_update(&st, k, 3) == HUNKRAVY_WRONG_STATE);
    HOLDS(hunkravy_journal_final(&st, mac) == HUNKRAVY_OK && hunkravy_journal_final(&st, mac) == HUNKRAVY_WRONG_STATE);
    HOLDS(hunkravy_journal_next(head, 3, &place, &length) == HUNKRAVY_NO_WRITE && place == 7 && length == 7);
}

/* The steps of a commit or of a recovery are these digits, and then there are none. */
static void check_steps(uint32_t (*step)(uint64_t, uint64_t, uint64_t *), const char *wanted, uint64_t writes)
{
    uint64_t made = 0, write, count = strlen(wanted);

    for (uint64_t i = 0; i < count; i++) {
        write = 77;
        HOLDS(step(i, writes, &write) == (uint32_t)(wanted[i] - '0'));
        HOLDS(write == (wanted[i] == '5' ? made++ : 77));
    }
    write = 77;
    HOLDS(made == writes && step(count, writes, &write) == HUNKRAVY_STEP_DONE);
    HOLDS(step(UINT64_MAX, writes, &write) == HUNKRAVY_STEP_DONE && write == 77);
}

int main(void)
{
    uint64_t write = 0;

    for (uint32_t variant = 0; variant < COUNT(VARIANTS); variant++) {
        check_writing(variant);
    }
    check_steps(hunkravy_commit_step, "1323555673", 3);
    check_steps(hunkravy_commit_step, "1323673", 0);
    check_steps(hunkravy_recovery_step, "645673", 1);
    check_steps(hunkravy_recovery_step, "6373", 0);
    HOLDS(hunkravy_commit_step(UINT64_MAX, UINT64_MAX, &write) == HUNKRAVY_STEP_MAKE_WRITE && write == UINT64_MAX - 4);
    printf("journals and steps: %lu checks, all right\n", checks);
    return EXIT_SUCCESS;
}
