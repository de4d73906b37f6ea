/*
 * Encrypts in place and to another buffer, in turns, and prints the time of each turn for table.py. Both buffers were
 * touched before, and are in huge pages, if the system has any. The turns are made at four places of the stack, as in
 * peers.c.
 */
#define _DEFAULT_SOURCE
#include "hunkravy.h"

#include <stdio.h>
#include <stdlib.h>
#include <sys/mman.h>
#include <time.h>

#define TURNS 96
#define PLACES 4
#define TURN_BYTES (64 * 1024)
#define LONGEST (64 * 1024 * 1024)
#define HUGE_PAGE (2 * 1024 * 1024)

static const struct {
    size_t length;
    const char *name;
} SIZES[] = {{64, "64"}, {1024, "1 KiB"}, {16384, "16 KiB"}, {1024 * 1024, "1 MiB"}, {LONGEST, "64 MiB"}};
static const char *const VARIANTS[] = {
    "AEGIS-128L", "AEGIS-128X2", "AEGIS-128X4", "AEGIS-256", "AEGIS-256X2", "AEGIS-256X4"};

#define COUNT(values) (sizeof(values) / sizeof(values)[0])

static _Alignas(HUGE_PAGE) uint8_t buffer[LONGEST], other[LONGEST];

static void encrypt(uint32_t variant, uint8_t *to, size_t length)
{
    static const uint8_t key[32], nonce[32];
    size_t bytes = hunkravy_key_bytes(variant);
    uint8_t tag[32];

    int code = to == buffer
        ? hunkravy_encrypt_in_place(variant, buffer, length, NULL, 0, nonce, bytes, key, bytes, tag, sizeof tag)
        : hunkravy_encrypt(variant, to, buffer, length, NULL, 0, nonce, bytes, key, bytes, tag, sizeof tag);
    if (code != HUNKRAVY_OK) {
        abort();
    }
}

static double now(void)
{
    struct timespec time;

    timespec_get(&time, TIME_UTC);
    return (double)time.tv_sec + (double)time.tv_nsec * 1e-9;
}

/* One turn: as many messages as TURN_BYTES make, and one at least, after one that is not timed. */
static void turn(uint32_t variant, size_t size, uint8_t *to, size_t place)
{
    volatile uint8_t room[16 * (place + 1)];
    size_t length = SIZES[size].length, count = length < TURN_BYTES ? TURN_BYTES / length : 1;

    room[place] = 0;
    encrypt(variant, to, length);
    double begin = now();
    for (size_t i = 0; i < count; i++) {
        encrypt(variant, to, length);
    }
    printf("x86-64-v%d | %s | %s\t%s\t%.9f\t%zu\n", hunkravy_level(), VARIANTS[variant],
        to == buffer ? "in place" : "another buffer", SIZES[size].name, now() - begin, count * length);
    (void)room[place];
}

int main(void)
{
    (void)!madvise(buffer, sizeof buffer, MADV_HUGEPAGE);
    (void)!madvise(other, sizeof other, MADV_HUGEPAGE);
    for (size_t i = 0; i < TURNS; i++) {
        for (size_t size = 0; size < COUNT(SIZES) && (SIZES[size].length < LONGEST || i % 8 < PLACES); size++) {
            for (uint32_t variant = 0; variant < COUNT(VARIANTS); variant++) {
                turn(variant, size, buffer, i % PLACES);
                turn(variant, size, other, i % PLACES);
            }
        }
    }
    return EXIT_SUCCESS;
}
