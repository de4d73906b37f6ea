/*
 * Encrypts in place with the library and with libsodium, in one process and in turns, and prints the time of each turn
 * for table.py.
 *
 * libsodium's AEGIS is measured before sodium_init, where it runs in software, and after it, where it runs with the
 * processor's AES instructions; its ChaCha20-Poly1305 and its AES-256-GCM, which needs these instructions, after it.
 * How fast a loop is depends on where its vectors on the stack lie in the lines of the cache, so the turns are made at
 * four places of the stack. Each call does all of its work on one message with no associated data. AEGIS makes tags of
 * 32 bytes.
 */
#include "hunkravy.h"

#include <sodium.h>
#include <stdio.h>
#include <stdlib.h>
#include <time.h>

/* The turns, a quarter of them at each of four places of the stack, which are 16 bytes apart. */
#define TURNS 240
#define PLACES 4
#define TURN_BYTES (64 * 1024)
#define LONGEST (1024 * 1024)

static const size_t SIZES[] = {64, 1024, 16 * 1024, LONGEST};
static const char *const SIZE_NAMES[] = {"64", "1 KiB", "16 KiB", "1 MiB"};
#define SIZE_COUNT (sizeof SIZES / sizeof SIZES[0])

static uint8_t buffer[LONGEST];
static const uint8_t key[32], nonce[32];

static void expect(int holds)
{
    if (!holds) {
        abort();
    }
}

#define OURS(NAME, VARIANT, KEY_BYTES) \
    static void ours_##NAME(size_t length) \
    { \
        uint8_t tag[32]; \
        expect(hunkravy_encrypt_in_place(VARIANT, buffer, length, NULL, 0, nonce, KEY_BYTES, key, KEY_BYTES, tag, \
                   sizeof tag) == HUNKRAVY_OK); \
    }

#define SODIUM(NAME) \
    static void sodium_##NAME(size_t length) \
    { \
        uint8_t tag[32]; \
        expect( \
            crypto_aead_##NAME##_encrypt_detached(buffer, tag, NULL, buffer, length, NULL, 0, NULL, nonce, key) == 0); \
    }

OURS(aegis128l, HUNKRAVY_AEGIS128L, 16)
OURS(aegis128x2, HUNKRAVY_AEGIS128X2, 16)
OURS(aegis128x4, HUNKRAVY_AEGIS128X4, 16)
OURS(aegis256, HUNKRAVY_AEGIS256, 32)
OURS(aegis256x2, HUNKRAVY_AEGIS256X2, 32)
OURS(aegis256x4, HUNKRAVY_AEGIS256X4, 32)
SODIUM(aegis128l)
SODIUM(aegis256)
SODIUM(chacha20poly1305_ietf)
SODIUM(aes256gcm)

struct contender {
    const char *name;
    void (*encrypt)(size_t length);
};

static double now(void)
{
    struct timespec time;

    timespec_get(&time, TIME_UTC);
    return (double)time.tv_sec + (double)time.tv_nsec * 1e-9;
}

/* One turn: as many messages as TURN_BYTES make, and one at least, after one that is not timed. */
static void turn(const struct contender *contender, size_t size, size_t place)
{
    volatile uint8_t room[16 * (place + 1)];
    size_t length = SIZES[size], count = length < TURN_BYTES ? TURN_BYTES / length : 1;
    double begin, seconds;

    room[place] = 0;
    contender->encrypt(length);
    begin = now();
    for (size_t i = 0; i < count; i++) {
        contender->encrypt(length);
    }
    seconds = now() - begin;
    expect(room[place] == 0);
    printf("%s\t%s\t%.9f\t%zu\n", contender->name, SIZE_NAMES[size], seconds, count * length);
}

/* Each length has turns in all of the time that the measurement takes. */
static void measure(const struct contender *contenders, size_t count)
{
    for (size_t i = 0; i < TURNS; i++) {
        for (size_t size = 0; size < SIZE_COUNT; size++) {
            for (size_t c = 0; c < count; c++) {
                turn(&contenders[c], size, i % PLACES);
            }
        }
    }
}

int main(void)
{
    static const struct contender software[] = {
        {"libsodium AEGIS-128L, software", sodium_aegis128l},
        {"libsodium AEGIS-256, software", sodium_aegis256},
    };
    static const struct contender all[] = {
        {"AEGIS-128L", ours_aegis128l},
        {"AEGIS-128X2", ours_aegis128x2},
        {"AEGIS-128X4", ours_aegis128x4},
        {"AEGIS-256", ours_aegis256},
        {"AEGIS-256X2", ours_aegis256x2},
        {"AEGIS-256X4", ours_aegis256x4},
        {"libsodium ChaCha20-Poly1305", sodium_chacha20poly1305_ietf},
        {"libsodium AES-256-GCM, AES instructions", sodium_aes256gcm},
        {"libsodium AEGIS-128L, AES instructions", sodium_aegis128l},
        {"libsodium AEGIS-256, AES instructions", sodium_aegis256},
    };

    measure(software, sizeof software / sizeof software[0]);
    expect(sodium_init() >= 0 && crypto_aead_aes256gcm_is_available());
    measure(all, sizeof all / sizeof all[0]);
    printf(
        "libsodium %s, hunkravy at level %d, C compiler %s.\n", sodium_version_string(), hunkravy_level(), __VERSION__);
    return 0;
}
