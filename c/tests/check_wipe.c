/*
 * What is left of a key and of a state that were wiped and dropped, compiled with -O3. They lie on
 * the stack of a function that runs on an array of this program, so the array has their bytes after
 * the function has returned. A memset in the place of hunkravy_wipe leaves them there: the compiler
 * drops it, since nothing reads what it writes. It ends with status 0 only if every result is right.
 */
#include <errno.h>
#include <stdint.h>
#include <stdio.h>
#include <stdlib.h>
#include <string.h>
#include <ucontext.h>

#include "check.h"
#include "hunkravy_sodium.h"

static uint8_t stack[1 << 18];
static ucontext_t caller, callee;

/* Where a secret lies in the array, and what the compiler cannot see into. */
static volatile size_t place;
static void (*volatile drops)(void);
static void (*volatile fills)(uint8_t *, size_t) = fill;

static size_t place_of(const void *secret)
{
    return (size_t)((uintptr_t)secret - (uintptr_t)stack);
}

static inline void set_to_zeros(void *bytes, size_t length)
{
    memset(bytes, 0, length);
}

#define DROPS(NAME, OVERWRITE) \
    static void NAME##_key(void) \
    { \
        uint8_t key[32]; \
        fills(key, sizeof key); \
        place = place_of(key); \
        OVERWRITE(key, sizeof key); \
    } \
    static void NAME##_state(void) \
    { \
        static const uint8_t key[32] = {1}, nonce[32] = {2}; \
        uint8_t chunk[20] = {3}; \
        hunkravy_state st; \
        HOLDS(hunkravy_state_init(HUNKRAVY_AEGIS256, &st, NULL, 0, nonce, 32, key, 32) == HUNKRAVY_OK); \
        HOLDS(hunkravy_state_encrypt_in_place(&st, chunk, sizeof chunk) == HUNKRAVY_OK); \
        place = place_of(&st); \
        OVERWRITE(&st, sizeof st); \
    }

DROPS(wiped, hunkravy_wipe)
DROPS(zeroed, sodium_memzero)
DROPS(set, set_to_zeros)

/* The state of a ciphertext that is verified, as hunkravy_verify has it before it compares the tag. */
static const uint8_t KEY[32] = {1}, NONCE[32] = {2}, CIPHERTEXT[20] = {3};

static hunkravy_state state_of_verify(void)
{
    hunkravy_state st;
    HOLDS(hunkravy_state_init(HUNKRAVY_AEGIS256, &st, NULL, 0, NONCE, 32, KEY, 32) == HUNKRAVY_OK);
    HOLDS(hunkravy_state_decrypt_check(&st, CIPHERTEXT, sizeof CIPHERTEXT) == HUNKRAVY_OK);
    return st;
}

static void verify(void)
{
    static const uint8_t mac[32] = {4};
    HOLDS(hunkravy_verify(HUNKRAVY_AEGIS256, CIPHERTEXT, sizeof CIPHERTEXT, NULL, 0, NONCE, 32, KEY, 32, mac, 32) ==
        HUNKRAVY_INVALID_TAG);
}

static void keep_state(void)
{
    hunkravy_state st = state_of_verify();
    place = place_of(&st);
}

/* The space keeps what a return from here writes away from the function's bytes. */
static void call(void)
{
    volatile uint8_t space[4096];
    space[0] = 0;
    drops();
    space[1] = space[0];
}

/* Runs a function on the array. */
static void run(void (*function)(void))
{
    memset(stack, 0x55, sizeof stack);
    drops = function;
    HOLDS(getcontext(&callee) == 0);
    callee.uc_stack.ss_sp = stack;
    callee.uc_stack.ss_size = sizeof stack;
    callee.uc_link = &caller;
    makecontext(&callee, call, 0);
    HOLDS(swapcontext(&caller, &callee) == 0);
}

/* Whether the `length` bytes of the secret are zeros, after the function that had it. */
static int is_zeros_after(void (*function)(void), size_t length)
{
    run(function);
    HOLDS(place < sizeof stack - length);
    return all_are(stack + place, length, 0);
}

/* Whether the state of a ciphertext that is verified is somewhere in the array, after a function. */
static int leaves_state(void (*function)(void))
{
    hunkravy_state st = state_of_verify();
    run(function);
    for (size_t i = 0; i + sizeof st <= sizeof stack; i += sizeof(uint64_t)) {
        if (memcmp(stack + i, &st, sizeof st) == 0) {
            return 1;
        }
    }
    return 0;
}

int main(void)
{
    uint8_t bytes[3] = {1, 2, 3};

    HOLDS(is_zeros_after(wiped_key, 32) && is_zeros_after(wiped_state, sizeof(hunkravy_state)));
    HOLDS(is_zeros_after(zeroed_key, 32) && is_zeros_after(zeroed_state, sizeof(hunkravy_state)));
    HOLDS(!leaves_state(verify) && leaves_state(keep_state));
    HOLDS(!is_zeros_after(set_key, 32) && !is_zeros_after(set_state, sizeof(hunkravy_state)));
    hunkravy_wipe(bytes + 1, 1);
    HOLDS(bytes[0] == 1 && bytes[1] == 0 && bytes[2] == 3);
    hunkravy_wipe(NULL, 0);
    printf("hunkravy_wipe: %lu checks, all right\n", checks);
    return EXIT_SUCCESS;
}
