/*
 * Computes the MAC of an input that comes in chunks, with AEGIS-256, and verifies it.
 *
 * cc mac.c $(pkg-config --cflags --libs hunkravy)
 */
#include "hunkravy.h"

#include <stdlib.h>
#include <sys/random.h>
#include <unistd.h>

int main(void)
{
    static const uint8_t first[] = "the first chunk", second[] = "the second chunk";
    /* A MAC needs no nonce: pass zeros. */
    static const uint8_t nonce[HUNKRAVY_AEGIS256_NONCE_BYTES];
    uint8_t key[HUNKRAVY_AEGIS256_KEY_BYTES], mac[HUNKRAVY_LONG_TAG_BYTES];
    hunkravy_state state;
    int is_right, is_changed_rejected;

    if (getentropy(key, sizeof key) != 0 ||
        hunkravy_mac_init(HUNKRAVY_AEGIS256, &state, nonce, sizeof nonce, key, sizeof key) != HUNKRAVY_OK ||
        hunkravy_mac_update(&state, first, sizeof first) != HUNKRAVY_OK ||
        hunkravy_mac_update(&state, second, sizeof second) != HUNKRAVY_OK ||
        hunkravy_mac_final(&state, mac, sizeof mac) != HUNKRAVY_OK) {
        return EXIT_FAILURE;
    }
    is_right = hunkravy_mac_final_verify(&state, mac, sizeof mac) == HUNKRAVY_OK;
    mac[0] ^= 1;
    is_changed_rejected = hunkravy_mac_final_verify(&state, mac, sizeof mac) == HUNKRAVY_INVALID_TAG;
    hunkravy_wipe(&state, sizeof state);
    hunkravy_wipe(key, sizeof key);
    return is_right && is_changed_rejected ? EXIT_SUCCESS : EXIT_FAILURE;
}
