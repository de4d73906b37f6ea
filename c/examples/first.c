/*
 * Encrypts a message with AEGIS-256, and decrypts it again.
 *
 * cc first.c $(pkg-config --cflags --libs hunkravy)
 */
#include "hunkravy.h"

#include <string.h>
#include <sys/random.h>
#include <unistd.h>

int main(void)
{
    static const uint8_t message[] = "a message", header[] = "header";
    uint8_t key[HUNKRAVY_AEGIS256_KEY_BYTES], nonce[HUNKRAVY_AEGIS256_NONCE_BYTES];
    uint8_t ciphertext[sizeof message + HUNKRAVY_LONG_TAG_BYTES], opened[sizeof message];

    if (getentropy(key, sizeof key) != 0 || getentropy(nonce, sizeof nonce) != 0 ||
        hunkravy_encrypt_combined(HUNKRAVY_AEGIS256, ciphertext, message, sizeof message, header, sizeof header, nonce,
            sizeof nonce, key, sizeof key, HUNKRAVY_LONG_TAG_BYTES) != HUNKRAVY_OK ||
        hunkravy_decrypt_combined(HUNKRAVY_AEGIS256, opened, ciphertext, sizeof ciphertext, header, sizeof header,
            nonce, sizeof nonce, key, sizeof key, HUNKRAVY_LONG_TAG_BYTES) != HUNKRAVY_OK) {
        return 1; /* no random bytes, or something was changed */
    }
    return memcmp(opened, message, sizeof message) != 0;
}
