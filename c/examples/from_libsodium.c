/*
 * A program for libsodium, with one include line changed: a message is encrypted with its tag, and decrypted.
 *
 * cc from_libsodium.c $(pkg-config --cflags --libs hunkravy)
 */
#include "hunkravy_sodium.h" /* was: #include <sodium.h> */

#include <stdio.h>
#include <stdlib.h>
#include <string.h>

#define MESSAGE (const unsigned char *)"test"
#define MESSAGE_LEN 4
#define ADDITIONAL_DATA (const unsigned char *)"123456"
#define ADDITIONAL_DATA_LEN 6

int main(void)
{
    unsigned char nonce[crypto_aead_aegis256_NPUBBYTES];
    unsigned char key[crypto_aead_aegis256_KEYBYTES];
    unsigned char ciphertext[MESSAGE_LEN + crypto_aead_aegis256_ABYTES];
    unsigned char decrypted[MESSAGE_LEN];
    unsigned long long ciphertext_len, decrypted_len;

    if (sodium_init() < 0) {
        return EXIT_FAILURE;
    }
    crypto_aead_aegis256_keygen(key);
    randombytes_buf(nonce, sizeof nonce);
    crypto_aead_aegis256_encrypt(
        ciphertext, &ciphertext_len, MESSAGE, MESSAGE_LEN, ADDITIONAL_DATA, ADDITIONAL_DATA_LEN, NULL, nonce, key);
    if (crypto_aead_aegis256_decrypt(decrypted, &decrypted_len, NULL, ciphertext, ciphertext_len, ADDITIONAL_DATA,
            ADDITIONAL_DATA_LEN, nonce, key) != 0 ||
        decrypted_len != MESSAGE_LEN || memcmp(decrypted, MESSAGE, MESSAGE_LEN) != 0) {
        return EXIT_FAILURE;
    }
    ciphertext[0] ^= 1;
    if (crypto_aead_aegis256_decrypt(decrypted, &decrypted_len, NULL, ciphertext, ciphertext_len, ADDITIONAL_DATA,
            ADDITIONAL_DATA_LEN, nonce, key) == 0) {
        return EXIT_FAILURE;
    }
    sodium_memzero(key, sizeof key);
    puts("libsodium: the message came back, and the changed ciphertext was rejected");
    return EXIT_SUCCESS;
}
