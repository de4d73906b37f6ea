/*
 * Encrypts a message into a packet, and decrypts it again: AEGIS-256, a random nonce, a tag of 32 bytes. A packet that
 * is sent twice decrypts twice: if that matters, number the messages and reject repeats.
 *
 * cc seal.c $(pkg-config --cflags --libs hunkravy)
 */
#include "hunkravy.h"

#include <stdio.h>
#include <stdlib.h>
#include <string.h>
#include <sys/random.h>
#include <unistd.h>

/* A packet is the nonce, the ciphertext, and the tag. */
#define NONCE_BYTES HUNKRAVY_AEGIS256_NONCE_BYTES
#define TAG_BYTES HUNKRAVY_LONG_TAG_BYTES
#define PACKET_BYTES(message_bytes) (NONCE_BYTES + (message_bytes) + TAG_BYTES)

/* Both sides know it: it is authenticated with the message, and not sent. */
static const uint8_t CONTEXT[] = "example packets, version 1";

/*
 * Writes the packet of a message, PACKET_BYTES(length) bytes. Returns 0, or -1 if it failed; there
 * is then nothing to send.
 */
static int seal_packet(uint8_t *packet, const uint8_t *message, size_t length, const uint8_t *key)
{
    int code;
    if (getentropy(packet, NONCE_BYTES) != 0) {
        return -1;
    }
    code = hunkravy_encrypt_combined(HUNKRAVY_AEGIS256, packet + NONCE_BYTES, message, length, CONTEXT, sizeof CONTEXT,
        packet, NONCE_BYTES, key, HUNKRAVY_AEGIS256_KEY_BYTES, TAG_BYTES);
    return code == HUNKRAVY_OK ? 0 : -1;
}

/* Writes the message of a packet of `length` bytes. Returns 0, or -1 if it is not a packet of this key. */
static int open_packet(uint8_t *message, const uint8_t *packet, size_t length, const uint8_t *key)
{
    int code;
    if (length < PACKET_BYTES(0)) {
        return -1;
    }
    code = hunkravy_decrypt_combined(HUNKRAVY_AEGIS256, message, packet + NONCE_BYTES, length - NONCE_BYTES, CONTEXT,
        sizeof CONTEXT, packet, NONCE_BYTES, key, HUNKRAVY_AEGIS256_KEY_BYTES, TAG_BYTES);
    return code == HUNKRAVY_OK ? 0 : -1;
}

/* Seals and opens a packet, and then a changed one. Returns 0 if every step ends as expected. */
static int try_packet(const uint8_t *key)
{
    static const uint8_t message[] = "a message";
    uint8_t packet[PACKET_BYTES(sizeof message)];
    uint8_t opened[sizeof message];

    if (seal_packet(packet, message, sizeof message, key) != 0 ||
        open_packet(opened, packet, sizeof packet, key) != 0 || memcmp(opened, message, sizeof message) != 0) {
        return -1;
    }
    packet[NONCE_BYTES] ^= 1;
    return open_packet(opened, packet, sizeof packet, key) == 0 ? -1 : 0;
}

int main(void)
{
    uint8_t key[HUNKRAVY_AEGIS256_KEY_BYTES];
    int result;

    if (getentropy(key, sizeof key) != 0) {
        return EXIT_FAILURE;
    }
    result = try_packet(key);
    hunkravy_wipe(key, sizeof key);
    if (result != 0) {
        return EXIT_FAILURE;
    }
    puts("hunkravy: the packet was opened, and the changed packet was rejected");
    return EXIT_SUCCESS;
}
