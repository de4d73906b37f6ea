/*
 * Encrypts 1 GiB of memory in pieces of 64 KiB with AEGIS-256 and tags of 32 bytes, like the records of a sealed file.
 * bench/tool.sh compares the file tool with its processor time.
 */
#include <hunkravy.h>
#include <stdlib.h>

#define PIECE_BYTES 65536
#define PIECES 16384

int main(void)
{
    static uint8_t piece[PIECE_BYTES];
    uint8_t key[32] = {1}, nonce[32] = {2}, tag[32];
    for (int turn = 0; turn < PIECES; turn++) {
        nonce[24] = (uint8_t)turn;
        if (hunkravy_encrypt_in_place(HUNKRAVY_AEGIS256, piece, sizeof piece, NULL, 0, nonce, sizeof nonce, key,
                sizeof key, tag, sizeof tag) != HUNKRAVY_OK) {
            return EXIT_FAILURE;
        }
    }
    return EXIT_SUCCESS;
}
