#include "sha256.h"

#include <string.h>

static const uint32_t K[64] = {
    0x428a2f98, 0x71374491, 0xb5c0fbcf, 0xe9b5dba5, 0x3956c25b, 0x59f111f1, 0x923f82a4, 0xab1c5ed5, 0xd807aa98, 0x12835b01, 0x243185be,
    0x550c7dc3, 0x72be5d74, 0x80deb1fe, 0x9bdc06a7, 0xc19bf174, 0xe49b69c1, 0xefbe4786, 0x0fc19dc6, 0x240ca1cc, 0x2de92c6f, 0x4a7484aa,
    0x5cb0a9dc, 0x76f988da, 0x983e5152, 0xa831c66d, 0xb00327c8, 0xbf597fc7, 0xc6e00bf3, 0xd5a79147, 0x06ca6351, 0x14292967, 0x27b70a85,
    0x2e1b2138, 0x4d2c6dfc, 0x53380d13, 0x650a7354, 0x766a0abb, 0x81c2c92e, 0x92722c85, 0xa2bfe8a1, 0xa81a664b, 0xc24b8b70, 0xc76c51a3,
    0xd192e819, 0xd6990624, 0xf40e3585, 0x106aa070, 0x19a4c116, 0x1e376c08, 0x2748774c, 0x34b0bcb5, 0x391c0cb3, 0x4ed8aa4a, 0x5b9cca4f,
    0x682e6ff3, 0x748f82ee, 0x78a5636f, 0x84c87814, 0x8cc70208, 0x90befffa, 0xa4506ceb, 0xbef9a3f7, 0xc67178f2,
};

static const uint32_t BEGIN[8] = {
    0x6a09e667, 0xbb67ae85, 0x3c6ef372, 0xa54ff53a, 0x510e527f, 0x9b05688c, 0x1f83d9ab, 0x5be0cd19,
};

static uint32_t turned(uint32_t word, int bits)
{
    return word >> bits | word << (32 - bits);
}

/* The message schedule (6.2.2, step 1). */
static void prepare(const uint8_t block[64], uint32_t words[64])
{
    for (int i = 0; i < 16; i++)
        words[i] = (uint32_t)block[4 * i] << 24 | (uint32_t)block[4 * i + 1] << 16 | (uint32_t)block[4 * i + 2] << 8 | block[4 * i + 3];
    for (int i = 16; i < 64; i++) {
        uint32_t one = words[i - 2], other = words[i - 15];

        words[i] = (turned(one, 17) ^ turned(one, 19) ^ one >> 10) + words[i - 7] + (turned(other, 7) ^ turned(other, 18) ^ other >> 3)
            + words[i - 16];
    }
}

static void add_block(struct sha256 *state)
{
    uint32_t words[64];
    uint32_t at[8]; /* a to h */

    prepare(state->block, words);
    memcpy(at, state->hash, sizeof at);
    for (int i = 0; i < 64; i++) {
        uint32_t one = at[7] + (turned(at[4], 6) ^ turned(at[4], 11) ^ turned(at[4], 25)) + ((at[4] & at[5]) ^ (~at[4] & at[6])) + K[i]
            + words[i];
        uint32_t two = (turned(at[0], 2) ^ turned(at[0], 13) ^ turned(at[0], 22)) + ((at[0] & at[1]) ^ (at[0] & at[2]) ^ (at[1] & at[2]));

        memmove(at + 1, at, 7 * sizeof at[0]);
        at[4] += one;
        at[0] = one + two;
    }
    for (int i = 0; i < 8; i++)
        state->hash[i] += at[i];
}

void sha256_begin(struct sha256 *state)
{
    memcpy(state->hash, BEGIN, sizeof state->hash);
    state->octets = 0;
}

void sha256_add(struct sha256 *state, const uint8_t *octets, size_t length)
{
    for (size_t i = 0; i < length; i++) {
        state->block[state->octets++ % 64] = octets[i];
        if (state->octets % 64 == 0)
            add_block(state);
    }
}

void sha256_end(struct sha256 *state, uint8_t digest[32])
{
    static const uint8_t ONE = 0x80, ZERO = 0;
    uint64_t bits = state->octets * 8;
    uint8_t length[8];

    for (int i = 0; i < 8; i++)
        length[i] = (uint8_t)(bits >> 8 * (7 - i));
    sha256_add(state, &ONE, 1);
    while (state->octets % 64 != 56)
        sha256_add(state, &ZERO, 1);
    sha256_add(state, length, sizeof length);
    for (int i = 0; i < 32; i++)
        digest[i] = (uint8_t)(state->hash[i / 4] >> 8 * (3 - i % 4));
}
