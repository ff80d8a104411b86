/* SHA-256 (FIPS 180-4), which fingerprints are compared with. */
#ifndef SHA256_H
#define SHA256_H

#include <stddef.h>
#include <stdint.h>

struct sha256 {
    uint32_t hash[8];
    uint8_t block[64];
    uint64_t octets; /* that were added */
};

void sha256_begin(struct sha256 *state);
void sha256_add(struct sha256 *state, const uint8_t *octets, size_t length);
void sha256_end(struct sha256 *state, uint8_t digest[32]);

#endif
