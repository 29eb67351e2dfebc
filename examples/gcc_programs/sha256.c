/* The SHA-256 digests (FIPS 180-4) of nothing, of "abc", and of 20,000 bytes that look like chance. Leaves with 1 where the
   first two aren't what the standard's examples say. */

#include "guest.h"

enum { BLOCK = 64, LENGTH = 20000 };

static const unsigned ROUND[64] = {
    0x428a2f98, 0x71374491, 0xb5c0fbcf, 0xe9b5dba5, 0x3956c25b, 0x59f111f1, 0x923f82a4, 0xab1c5ed5,
    0xd807aa98, 0x12835b01, 0x243185be, 0x550c7dc3, 0x72be5d74, 0x80deb1fe, 0x9bdc06a7, 0xc19bf174,
    0xe49b69c1, 0xefbe4786, 0x0fc19dc6, 0x240ca1cc, 0x2de92c6f, 0x4a7484aa, 0x5cb0a9dc, 0x76f988da,
    0x983e5152, 0xa831c66d, 0xb00327c8, 0xbf597fc7, 0xc6e00bf3, 0xd5a79147, 0x06ca6351, 0x14292967,
    0x27b70a85, 0x2e1b2138, 0x4d2c6dfc, 0x53380d13, 0x650a7354, 0x766a0abb, 0x81c2c92e, 0x92722c85,
    0xa2bfe8a1, 0xa81a664b, 0xc24b8b70, 0xc76c51a3, 0xd192e819, 0xd6990624, 0xf40e3585, 0x106aa070,
    0x19a4c116, 0x1e376c08, 0x2748774c, 0x34b0bcb5, 0x391c0cb3, 0x4ed8aa4a, 0x5b9cca4f, 0x682e6ff3,
    0x748f82ee, 0x78a5636f, 0x84c87814, 0x8cc70208, 0x90befffa, 0xa4506ceb, 0xbef9a3f7, 0xc67178f2,
};

static const unsigned FIRST[8] = {
    0x6a09e667, 0xbb67ae85, 0x3c6ef372, 0xa54ff53a, 0x510e527f, 0x9b05688c, 0x1f83d9ab, 0x5be0cd19,
};

static const unsigned OF_NOTHING[8] = {
    0xe3b0c442, 0x98fc1c14, 0x9afbf4c8, 0x996fb924, 0x27ae41e4, 0x649b934c, 0xa495991b, 0x7852b855,
};

static const unsigned OF_ABC[8] = {
    0xba7816bf, 0x8f01cfea, 0x414140de, 0x5dae2223, 0xb00361a3, 0x96177a9c, 0xb410ff61, 0xf20015ad,
};

static unsigned turned(unsigned word, unsigned count) { return word >> count | word << (32 - count); }

static unsigned word_at(const unsigned char *bytes) {
    return (unsigned)bytes[0] << 24 | bytes[1] << 16 | bytes[2] << 8 | bytes[3];
}

/* Takes one block into the digest. */
static void take_block(unsigned digest[8], const unsigned char *block) {
    unsigned words[64];
    for (unsigned i = 0; i < 16; i += 1)
        words[i] = word_at(block + 4 * i);
    for (unsigned i = 16; i < 64; i += 1) {
        unsigned low = words[i - 15], high = words[i - 2];
        low = turned(low, 7) ^ turned(low, 18) ^ low >> 3;
        high = turned(high, 17) ^ turned(high, 19) ^ high >> 10;
        words[i] = words[i - 16] + low + words[i - 7] + high;
    }
    unsigned a = digest[0], b = digest[1], c = digest[2], d = digest[3];
    unsigned e = digest[4], f = digest[5], g = digest[6], h = digest[7];
    for (unsigned i = 0; i < 64; i += 1) {
        unsigned first = h + (turned(e, 6) ^ turned(e, 11) ^ turned(e, 25)) + ((e & f) ^ (~e & g)) + ROUND[i] + words[i];
        unsigned second = (turned(a, 2) ^ turned(a, 13) ^ turned(a, 22)) + ((a & b) ^ (a & c) ^ (b & c));
        h = g, g = f, f = e, e = d + first;
        d = c, c = b, b = a, a = first + second;
    }
    digest[0] += a, digest[1] += b, digest[2] += c, digest[3] += d;
    digest[4] += e, digest[5] += f, digest[6] += g, digest[7] += h;
}

/* The digest of some bytes, fewer than 2 to the 29. */
static void digest_of(unsigned digest[8], const unsigned char *bytes, unsigned length) {
    unsigned char last[2 * BLOCK];
    unsigned whole = length / BLOCK * BLOCK, rest = length - whole;
    unsigned ends = rest < BLOCK - 8 ? BLOCK : 2 * BLOCK;
    for (unsigned i = 0; i < 8; i += 1)
        digest[i] = FIRST[i];
    for (unsigned i = 0; i < whole; i += BLOCK)
        take_block(digest, bytes + i);
    for (unsigned i = 0; i < ends; i += 1)
        last[i] = i < rest ? bytes[whole + i] : i == rest ? 0x80 : 0;
    for (unsigned i = 0; i < 4; i += 1)
        last[ends - 4 + i] = length * 8 >> (24 - 8 * i);
    for (unsigned i = 0; i < ends; i += BLOCK)
        take_block(digest, last + i);
}

static void print_digest(const unsigned digest[8]) {
    for (unsigned i = 0; i < 8; i += 1)
        print_hex(digest[i], 8);
    print("\n");
}

static int differ(const unsigned digest[8], const unsigned other[8]) {
    unsigned differing = 0;
    for (unsigned i = 0; i < 8; i += 1)
        differing |= digest[i] ^ other[i];
    return differing != 0;
}

static unsigned char drawn[LENGTH];

int guest(void) {
    unsigned nothing[8], abc[8], digest[8];
    digest_of(nothing, drawn, 0);
    print_digest(nothing);
    digest_of(abc, (const unsigned char *)"abc", 3);
    print_digest(abc);
    draw_bytes(drawn, LENGTH);
    digest_of(digest, drawn, LENGTH);
    print_digest(digest);
    return differ(nothing, OF_NOTHING) | differ(abc, OF_ABC);
}
