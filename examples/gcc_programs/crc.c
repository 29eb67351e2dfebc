/* Checksums of "123456789", and of 20,000 bytes that look like chance: CRC-32 (ISO 3309) by a table of bytes and by one of
   half bytes, CRC-32C (RFC 3720) bit by bit, and CRC-16 of ITU-T V.41 with ones at first. Leaves with 1 where the first are not
   those that the catalogues give, or the two tables don't agree. */

#include "guest.h"

enum { LENGTH = 20000 };

static unsigned of_byte[256], of_half[16];

/* A checksum after `count` bits more, lowest first. */
static unsigned after_bits(unsigned sum, unsigned polynomial, unsigned count) {
    for (; count > 0; count -= 1)
        sum = sum >> 1 ^ (sum & 1 ? polynomial : 0);
    return sum;
}

static void make_tables(void) {
    for (unsigned byte = 0; byte < 256; byte += 1)
        of_byte[byte] = after_bits(byte, 0xedb88320, 8);
    for (unsigned half = 0; half < 16; half += 1)
        of_half[half] = after_bits(half, 0xedb88320, 4);
}

static unsigned crc32(const unsigned char *bytes, unsigned length) {
    unsigned sum = 0xffffffff;
    for (unsigned i = 0; i < length; i += 1)
        sum = sum >> 8 ^ of_byte[(sum ^ bytes[i]) & 255];
    return ~sum;
}

static unsigned crc32_by_halves(const unsigned char *bytes, unsigned length) {
    unsigned sum = 0xffffffff;
    for (unsigned i = 0; i < length; i += 1) {
        sum = sum >> 4 ^ of_half[(sum ^ bytes[i]) & 15];
        sum = sum >> 4 ^ of_half[(sum ^ bytes[i] >> 4) & 15];
    }
    return ~sum;
}

static unsigned crc32c(const unsigned char *bytes, unsigned length) {
    unsigned sum = 0xffffffff;
    for (unsigned i = 0; i < length; i += 1)
        sum = after_bits(sum ^ bytes[i], 0x82f63b78, 8);
    return ~sum;
}

static unsigned short crc16(const unsigned char *bytes, unsigned length) {
    unsigned short sum = 0xffff;
    for (unsigned i = 0; i < length; i += 1) {
        sum ^= bytes[i] << 8;
        for (unsigned bit = 0; bit < 8; bit += 1)
            sum = sum << 1 ^ (sum & 0x8000 ? 0x1021 : 0);
    }
    return sum;
}

/* Prints all checksums of some bytes, and says whether the two tables give the same. */
static int agree(const unsigned char *bytes, unsigned length) {
    unsigned whole = crc32(bytes, length), halves = crc32_by_halves(bytes, length);
    print_hex(whole, 8);
    print(" ");
    print_hex(halves, 8);
    print(" ");
    print_hex(crc32c(bytes, length), 8);
    print(" ");
    print_hex(crc16(bytes, length), 4);
    print("\n");
    return whole == halves;
}

static unsigned char drawn[LENGTH];

int guest(void) {
    const unsigned char *digits = (const unsigned char *)"123456789";
    make_tables();
    draw_bytes(drawn, LENGTH);
    int same = agree(digits, 9) & agree(drawn, LENGTH);
    int known = crc32(digits, 9) == 0xcbf43926 && crc32c(digits, 9) == 0xe3069283 && crc16(digits, 9) == 0x29b1;
    return !(same && known);
}
