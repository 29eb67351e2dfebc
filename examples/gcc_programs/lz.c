/* Compresses a text of 24,000 bytes, expands it again, and prints how long both are and the Adler-32 sums (RFC 1950) of the
   text and of what it was compressed to. Leaves with 1 where the expanded text isn't the first one.

   The compressed form (Storer and Szymanski, 1982) is groups of eight items behind a byte of flags, its lowest bit first: by
   a flag of 1 a byte as it is, by one of 0 two bytes, which say that 3 to 18 bytes are those of 1 to 4096 bytes before. */

#include "guest.h"

enum {
    LENGTH = 24000,
    LEAST = 3,      /* the fewest bytes that are worth saying */
    MOST = 18,      /* the most */
    REACH = 4096,   /* how far back they may lie */
    CHAINS = 1024,  /* the lists of places, by the bytes that stand there */
    TRIES = 16,     /* the most places of a list that are looked at */
};

static unsigned char text[LENGTH], compressed[LENGTH + LENGTH / 8 + 1], expanded[LENGTH];
static int latest[CHAINS], before[LENGTH]; /* places, or -1 */

static const char *const WORDS[16] = {
    "the ", "lock ", "is ", "free", ", ", "held ", "by ", "a ", "thread", ". ", "memory ", "has ", "no ", "word ", "that ", "waits ",
};

/* Writes words that are drawn by chance. */
static void write_text(void) {
    unsigned drawn = 1, length = 0;
    while (length < LENGTH) {
        drawn = next_drawn(drawn);
        for (const char *word = WORDS[drawn >> 28]; *word != 0 && length < LENGTH; word += 1)
            text[length++] = *word;
    }
}

static unsigned chain_of(unsigned place) {
    unsigned bytes = text[place] << 16 | text[place + 1] << 8 | text[place + 2];
    return bytes * 2654435761u >> 22;
}

/* Notes a place in its list. */
static void note(unsigned place) {
    if (place + LEAST > LENGTH)
        return;
    unsigned chain = chain_of(place);
    before[place] = latest[chain];
    latest[chain] = place;
}

/* How many bytes at two places are the same, `most` at most. */
static unsigned same_bytes(unsigned place, unsigned other, unsigned most) {
    unsigned count = 0;
    while (count < most && text[place + count] == text[other + count])
        count += 1;
    return count;
}

/* The longest run of bytes before a place that stands there again: its length, 0 where there is none, and where it is. */
static unsigned longest_before(unsigned place, unsigned *from) {
    unsigned longest = 0, most = LENGTH - place < MOST ? LENGTH - place : MOST;
    if (most < LEAST)
        return 0;
    int candidate = latest[chain_of(place)];
    for (unsigned tries = 0; tries < TRIES && candidate >= 0 && place - candidate <= REACH; tries += 1) {
        unsigned count = same_bytes(place, candidate, most);
        if (count > longest) {
            longest = count;
            *from = candidate;
        }
        candidate = before[candidate];
    }
    return longest >= LEAST ? longest : 0;
}

/* The length of the compressed text. */
static unsigned compress(void) {
    unsigned length = 0, flags = 0, items = 8;
    for (unsigned chain = 0; chain < CHAINS; chain += 1)
        latest[chain] = -1;
    for (unsigned place = 0; place < LENGTH; items += 1) {
        unsigned from = 0, count = longest_before(place, &from);
        if (items == 8) {
            items = 0;
            flags = length++;
            compressed[flags] = 0;
        }
        if (count == 0) {
            compressed[flags] |= 1 << items;
            compressed[length++] = text[place];
            count = 1;
        } else {
            unsigned said = (place - from - 1) << 4 | (count - LEAST);
            compressed[length++] = said >> 8;
            compressed[length++] = said;
        }
        for (; count > 0; count -= 1)
            note(place++);
    }
    return length;
}

/* The length of the expanded text. */
static unsigned expand(unsigned length) {
    unsigned place = 0, flags = 0;
    for (unsigned next = 0; next < length && place < LENGTH; flags >>= 1) {
        if (flags <= 1)
            flags = 0x100 | compressed[next++];
        if (flags & 1) {
            expanded[place++] = compressed[next++];
            continue;
        }
        unsigned said = compressed[next] << 8 | compressed[next + 1], from = place - (said >> 4) - 1;
        next += 2;
        for (unsigned count = (said & 15) + LEAST; count > 0 && place < LENGTH; count -= 1)
            expanded[place++] = expanded[from++];
    }
    return place;
}

static unsigned adler(const unsigned char *bytes, unsigned length) {
    unsigned low = 1, high = 0;
    for (unsigned i = 0; i < length; i += 1) {
        low += bytes[i];
        low -= low >= 65521 ? 65521 : 0;
        high += low;
        high -= high >= 65521 ? 65521 : 0;
    }
    return high << 16 | low;
}

static void print_line(const char *name, const unsigned char *bytes, unsigned length) {
    print(name);
    print_number(length);
    print(" ");
    print_hex(adler(bytes, length), 8);
    print("\n");
}

int guest(void) {
    write_text();
    unsigned length = compress(), again = expand(length), differing = 0;
    print_line("text ", text, LENGTH);
    print_line("compressed ", compressed, length);
    print_line("expanded ", expanded, again);
    for (unsigned i = 0; i < LENGTH; i += 1)
        differing |= text[i] ^ expanded[i];
    return again != LENGTH || differing != 0;
}
