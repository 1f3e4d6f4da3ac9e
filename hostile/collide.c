// Prints the last bytes of items whose hashes begin at one group of a table and have one tag, so that a table that hashes items without
// a key goes over all of them for each: KIND BITS COUNT LENGTH PREFIX, with the prefix in hexadecimal. The kinds are the short hash of
// the toolchain, byte by byte after the length (fold), and SipHash-1-3 under no key, in one write (sip). hostile/collide builds it.
#include <stdint.h>
#include <stdio.h>
#include <stdlib.h>
#include <string.h>

typedef unsigned char byte;
static const uint64_t MULTIPLIER = 0x9e3779b97f4a7c15, SEED = 0x243f6a8885a308d3;

static uint64_t folded(uint64_t a, uint64_t b) {
    unsigned __int128 product = (unsigned __int128)a * b;
    return (uint64_t)product ^ (uint64_t)(product >> 64);
}

// The state after one byte, which is written as a piece of its own.
static uint64_t after(uint64_t state, byte b) { return folded(state ^ b * (uint64_t)0x010101, MULTIPLIER ^ 2); }

static uint64_t turned(uint64_t x, int by) { return x << by | x >> (64 - by); }

static void round_of(uint64_t v[4]) {
    v[0] += v[1], v[2] += v[3];
    v[1] = turned(v[1], 13) ^ v[0], v[3] = turned(v[3], 16) ^ v[2], v[0] = turned(v[0], 32);
    v[2] += v[1], v[0] += v[3];
    v[1] = turned(v[1], 17) ^ v[2], v[3] = turned(v[3], 21) ^ v[0], v[2] = turned(v[2], 32);
}

static void take(uint64_t v[4], uint64_t word) { v[3] ^= word, round_of(v), v[0] ^= word; }

static uint64_t sip(const byte *item, int length) {
    uint64_t v[4] = {0x736f6d6570736575, 0x646f72616e646f6d, 0x6c7967656e657261, 0x7465646279746573}, last = (uint64_t)length << 56;
    for (int at = 0; at + 8 <= length; at += 8) {
        uint64_t word;
        memcpy(&word, item + at, 8);
        take(v, word);
    }
    memcpy(&last, item + length / 8 * 8, length % 8);
    take(v, last);
    v[2] ^= 0xff, round_of(v), round_of(v), round_of(v);
    return v[0] ^ v[1] ^ v[2] ^ v[3];
}

// Whether the groups of the table, 2 to the bits of them, have the hash in the first sixteenth, under the tag 1.
static int hits(uint64_t hash, int bits) {
    uint32_t short_hash = (uint32_t)(hash ^ hash >> 32);
    return short_hash >> 24 == 1 && (short_hash >> (bits - 4) & 15) == 0;
}

static void print(const byte *item, int length) {
    for (int at = 0; at < length; at++) printf("%02x", item[at]);
    putchar('\n');
}

int main(int count, char **words) {
    if (count != 6) return 2;
    int is_fold = strcmp(words[1], "fold") == 0, bits = atoi(words[2]), length = atoi(words[4]), begun = strlen(words[5]) / 2;
    long wanted = atol(words[3]);
    byte item[64];
    for (int at = 0; at < begun; at++) {
        unsigned one;
        sscanf(words[5] + 2 * at, "%2x", &one);
        item[at] = one;
    }
    for (uint64_t number = 0; wanted > 0; number++) {
        uint64_t rest = number, state = folded(SEED ^ (uint64_t)length, MULTIPLIER ^ 16);
        for (int at = begun; at < length - 2; at++, rest /= 255) item[at] = 1 + rest % 255;
        for (int at = 0; at < length - 2; at++) state = after(state, item[at]);
        for (int first = 1; first < 256; first++) {
            item[length - 2] = first;
            uint64_t next = after(state, first);
            for (int last = 1; last < 256 && wanted > 0; last++) {
                item[length - 1] = last;
                if (hits(is_fold ? after(next, last) : sip(item, length), bits)) print(item, length), wanted--;
            }
        }
    }
    return 0;
}
