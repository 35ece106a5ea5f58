/* crafted WHAT HASHER LINES BITS: a log of so many lines that slows a hash map whose seed is fixed.
 * WHAT is `addresses`, each held at its own address, or `locations`, each asked for at its own
 * location. The hash of each has the same lowest bits, so that all are looked for from one place of
 * the map on. HASHER is one of the kit's two: `fold`, or `sip`, which is SipHash-1-3, with keys of
 * 0. It takes the eight bytes of an address, or the bytes of a location, and the map puts both
 * halves of its 64 bits over each other. */
#include <stdint.h>
#include <stdio.h>
#include <stdlib.h>
#include <string.h>

static uint64_t turned(uint64_t word, int bits) { return word << bits | word >> (64 - bits); }

static void mix(uint64_t v[4])
{
    v[0] += v[1], v[2] += v[3];
    v[1] = turned(v[1], 13) ^ v[0], v[3] = turned(v[3], 16) ^ v[2];
    v[0] = turned(v[0], 32);
    v[2] += v[1], v[0] += v[3];
    v[1] = turned(v[1], 17) ^ v[2], v[3] = turned(v[3], 21) ^ v[0];
    v[2] = turned(v[2], 32);
}

static void take(uint64_t v[4], uint64_t word)
{
    v[3] ^= word;
    mix(v);
    v[0] ^= word;
}

/* SipHash-1-3 of some bytes. */
static uint64_t sip(const unsigned char *bytes, size_t length)
{
    uint64_t v[4] = {0x736f6d6570736575, 0x646f72616e646f6d, 0x6c7967656e657261,
                     0x7465646279746573};
    uint64_t word = 0;
    for (size_t at = 0; at + 8 <= length; at += 8) {
        memcpy(&word, bytes + at, 8);
        take(v, word);
    }
    word = 0;
    memcpy(&word, bytes + length / 8 * 8, length % 8);
    take(v, word | (uint64_t)length << 56);
    v[2] ^= 0xff;
    mix(v), mix(v), mix(v);
    return v[0] ^ v[1] ^ v[2] ^ v[3];
}

#define MULTIPLIER 0x9e3779b97f4a7c15u

static uint64_t folded(uint64_t a, uint64_t b)
{
    unsigned __int128 product = (unsigned __int128)a * b;
    return (uint64_t)product ^ (uint64_t)(product >> 64);
}

static uint64_t word_at(const unsigned char *bytes)
{
    uint64_t word;
    memcpy(&word, bytes, sizeof word);
    return word;
}

/* The kit's own hash of eight bytes or more. */
static uint64_t fold(const unsigned char *bytes, size_t length)
{
    uint64_t state = 0x243f6a8885a308d3;
    if (length == 8)
        return folded(state ^ word_at(bytes), MULTIPLIER ^ 2 * length);
    state += length;
    for (size_t at = 0; length - at > 16; at += 16)
        state = folded(word_at(bytes + at) ^ state, word_at(bytes + at + 8) ^ MULTIPLIER);
    return folded(word_at(bytes + (length > 16 ? length - 16 : 0)) ^ state,
                  word_at(bytes + length - 8) ^ MULTIPLIER);
}

int main(int count, char **words)
{
    if (count != 5)
        return 2;
    int locations = strcmp(words[1], "locations") == 0;
    uint64_t (*hasher)(const unsigned char *, size_t) = strcmp(words[2], "sip") == 0 ? sip : fold;
    uint32_t mask = (1u << atoi(words[4])) - 1;
    long left = atol(words[3]);
    for (uint64_t number = 1; left > 0; number++) {
        uint64_t address = 4096 + 16 * number;
        char text[40];
        int length =
            locations ? snprintf(text, sizeof text, "./p:[0x%llx]", (unsigned long long)number) : 8;
        uint64_t hash =
            hasher(locations ? (unsigned char *)text : (unsigned char *)&address, (size_t)length);
        if (((hash ^ hash >> 32) & mask) == 0) {
            printf("@ %s + 0x%llx 0x10\n", locations ? text : "./p:[0x1]",
                   (unsigned long long)address);
            left--;
        }
    }
    return 0;
}
