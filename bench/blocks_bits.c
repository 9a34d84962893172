// Corrector and block reader in C on single bits: a byte for each bit, the 273 parity sums once, then a vote at each place;
// the word is divided by the generator, and the changes are put into words and counted there. The check is made bit by
// bit. The measure of what voting on words gains.
#include "blocks.h"

// The generator's powers below 82.
static const int power[] = {77, 76, 71, 67, 66, 56, 52, 48, 40, 36, 34, 24, 22, 18, 10, 4, 0};

static u8 low[82];

static int is_word(const u8 *word) {
    u8 row[PLACES];
    for (int p = 0; p < PLACES; p++) row[p] = word[p];
    for (int p = 0; p < PLACES - 82; p++)
        if (row[p])
            for (int j = 0; j < 82; j++) row[p + 1 + j] ^= low[j];
    for (int p = PLACES - 82; p < PLACES; p++)
        if (row[p]) return 0;
    return 1;
}

static void put_words(const u8 *row, u64 *words) {
    for (int j = 0; j < WORDS; j++) words[j] = 0;
    for (int p = 0; p < PLACES; p++) words[p / 64] |= (u64)row[p] << p % 64;
}

// The places to turn of a row of the circle.
static void vote(const u8 *row, u8 *turns) {
    u8 odd[CIRCLE];
    for (int t = 0; t < CIRCLE; t++) {
        odd[t] = 0;
        for (int k = 0; k < CHECKS; k++) odd[t] ^= row[(t + check[k]) % CIRCLE];
    }
    for (int p = 0; p < PLACES; p++) {
        int votes = 0;
        for (int k = 0; k < CHECKS; k++) votes += odd[(p + CIRCLE - check[k]) % CIRCLE];
        turns[p] = 9 <= votes;
    }
}

static int find(const u8 *received, u64 *word, u64 *changed) {
    u8 row[CIRCLE], turns[PLACES];
    u64 flips[WORDS];
    int count = 0;
    if (!low[81])
        for (unsigned k = 0; k < sizeof power / sizeof *power; k++) low[81 - power[k]] = 1;
    for (int p = 0; p < PLACES; p++) row[p] = received[p / 8] >> p % 8 & 1;
    row[PLACES] = 0;
    vote(row, turns);
    for (int p = 0; p < PLACES; p++) row[p] ^= turns[p];
    put_words(turns, flips);
    for (int j = 0; j < WORDS; j++) count += __builtin_popcountll(flips[j]);
    if (!is_word(row) || MOST < count) return -1;
    for (int j = 0; j < WORDS; j++) changed[j] = flips[j];
    put_words(row, word);
    return count;
}

// The remainder by x^14 + x^11 + x^2 + 1 in a register, the check bits behind the information.
static int check_holds(const u64 *word) {
    unsigned rest = 0;
    for (int p = 0; p < CHECKED; p++) {
        rest = rest << 1 | (word[p / 64] >> p % 64 & 1);
        if (rest & 0x4000) rest ^= 0x4805;
    }
    return !rest;
}
