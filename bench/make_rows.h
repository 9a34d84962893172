// What the makers of blocks and of frames share: rows of 272 bits, a byte for each, as code words or with errors.
#include "make.h"

enum { PLACES = 272, CHECKED = 190, ROW_BYTES = PLACES / 8 };

// The generator's powers below the highest, 82.
static const int generator[] = {77, 76, 71, 67, 66, 56, 52, 48, 40, 36, 34, 24, 22, 18, 10, 4, 0};

// Puts the remainder of the leading places behind them, where there are zeros.
static void append(u8 *row, int places, int degree, const int *power, int powers) {
    u8 rest[PLACES];
    for (int p = 0; p < places + degree; p++) rest[p] = row[p];
    for (int p = 0; p < places; p++)
        if (rest[p])
            for (int k = 0; k < powers; k++) rest[p + degree - power[k]] ^= 1;
    for (int p = places; p < places + degree; p++) row[p] = rest[p];
}

// The parity of the leading 190 places.
static void append_parity(u8 *row) {
    for (int p = CHECKED; p < PLACES; p++) row[p] = 0;
    append(row, CHECKED, PLACES - CHECKED, generator, sizeof generator / sizeof *generator);
}

static void make_bits(u8 *row, int places) {
    for (int p = 0; p < places; p++) row[p] = next() >> 40 & 1;
}

static void damage(u8 *row, int errors) {
    u8 hit[PLACES] = {0};
    while (errors) {
        int p = below(PLACES);
        if (hit[p]) continue;
        hit[p] = 1;
        row[p] ^= 1;
        errors--;
    }
}

static void put_bits(const u8 *row, u8 *bytes) {
    for (int i = 0; i < ROW_BYTES; i++) bytes[i] = 0;
    for (int p = 0; p < PLACES; p++) bytes[p / 8] |= row[p] << p % 8;
}
