// Makes frames of 272 rows of 34 bytes: random information, 190 rows of 190 bits, with a parity behind each row and below
// each column. They are `clean`; `light`, with none to eight errors in each row; `bad`, of which none to eight rows are
// random besides; `random` throughout; or a `mixture` of light ones with none to 28 random rows, so that columns are
// refused too. Their check bits are random.
#include "make_rows.h"

enum { MOST = 8, TOO_MANY, MIXED = 29 };

// A vote turns these places, where they are wrong, and no other, and so restores the word; but they are too many.
static const int turned[TOO_MANY] = {19, 63, 68, 127, 139, 173, 211, 217, 256};

static u8 frame[PLACES][PLACES];

static void make_frame(void) {
    for (int n = 0; n < CHECKED; n++) {
        make_bits(frame[n], CHECKED);
        append_parity(frame[n]);
    }
    for (int p = 0; p < PLACES; p++) {
        u8 column[PLACES];
        for (int n = 0; n < CHECKED; n++) column[n] = frame[n][p];
        append_parity(column);
        for (int n = CHECKED; n < PLACES; n++) frame[n][p] = column[n];
    }
}

// Rows that are random already may be chosen again.
static void damage_frame(int random_rows) {
    for (int n = 0; n < PLACES; n++) damage(frame[n], below(MOST + 1));
    while (random_rows--) make_bits(frame[below(PLACES)], PLACES);
}

// Row 0 has errors at those nine places, and so has column 0, in rows that are random elsewhere. Random errors hardly ever
// come to lie so.
static void damage_by_nine(void) {
    for (int k = 0; k < TOO_MANY; k++) {
        u8 *row = frame[turned[k]], wrong = !row[0];
        make_bits(row, PLACES);
        row[0] = wrong;
        frame[0][turned[k]] ^= 1;
    }
}

static void put_frame(void) {
    u8 bytes[PLACES][ROW_BYTES];
    for (int n = 0; n < PLACES; n++) put_bits(frame[n], bytes[n]);
    put(bytes[0], sizeof bytes);
}

static void make(char kind) {
    for (u64 n = 0; left; n++) {
        make_frame();
        if (kind == 'l') damage_frame(0);
        if (kind == 'b') damage_frame(n % (MOST + 1));
        if (kind == 'm' && n % MIXED != TOO_MANY) damage_frame(n % MIXED);
        if (kind == 'm' && n % MIXED == TOO_MANY) damage_by_nine();
        if (kind == 'r')
            for (int k = 0; k < PLACES; k++) make_bits(frame[k], PLACES);
        put_frame();
    }
}
