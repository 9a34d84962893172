// Makes blocks of 34 bytes: code words of random information, `clean` or with `eight` errors each, `random` rows, or a
// `mixture` of none to twelve errors and of random rows. The check bits of one word in fifteen are wrong.
#include "make_rows.h"

enum { INFORMATION = 176 };

// The powers of the check's divisor below the highest, 14.
static const int check[] = {11, 2, 0};

static void make_word(u8 *row, int checks) {
    make_bits(row, INFORMATION);
    for (int p = INFORMATION; p < CHECKED; p++) row[p] = 0;
    append(row, INFORMATION, CHECKED - INFORMATION, check, sizeof check / sizeof *check);
    row[INFORMATION] ^= !checks;
    append_parity(row);
}

static void make(char kind) {
    for (u64 n = 0; left; n++) {
        u8 row[PLACES], block[ROW_BYTES];
        make_word(row, n % 15 < 14);
        if (kind == 'e') damage(row, 8);
        if (kind == 'm' && n % 14 < 13) damage(row, n % 14);
        if (kind == 'r' || (kind == 'm' && n % 14 == 13)) make_bits(row, PLACES);
        put_bits(row, block);
        put(block, sizeof block);
    }
}
