// The frame corrector in C, the fastest way that we found: rows go as the fastest blocks do, and columns 128 at a time, from
// the frame as it stands. Sixteen bytes of a row are one place of 128 columns, so a sum is an exclusive or of whole vectors,
// with no shift, and a set of columns is a mask.
#include "frames.h"
#include "find_pieces.h"

enum { VECTOR = sizeof(Pair) };

// How many places each column turns, in bit planes, up to eight; then it is over.
struct turns {
    Pair ones, twos, fours, eights, over;
};

static inline int any(Pair columns) {
    return (columns[0] | columns[1]) != 0;
}

static inline Pair sum_at(const Pair *round, int t) {
    Pair odd = round[t + check[0]];
#pragma clang loop unroll(full)
    for (int k = 1; k < CHECKS; k++) odd ^= round[t + check[k]];
    return odd;
}

// The columns that are no code words: one of 82 sums in turn is odd.
static Pair wrong_columns(const Pair *round) {
    Pair wrong = {0};
    for (int t = 0; t < FREE; t++) wrong |= sum_at(round, t);
    return wrong;
}

static inline void count(struct turns *turns, Pair turned) {
    Pair two = turned & turns->ones, four = two & turns->twos;
    turns->over |= turned & turns->eights;
    turns->eights |= four & turns->fours;
    turns->fours ^= four;
    turns->twos ^= two;
    turns->ones ^= turned;
}

// The places to turn, and those of the wrong columns that are refused. Where no other is left the vote ends.
static Pair vote_columns(Pair *round, Pair wrong, Pair *turned) {
    Pair sums[2 * CIRCLE], met[CHECKS];
    struct turns turns = {0};
    for (int t = 0; t < CIRCLE; t++) sums[t] = sums[t + CIRCLE] = sum_at(round, t);
    for (int p = 0; p < PLACES; p++) {
#pragma clang loop unroll(full)
        for (int k = 0; k < CHECKS; k++) met[k] = sums[p + CIRCLE - check[k]];
        turned[p] = majority(met);
        count(&turns, turned[p]);
        if (p % 16 == 15 && !any(wrong & ~turns.over)) return wrong;
    }
    for (int p = 0; p < PLACES; p++) round[p] = round[p + CIRCLE] ^= turned[p];
    return turns.over | wrong_columns(round);
}

// The columns in so many bytes of each row.
static inline int correct_part(u8 *frame, int at, int bytes) {
    Pair round[2 * CIRCLE] = {0}, turned[PLACES];
    for (int p = 0; p < PLACES; p++) {
        __builtin_memcpy(round + p, frame + BYTES * p + at, bytes);
        round[p + CIRCLE] = round[p];
    }
    Pair wrong = wrong_columns(round);
    if (!any(wrong)) return 0;
    Pair refused = vote_columns(round, wrong, turned);
    if (any(wrong & ~refused))
        for (int p = 0; p < PLACES; p++) {
            Pair row = {0};
            __builtin_memcpy(&row, frame + BYTES * p + at, bytes);
            row ^= turned[p] & ~refused;
            __builtin_memcpy(frame + BYTES * p + at, &row, bytes);
        }
    return __builtin_popcountll(refused[0]) + __builtin_popcountll(refused[1]);
}

static int correct_columns(u8 *frame) {
    return correct_part(frame, 0, VECTOR) + correct_part(frame, VECTOR, VECTOR) +
           correct_part(frame, 2 * VECTOR, BYTES - 2 * VECTOR);
}
