// The frame corrector in C on words, as the proved code goes: the frame is turned round in tiles of eight rows and eight
// places, and its columns are the rows of that. Only the places that a column changes go back to the frame, where the proved
// code turns it round again.
#include "frames.h"
#include "find_words.h"

enum { TILE = 8 };

// Each place of `chosen` is exchanged with the place so far on.
static inline u64 exchange(u64 tile, int far, u64 chosen) {
    u64 differing = (tile ^ tile >> far) & chosen;
    return tile ^ differing ^ differing << far;
}

// Single places, then pairs, then fours, on both sides of the diagonal.
static inline u64 turned_tile(u64 tile) {
    tile = exchange(tile, 7, 0x00aa00aa00aa00aa);
    tile = exchange(tile, 14, 0x0000cccc0000cccc);
    return exchange(tile, 28, 0x00000000f0f0f0f0);
}

static inline u64 tile_at(const u8 *frame, int down, int along) {
    u64 tile = 0;
    for (int j = 0; j < TILE; j++) tile |= (u64)frame[BYTES * (TILE * down + j) + along] << 8 * j;
    return tile;
}

static inline void put_tile(u8 *frame, int down, int along, u64 tile) {
    for (int j = 0; j < TILE; j++) frame[BYTES * (TILE * down + j) + along] = tile >> 8 * j;
}

static void turn_round(const u8 *frame, u8 *turned) {
    for (int down = 0; down < BYTES; down++)
        for (int along = 0; along < BYTES; along++)
            put_tile(turned, down, along, turned_tile(tile_at(frame, along, down)));
}

static void turn_places(u8 *frame, int column, const u64 *changed) {
    for (int i = 0; i < WORDS; i++)
        for (u64 left = changed[i]; left; left &= left - 1)
            frame[BYTES * (64 * i + __builtin_ctzll(left)) + column / 8] ^= 1 << column % 8;
}

static int correct_columns(u8 *frame) {
    u8 turned[FRAME];
    int refused = 0;
    turn_round(frame, turned);
    for (int column = 0; column < PLACES; column++) {
        u64 word[WORDS], changed[WORDS];
        int count = find(turned + BYTES * column, word, changed);
        if (0 < count) turn_places(frame, column, changed);
        refused += count < 0;
    }
    return refused;
}
