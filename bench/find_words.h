// The code word near a row, on its five 64-bit words, as the proved code goes: the circle of 273 stands twice in ten words,
// so that a row shifted round it is two shifts a word. Each sum follows from the 82 before it, so a row is a code word where
// two words of sums are even. Votes are added up in bit planes, a word at a time, until a ninth place is turned; the planes
// by a tree of adders, where the proved code carries two sums at a time from plane to plane.
enum { ROUNDS = 10 };

static inline u64 part(const u64 *words, int at) {
    return words[at / 64] >> at % 64 | words[at / 64 + 1] << (64 - at % 64);
}

static inline void go_round(const u64 *row, u64 *round) {
    for (int i = 0; i < WORDS; i++) round[i] = row[i];
    round[4] |= row[0] << (CIRCLE - 256);
    for (int i = 0; i < 4; i++) round[WORDS + i] = part(row, 320 - CIRCLE + 64 * i);
    round[ROUNDS - 1] = 0;
}

static inline u64 sum_word(const u64 *round) {
    u64 odd = 0;
#pragma clang loop unroll(full)
    for (int k = 0; k < CHECKS; k++) odd ^= part(round, check[k]);
    return odd;
}

// Three bits of one weight become one, and a carry of twice the weight.
static inline u64 add(u64 a, u64 b, u64 c, u64 *carry) {
    u64 half = a ^ b;
    *carry = (a & b) | (half & c);
    return half ^ c;
}

// Where at least nine of the seventeen sums that meet are odd.
static inline u64 majority(const u64 *sums) {
    u64 v[CHECKS], two[8], four[4], eight[2], ones, twos, fours;
#pragma clang loop unroll(full)
    for (int k = 0; k < CHECKS; k++) v[k] = part(sums, CIRCLE - check[k]);
    ones = add(v[0], v[1], v[2], &two[0]);
#pragma clang loop unroll(full)
    for (int k = 1; k < 8; k++) ones = add(ones, v[2 * k + 1], v[2 * k + 2], &two[k]);
    twos = two[0] ^ two[1];
    four[0] = two[0] & two[1];
#pragma clang loop unroll(full)
    for (int k = 1; k < 4; k++) twos = add(twos, two[2 * k], two[2 * k + 1], &four[k]);
    fours = add(four[0], four[1], four[2], &eight[0]);
    eight[1] = fours & four[3];
    fours ^= four[3];
    return (eight[0] & eight[1]) | ((eight[0] ^ eight[1]) & (fours | twos | ones));
}

static int find(const u8 *received, u64 *word, u64 *changed) {
    u64 round[ROUNDS], sums[WORDS], meeting[ROUNDS], turned[WORDS];
    int count = 0;
    word[WORDS - 1] = 0;
    __builtin_memcpy(word, received, BYTES);
    go_round(word, round);
    for (int i = 0; i < 2; i++) sums[i] = sum_word(round + i);
    if (!(sums[0] | sums[1])) return 0;
    for (int i = 2; i < WORDS; i++) sums[i] = sum_word(round + i);
    sums[4] %= 1 << (CIRCLE - 256);
    go_round(sums, meeting);
    for (int i = 0; i < WORDS; i++) {
        turned[i] = majority(meeting + i) & (i == 4 ? 0xffff : ~0ull);
        count += __builtin_popcountll(turned[i]);
        if (MOST < count) return -1;
    }
    for (int i = 0; i < WORDS; i++) word[i] ^= turned[i];
    go_round(word, round);
    if (sum_word(round) | sum_word(round + 1)) return -1;
    for (int i = 0; i < WORDS; i++) changed[i] = turned[i];
    return count;
}
