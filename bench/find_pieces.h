// The code word near a row, the fastest way that we found. A row stands in bytes: its bits from any place on are a load at
// the byte and a shift by less than eight, after which 57 of 64 hold, so rows are taken in five pieces of 56. Parity sums
// are exclusive ors of such pieces. Each sum follows from the 82 before it, so a row is a code word where 82 in turn are
// even. Votes are added up in bit planes, for two pieces at once in a vector.
enum { PIECES = 5, PIECE = 56, STEP = PIECE / 8, HELD = 57, FREE = 82 };
// The check positions lie in the 202 places from this one on. They count from it, so that fewest sums run out of a row.
enum { FIRST = 67 };
// A place asks for sums up to 201 before it, so the end of the circle of sums stands in front of it too.
enum { FRONT = 208 };

typedef u64 Pair __attribute__((vector_size(16)));

static inline u64 load(const u8 *bytes) {
    u64 word;
    __builtin_memcpy(&word, bytes, sizeof word);
    return word;
}

static inline void store(u8 *bytes, u64 word) {
    __builtin_memcpy(bytes, &word, sizeof word);
}

static inline u64 low(u64 word, int bits) {
    return word & ((1ull << bits) - 1);
}

// The sums from one on. Loads that are shifted alike are added first. Where the row ends within a load it begins again
// behind place 272, which is zero.
static inline u64 sums(const u8 *row, int from) {
    enum { LAST = BYTES - 8 };
    u64 odd = 0;
#pragma clang loop unroll(full)
    for (int shift = 0; shift < 8; shift++) {
        u64 alike = 0;
#pragma clang loop unroll(full)
        for (int k = 0; k < CHECKS; k++) {
            int at = (from + check[k] - FIRST) % CIRCLE;
            if (at % 8 != shift) continue;
            if (at / 8 <= LAST) alike ^= load(row + at / 8);
            else odd ^= load(row + LAST) >> (at - 8 * LAST) ^ load(row) << (CIRCLE - at);
        }
        odd ^= alike >> shift;
    }
    return odd;
}

// Whether the first 82 sums are even; the first piece of them is given.
static inline int all_even(u64 first, const u8 *row) {
    return !low(first | sums(row, FREE - HELD), HELD);
}

// The circle in front begins at sum 65. The byte too much of each piece is overwritten by the next.
static inline void put_circle(const u64 *odd, u8 *circle) {
    enum { SKIPPED = CIRCLE - FRONT - PIECE, REST = CIRCLE - 4 * PIECE };
    u64 piece[PIECES + 1] = {0};
    for (int i = 0; i < PIECES; i++) piece[i] = low(odd[i], i < 4 ? PIECE : REST);
    for (int i = 1; i < PIECES; i++)
        store(circle + (i - 1) * STEP, piece[i] >> SKIPPED | piece[i + 1] << (PIECE - SKIPPED));
    for (int i = 0; i < PIECES; i++) store(circle + FRONT / 8 + i * STEP, piece[i]);
}

// Three bits of one weight become one, and a carry of twice the weight.
static inline Pair add(Pair a, Pair b, Pair c, Pair *carry) {
    Pair half = a ^ b;
    *carry = (a & b) | (half & c);
    return half ^ c;
}

// Where at least nine of seventeen bits are set.
static inline Pair majority(const Pair *v) {
    Pair ones, twos, fours, two[8], four[4], eight[2];
    ones = add(v[0], v[1], v[2], &two[0]);
#pragma clang loop unroll(full)
    for (int k = 1; k < 8; k++) ones = add(ones, v[2 * k + 1], v[2 * k + 2], &two[k]);
    twos = two[0] ^ two[1];
    four[0] = two[0] & two[1];
#pragma clang loop unroll(full)
    for (int k = 1; k < 4; k++) twos = add(twos, two[2 * k], two[2 * k + 1], &four[k]);
    fours = add(four[0], four[1], four[2], &eight[0]);
    eight[1] = fours & four[3];
    fours ^= four[3];
    return (eight[0] & eight[1]) | ((eight[0] ^ eight[1]) & (fours | twos | ones));
}

// The places to turn of two pieces, or of one alone.
static inline Pair votes(const u8 *circle, int piece, int alone) {
    Pair v[CHECKS];
#pragma clang loop unroll(full)
    for (int k = 0; k < CHECKS; k++) {
        int at = FRONT - (check[k] - FIRST);
        const u8 *bytes = circle + piece * STEP + at / 8;
        v[k] = (Pair){load(bytes), alone ? 0 : load(bytes + STEP)} >> at % 8;
    }
    return majority(v);
}

static inline int ones_in(Pair p) {
    const u64 twos = 0x5555555555555555, fours = 0x3333333333333333, bytes = 0x0f0f0f0f0f0f0f0f;
    p -= p >> 1 & twos;
    p = (p & fours) + (p >> 2 & fours);
    u64 both = p[0] + p[1];
    both = (both & bytes) + (both >> 4 & bytes);
    return both * 0x0101010101010101 >> 56;
}

// The places to turn and their number, or one above eight: a random row is told by its first piece, which goes alone.
static inline int vote(const u8 *circle, u64 *turns) {
    turns[0] = low(votes(circle, 0, 1)[0], PIECE);
    int count = __builtin_popcountll(turns[0]);
    for (int i = 1; i < PIECES && count <= MOST; i += 2) {
        Pair two = votes(circle, i, 0);
        turns[i] = low(two[0], PIECE);
        turns[i + 1] = low(two[1], i == 1 ? PIECE : PLACES - 4 * PIECE);
        count += ones_in((Pair){turns[i], turns[i + 1]});
    }
    return count;
}

static inline void put_words(const u64 *pieces, u64 *words) {
    for (int i = 0; i < 4; i++) words[i] = pieces[i] >> 8 * i | pieces[i + 1] << (PIECE - 8 * i);
    words[4] = pieces[4] >> 32;
}

static int find(const u8 *received, u64 *word, u64 *changed) {
    u64 odd[PIECES], turns[PIECES], flips[WORDS];
    u8 circle[FRONT / 8 + PIECES * STEP + 1];
    word[WORDS - 1] = 0;
    __builtin_memcpy(word, received, BYTES);
    odd[0] = sums(received, 0);
    if (all_even(odd[0], received)) return 0;
    // What is loaded from here on is loaded anew: else the test above keeps it in registers, and takes longer.
    __asm__("" : "+r"(received));
#pragma clang loop unroll(full)
    for (int i = 1; i < PIECES; i++) odd[i] = sums(received, i * PIECE);
    put_circle(odd, circle);
    int count = vote(circle, turns);
    if (MOST < count) return -1;
    put_words(turns, flips);
    for (int i = 0; i < WORDS; i++) word[i] ^= flips[i];
    const u8 *bytes = (const u8 *)word;
    if (!all_even(sums(bytes, 0), bytes)) return -1;
    for (int i = 0; i < WORDS; i++) changed[i] = flips[i];
    return count;
}
