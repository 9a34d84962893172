// The check of a code word in 64-bit words: information and check bits, 190 places, divided by x^14 + x^11 + x^2 + 1.

// Divides the places of a word by a polynomial whose lower terms are so far behind its leading one. Squares take all of
// them at once: 1 / (1 + u) is (1 + u) (1 + u^2) (1 + u^4) and so on.
static inline u64 quotient(u64 places, int a, int b, int c) {
#pragma clang loop unroll(full)
    for (; a < 64; a *= 2, b *= 2, c *= 2)
        places ^= places << a ^ (b < 64 ? places << b : 0) ^ (c < 64 ? places << c : 0);
    return places;
}

// The divisor x^14 + x^11 + x^2 + 1 divides the 190 places where it leaves no rest. Its eighth and fourth powers have no
// more terms than itself, and the first two words go by them.
static int check_holds(const u64 *word) {
    u64 q = quotient(word[0], 24, 96, 112);
    u64 second = word[1] ^ q >> 40 ^ q << 32 ^ q << 48, third = word[2] ^ q >> 32 ^ q >> 16;
    q = quotient(second, 12, 48, 56);
    third ^= q >> 52 ^ q >> 16 ^ q >> 8;
    q = quotient(third << 16, 3, 12, 14);
    return (third >> 48 ^ q >> 61 ^ q >> 52 ^ q >> 50) % 16384 == 0;
}
