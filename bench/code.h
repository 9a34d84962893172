// The block code, as the yardsticks of blocks and of frames need it.
enum { BYTES = 34, PLACES = 272, WORDS = 5, CIRCLE = 273, CHECKS = 17, MOST = 8 };

// 67 times the residues of the difference set, modulo 273.
static const int check[CHECKS] = {67, 134, 268, 263, 253, 233, 193, 91, 195, 113, 170, 182, 234, 85, 117, 179, 226};

// A code word near what was received and the places that differ, place p as bit p % 64 of word p / 64. Answers their
// number, or -1, and then leaves `changed`.
static int find(const u8 *received, u64 *word, u64 *changed);
