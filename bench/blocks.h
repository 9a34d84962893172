// What the yardsticks of the blocks share: the corrector (task c) or the block reader (task r) on blocks of 34 bytes. What
// comes of a block goes to the block's own place in `written`, which is added to the sum at the end: adding it for each
// block would take longer than correcting it.
#include "bench.h"
#include "code.h"

enum { INFORMATION = 22, CHECKED = 190 };
enum { NO_CODE_WORD = 2, CHECK_BITS = 3 };

static const long size = BYTES;

static u8 written[ROOM];

// Whether the 14 check bits of a code word are those of its information.
static int check_holds(const u64 *word);

static inline u64 rotated(u64 word, int by) {
    return word << by | word >> (64 - by);
}

// One number of the five words, each rotated by another amount, so that none can stand for another, and both halves of it.
static inline u64 mixed(const u64 *w) {
    u64 whole = w[0] ^ rotated(w[1], 13) ^ rotated(w[2], 26) ^ rotated(w[3], 39) ^ rotated(w[4], 52);
    return ((whole >> 32) * 31 + whole % 4294967296) % 4294967296;
}

static void take(char task, const u8 *block) {
    u8 *out = written + (block - records);
    u64 word[WORDS], changed[WORDS] = {0};
    int count = find(block, word, changed), refusal = 0;
    if (count < 0) refusal = NO_CODE_WORD;
    else if (task != 'r') __builtin_memcpy(out, word, BYTES);
    else if (check_holds(word)) __builtin_memcpy(out, word, INFORMATION);
    else refusal = CHECK_BITS;
    add_number(count < 0 ? 0 : count);
    add_number(mixed(changed));
    if (refusal) add_number(refusal);
}

static void add_state(void) {
    add_bytes(written, ROOM);
}
