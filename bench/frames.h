// What the yardsticks of the frames share: the frame corrector (task w) on frames of 9,248 bytes. A frame is corrected where
// it stands, so it is copied first, to its own place in `written`, which is added to the sum at the end.
#include "bench.h"
#include "code.h"

enum { FRAME = PLACES * BYTES };

static const long size = FRAME;

static u8 written[ROOM];

// Corrects each column of a frame, and answers how many are refused; these stay as they are.
static int correct_columns(u8 *frame);

// The same of each row. A row that is right is not written.
static int correct_rows(u8 *frame) {
    int refused = 0;
    for (u8 *row = frame; row < frame + FRAME; row += BYTES) {
        u64 word[WORDS], changed[WORDS];
        int count = find(row, word, changed);
        if (0 < count) __builtin_memcpy(row, word, BYTES);
        refused += count < 0;
    }
    return refused;
}

static void take(char task, const u8 *record) {
    (void)task;
    u8 *frame = written + (record - records);
    __builtin_memcpy(frame, record, FRAME);
    add_number(correct_rows(frame));
    add_number(correct_columns(frame));
}

static void add_state(void) {
    add_bytes(written, ROOM);
}
