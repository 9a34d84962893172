// What the yardsticks in C share with crates/bench: PROGRAM TASK COUNT does a task on so many records of standard input,
// from the first again where they end, and writes a sum over all that came of it.
#include "sum.h"

// The bytes of a record.
static const long size;

// Does the task, which is told by its first letter, on a record.
static void take(char task, const u8 *record);

// Adds the state that is left at the end to the sum.
static void add_state(void);

static void add_bytes(const u8 *bytes, long length) {
    for (long i = 0; i < length; i++) add_number(bytes[i]);
}

int main(int argc, char **argv) {
    if (argc != 3) return 2;
    long left = number_in(argv[2]), length = read_records(), at = 0;
    if (length < size) return 1;
    while (left--) {
        take(argv[1][0], records + at);
        at += size;
        if (length - at < size) at = 0;
    }
    add_state();
    return write_sum() ? 0 : 1;
}
