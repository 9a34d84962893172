// Makes the information `blocks` of messages, 22 bytes each, or the `messages` of groups, 264 bytes each as
// crates/bench/src/messages.rt says. Most are good; faults of each kind that a state tells apart are strewn in.
#include "make.h"
#include "header_check.h"

enum { INFORMATION = 22, DATA = 20, MOST_BLOCKS = 16, RECORD = 264, DATA_AT = 8, NUMBER = 1000 };
// What is wrong with a message, in one message of so many.
enum { CAF, CHECK, RFA, FORM, COUNT, PADDING, LONG, FAULTS = 64 };

static void put_header(u8 *bytes, int size, u64 fields, int wrong) {
    u64 h = fields << 6 | (check_of(fields, 8 * size - 6) ^ wrong);
    for (int i = 0; i < size; i++) bytes[i] = h >> 8 * (size - 1 - i);
}

// Fills the bytes of a message, and answers the number of its blocks.
static int make_message(u8 *bytes) {
    int fault = below(FAULTS), ext = fault == RFA || fault == FORM || below(4) == 0;
    int length = below(256), size = ext ? 5 : 4, blocks = (size + length + DATA - 1) / DATA;
    // RI, CI, First and Last, then EXT and ADD
    u64 fields = (u64)below(64) << 10 | ext << 9 | below(512);
    if (ext) fields = fields << 8 | (fault == FORM ? 0 : 1 + below(31)) << 3 | (fault == RFA);
    fields = fields << 10 | below(2) << 9 | (fault == CAF) << 8 | length;
    put_header(bytes, size, fields, fault == CHECK);
    for (int i = size; i < DATA * MOST_BLOCKS; i++) bytes[i] = i < size + length ? below(256) : 0;
    if (fault == PADDING) bytes[DATA * blocks - 1] |= 1;
    if (fault == COUNT) return blocks + 1;
    return fault == LONG ? 14 + below(3) : blocks;
}

// One block in 64 is lost, one has a wrong header, and before one in 32 a block of another channel comes.
static void put_block(const u8 *data, int last, int sc) {
    u8 block[INFORMATION];
    for (int i = 0; i < DATA; i++) block[INFORMATION - DATA + i] = data[i];
    if (below(32) == 0) {
        put_header(block, 2, below(10) << 6 | below(64), 0);
        put(block, INFORMATION);
    }
    if (below(64) == 0) return;
    put_header(block, 2, 10 << 6 | below(2) << 5 | last << 4 | sc, below(64) == 0);
    put(block, INFORMATION);
}

static void make_blocks(void) {
    u8 bytes[DATA * MOST_BLOCKS];
    int sc = 0;
    while (left) {
        int blocks = make_message(bytes);
        for (int k = 0; k < blocks; k++, sc = (sc + 1) % 16) put_block(bytes + DATA * k, k == blocks - 1, sc);
    }
}

// One in eight comes again, of these one in eight once more, and so on.
static void put_message(int ri, int ci, int flags, int number, int length) {
    u8 record[RECORD] = {ri, ci, flags, number & 255, number >> 8, length & 255, length >> 8};
    for (int i = DATA_AT; i < RECORD; i++) record[i] = below(256);
    do put(record, RECORD);
    while (below(8) == 0);
}

// A message of a series: one in 256 is lost, and one each has a field over its width, too much data, COM or another
// service number.
static void put_of_series(int ci, int flags) {
    int length = flags & 2 ? below(256) : 255;
    switch (below(256)) {
    case 0: return;
    case 1: put_message(4, ci, flags, NUMBER, length); return;
    case 2: put_message(0, ci + 4, flags, NUMBER, length); return;
    case 3: put_message(0, ci, flags, NUMBER, 256); return;
    case 4: put_message(0, ci, flags, 16384, length); return;
    case 5: put_message(0, ci, flags | 4, NUMBER, length); return;
    case 6: put_message(0, ci, flags, NUMBER + 1, length); return;
    default: put_message(below(4), ci, flags, NUMBER, length);
    }
}

// One series in sixteen is too long.
static void make_series(void) {
    while (left) {
        int messages = below(16) ? 1 + below(15) : 17, ci = below(4);
        for (int k = 0; k < messages; k++, ci = (ci + 1) % 4) put_of_series(ci, (k == 0) | (k == messages - 1) << 1);
    }
}

static void make(char kind) {
    if (kind == 'b') make_blocks();
    else make_series();
}
