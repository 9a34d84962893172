// The channel step in C: information blocks of 22 bytes go through one channel, whose state is changed where it stands.
// Every test of document 01 is made, the state's own included.
#include "bench.h"
#include "header_check.h"
void *memcpy(void *, const void *, unsigned long);

enum { INFORMATION = 22, HEADER = 2, DATA = 20, MESSAGE = 260 };
enum { HEADER_CHECK = 4, OTHER_CHANNEL, HEADER_FORM, COUNT_OR_PADDING, OUT_OF_STEP, TOO_MANY };
enum { WRONG_LENGTH = 1, OUTSIDE_RULE = 11, TOO_LONG = 14 };
// Answers that are no refusal.
enum { TAKEN = 0, WHOLE = -1 };

enum phase { WAITING, READY, GATHERING };

struct channel {
    u8 bytes[MESSAGE];
    int gathered;
    enum phase phase;
    int expected;
};

struct header {
    int ri, ci, first, last, ext, number, command, length, size;
};

static const long size = INFORMATION;
static struct channel channel;

static int keeps_rule(const struct channel *c) {
    if (c->expected < 0 || 15 < c->expected) return 0;
    switch (c->phase) {
    case WAITING: return c->gathered == 0 && c->expected == 0;
    case READY: return c->gathered == 0;
    case GATHERING: return DATA <= c->gathered && c->gathered <= MESSAGE && c->gathered % DATA == 0;
    }
    return 0;
}

static int drop(struct channel *c, int lf, int sc, int answer) {
    c->gathered = 0;
    c->phase = lf ? READY : WAITING;
    c->expected = lf ? (sc + 1) % 16 : 0;
    return answer;
}

static u64 number_of(const u8 *bytes, int size) {
    u64 h = 0;
    for (int i = 0; i < size; i++) h = h << 8 | bytes[i];
    return h;
}

// The header's fields, from the front those before EXT ADD, from the back those behind RFA.
static void part(u64 fields, int top, struct header *header) {
    header->ri = fields >> (top - 2) & 3;
    header->ci = fields >> (top - 4) & 3;
    header->first = fields >> (top - 5) & 1;
    header->last = fields >> (top - 6) & 1;
    header->number = fields >> (top - 16) & 511;
    if (header->ext) header->number += 512 * (fields >> 13 & 31);
    header->command = fields >> 9 & 1;
    header->length = fields & 255;
}

static int read_message(const u8 *bytes, int gathered, struct header *header) {
    header->ext = bytes[0] >> 1 & 1;
    header->size = header->ext ? 5 : 4;
    u64 h = number_of(bytes, header->size), fields = h >> 6;
    int width = 8 * header->size - 6;
    part(fields, width, header);
    if (fields >> 8 & 1) return HEADER_FORM;
    if (check_of(fields, width) != (h & 63)) return HEADER_CHECK;
    if (header->ext && (fields >> 10 & 7 || header->number < 512)) return HEADER_FORM;
    int end = header->size + header->length;
    if (MESSAGE < end) return TOO_LONG;
    if ((end + DATA - 1) / DATA * DATA != gathered) return COUNT_OR_PADDING;
    for (int i = end; i < gathered; i++)
        if (bytes[i]) return COUNT_OR_PADDING;
    return WHOLE;
}

static int follow(struct channel *c, int lf, int sc, const u8 *data, struct header *header) {
    if (c->phase == WAITING || sc != c->expected) return drop(c, lf, sc, OUT_OF_STEP);
    if (MESSAGE <= c->gathered) return drop(c, lf, sc, TOO_MANY);
    memcpy(c->bytes + c->gathered, data, DATA);
    c->gathered += DATA;
    c->phase = GATHERING;
    c->expected = (sc + 1) % 16;
    if (!lf) return TAKEN;
    int answer = read_message(c->bytes, c->gathered, header);
    c->gathered = 0;
    c->phase = READY;
    return answer;
}

static int step(struct channel *c, const u8 *information, long length, struct header *header) {
    if (!keeps_rule(c)) return OUTSIDE_RULE;
    if (length != INFORMATION) return WRONG_LENGTH;
    unsigned h = information[0] << 8 | information[1], fields = h >> 6;
    if (fields >> 6 != 10) return OTHER_CHANNEL;
    if (check_of(fields, 10) != (h & 63)) return HEADER_CHECK;
    return follow(c, fields >> 4 & 1, fields & 15, information + HEADER, header);
}

static void add_header(const struct header *header) {
    add_number(header->ri);
    add_number(header->ci);
    add_number(header->number);
    add_number(header->length);
    add_number(header->size);
    add_number(header->first);
    add_number(header->last);
    add_number(header->ext);
    add_number(header->command);
}

static void take(char task, const u8 *information) {
    (void)task;
    struct header header;
    int answer = step(&channel, information, INFORMATION, &header);
    if (answer == WHOLE) add_header(&header);
    else add_number(answer);
}

static void add_state(void) {
    add_number(channel.gathered);
    add_number(channel.expected);
    add_bytes(channel.bytes, MESSAGE);
}
