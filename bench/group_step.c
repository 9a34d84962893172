// The group step in C: messages go through one group, whose state and buffer are changed where they stand. Every test of
// documents 01 and 02 is made, the state's own included. A record is as crates/bench/src/messages.rt says.
#include "bench.h"
void *memcpy(void *, const void *, unsigned long);
int memcmp(const void *, const void *, unsigned long);

enum { RECORD = 264, DATA_AT = 8, BUFFER = 3825, MESSAGE_DATA = 255, MOST_MESSAGES = 15, LAST_NUMBER = 16383 };
enum { OUT_OF_STEP = 8, TOO_MANY, TOO_SHORT, OUTSIDE_RULE, NOT_THIS_GROUP = 13 };
// The group's service number, and what a repeat adds to the sum: no group is so long.
enum { NUMBER = 1000, REPEATED = 3826 };

enum phase { IDLE, GATHERING };

struct group {
    int number;
    enum phase phase;
    int held, messages, ci, last_length;
};

struct message {
    int ri, ci, first, last, number, command;
};

static const long size = RECORD;
static struct group group = {.number = NUMBER};
static u8 buffer[BUFFER];

static int length_holds(int held, int messages, int length) {
    if (messages <= 1) return length == held;
    return length <= MESSAGE_DATA && length <= held && held - length <= MESSAGE_DATA * (messages - 1);
}

static int keeps_rule(const struct group *g) {
    if (LAST_NUMBER < g->number) return 0;
    if (g->phase == IDLE) return g->held == 0 && g->messages == 0 && g->ci == 0 && g->last_length == 0;
    return 1 <= g->messages && g->messages <= MOST_MESSAGES && g->held <= MESSAGE_DATA * g->messages && g->ci <= 3 &&
           length_holds(g->held, g->messages, g->last_length);
}

static int within_widths(const struct message *m, long length) {
    return m->number <= LAST_NUMBER && length <= MESSAGE_DATA && m->ri <= 3 && m->ci <= 3;
}

static void make_idle(struct group *g) {
    g->phase = IDLE;
    g->held = g->messages = g->ci = g->last_length = 0;
}

static int dropped(struct group *g, int refusal) {
    make_idle(g);
    return refusal;
}

static int is_repeat(const struct group *g, const struct message *m, const u8 *data, long length, const u8 *buffer) {
    return g->phase == GATHERING && m->ci == g->ci && m->first == (g->messages == 1) && !m->last &&
           length == g->last_length && memcmp(data, buffer + g->held - length, length) == 0;
}

// Answers a refusal, a repeat or 0, and the length of the group where it is whole.
static int join(struct group *g, const struct message *m, const u8 *data, long length, u8 *buffer, long room, long *whole) {
    if (room < BUFFER) return TOO_SHORT;
    if (!keeps_rule(g) || !within_widths(m, length)) return OUTSIDE_RULE;
    if (m->number != g->number || m->command) return NOT_THIS_GROUP;
    if (is_repeat(g, m, data, length, buffer)) return REPEATED;
    if (m->first) make_idle(g);
    else if (g->phase == IDLE) return OUT_OF_STEP;
    else if (m->ci != (g->ci + 1) % 4) return dropped(g, OUT_OF_STEP);
    else if (MOST_MESSAGES <= g->messages) return dropped(g, TOO_MANY);
    memcpy(buffer + g->held, data, length);
    g->held += length;
    if (m->last) {
        *whole = g->held;
        make_idle(g);
        return 0;
    }
    g->phase = GATHERING;
    g->messages++;
    g->ci = m->ci;
    g->last_length = length;
    return 0;
}

static int number_of(const u8 *bytes) {
    return bytes[0] | bytes[1] << 8;
}

static void take(char task, const u8 *record) {
    (void)task;
    struct message m = {
        .ri = record[0],
        .ci = record[1],
        .first = record[2] & 1,
        .last = record[2] >> 1 & 1,
        .command = record[2] >> 2 & 1,
        .number = number_of(record + 3),
    };
    long whole = 0;
    int answer = join(&group, &m, record + DATA_AT, number_of(record + 5) % 257, buffer, BUFFER, &whole);
    add_number(answer ? answer : whole);
}

static void add_state(void) {
    add_number(group.held);
    add_number(group.messages);
    add_number(group.ci);
    add_number(group.last_length);
    add_bytes(buffer, BUFFER);
}
