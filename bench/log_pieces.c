// A log in pieces in C: a reader is changed where it stands and goes from piece to piece, with the bytes held of a line that
// is cut. Every rule of a log is tested, but not the reader's own: C trusts the state that it is given. Behind the first
// letter of TASK stand the bytes of a piece. Since the next slot's number is known, its text is kept, with 1 added to it as
// on paper, and compared with the line by one load.
#include "sum.h"

enum { LONGEST_LINE = 63, PART = 256, WORD = 8, CHANNELS = 204, GREATEST_SLOT = 999999, BAD_LINE = 12 };
// Bytes of a line that no line has.
enum { NEVER = 1 << 20 };
enum { READ = 9, NOWORD = READ, CHECK, MISSING, OUTCOMES };

// `next` is the text of the next slot's number and the tab behind it, the first byte lowest, and `whole` the bytes of its
// line; before the first line and after the last slot `next` is 0, and `whole` NEVER. Of what is held `length` bytes count.
struct reader {
    u64 next;
    long whole, length;
    u32 channel, slots, seen[OUTCOMES + 1];
    int is_refused;
    u8 held[LONGEST_LINE + PART + WORD];
};

// Each outcome is counted by its place here, and they are added up at the end. Place 0 is for bytes that are none.
static const u8 outcome[256] = {
    ['0'] = 1, 2, 3, 4, 5, 6, 7, 8, 9, ['n'] = 1 + NOWORD, ['c'] = 1 + CHECK, ['-'] = 1 + MISSING,
};

static inline u64 load(const u8 *bytes) {
    u64 word;
    __builtin_memcpy(&word, bytes, sizeof word);
    return word;
}

static inline void store(u8 *bytes, u64 word) {
    __builtin_memcpy(bytes, &word, sizeof word);
}

// The first bytes of a word.
static inline u64 first(u64 word, long bytes) {
    return word << (64 - 8 * bytes);
}

static void expect(struct reader *r, u32 slot) {
    r->next = '\t';
    r->whole = 3;
    for (; slot; slot /= 10) {
        r->next = r->next << 8 | ('0' + slot % 10);
        r->whole++;
    }
}

static inline void count(struct reader *r, u8 place) {
    r->seen[place]++;
    r->slots++;
    long last = 8 * (r->whole - 4);
    if ((r->next >> last & 255) != '9') r->next += 1ull << last;
    else if (r->slots < GREATEST_SLOT) expect(r, r->slots + 1);
    else r->next = 0, r->whole = NEVER;
}

static int take_first(struct reader *r, const u8 *line, const u8 *feed) {
    u32 n = 0;
    for (const char *name = "channel\t"; *name; name++, line++)
        if (*line != *name) return 0;
    if (*line == '0' || feed == line || 3 < feed - line) return 0;
    for (; line < feed; line++) {
        u32 digit = *line - '0';
        if (9 < digit) return 0;
        n = n * 10 + digit;
    }
    if (CHANNELS < n) return 0;
    r->channel = n;
    expect(r, 1);
    return 1;
}

// Takes the slots' lines that are whole before the end, and answers where they end.
static inline const u8 *take_slots(struct reader *r, const u8 *line, const u8 *end) {
    while (r->whole <= end - line) {
        u8 place = outcome[line[r->whole - 2]];
        if (first(load(line) ^ r->next, r->whole - 2) || !place || line[r->whole - 1] != '\n') break;
        line += r->whole;
        count(r, place);
    }
    return line;
}

static const u8 *refuse(struct reader *r, const u8 *end) {
    r->is_refused = 1;
    return end;
}

// Takes the lines before the end, and answers the start of the one that is cut there. No line feed stands before `fresh`,
// nor in what begins as the next slot's line does.
static inline const u8 *take_lines(struct reader *r, const u8 *fresh, const u8 *end) {
    const u8 *line = r->held;
    for (;;) {
        line = take_slots(r, line, end);
        long rest = end - line;
        if (!rest || (rest < WORD && rest < r->whole - 1 && !first(load(line) ^ r->next, rest))) return line;
        const u8 *feed = line < fresh ? fresh : line;
        while (feed < end && *feed != '\n') feed++;
        if (feed == end) return rest <= LONGEST_LINE ? line : refuse(r, end);
        if (r->channel || !take_first(r, line, feed)) return refuse(r, end);
        line = feed + 1;
    }
}

// No byte outside of the piece is loaded, so the last loads overlap.
static inline void copy(u8 *to, const u8 *from, long length) {
    if (length < WORD) {
#pragma clang loop unroll(disable) vectorize(disable)
        for (long i = 0; i < length; i++) to[i] = from[i];
        return;
    }
    for (long i = 0; i < length - WORD; i += WORD) store(to + i, load(from + i));
    store(to + length - WORD, load(from + length - WORD));
}

static void take_part(struct reader *r, const u8 *piece, long length) {
    u8 *fresh = r->held + r->length, *end = fresh + length;
    copy(fresh, piece, length);
    const u8 *rest = take_lines(r, fresh, end);
    r->length = end - rest;
    if (rest == r->held) return;
#pragma clang loop unroll(disable) vectorize(disable)
    for (long i = 0; i < r->length; i += WORD) store(r->held + i, load(rest + i));
}

static u32 line_number(const struct reader *r) {
    return r->channel ? r->slots + 2 : 1;
}

// Answers 0 where no line was bad, and else 12 and the line's number.
static int feed(struct reader *r, const u8 *piece, long length, u32 *line) {
    for (; PART < length && !r->is_refused; piece += PART, length -= PART) take_part(r, piece, PART);
    if (!r->is_refused) take_part(r, piece, length);
    *line = r->is_refused ? line_number(r) : 0;
    return r->is_refused ? BAD_LINE : 0;
}

static int end(struct reader *r, u32 *line) {
    if (!r->channel || r->length) r->is_refused = 1;
    r->length = 0;
    *line = r->is_refused ? line_number(r) : 0;
    return r->is_refused ? BAD_LINE : 0;
}

static void start(struct reader *r) {
    *r = (struct reader){.whole = NEVER};
}

static void add_answer(int answer, u32 line, long length) {
    if (answer) add_number(answer);
    add_number(answer ? line : length);
}

static void add_counts(const struct reader *r) {
    const u32 *seen = r->seen + 1;
    u32 read = 0, bits = 0;
    for (int k = 0; k < READ; k++) {
        read += seen[k];
        bits += k * seen[k];
    }
    add_number(r->channel);
    add_number(r->slots);
    add_number(read);
    add_number(seen[0]);
    add_number(bits);
    add_number(seen[NOWORD]);
    add_number(seen[CHECK]);
    add_number(seen[MISSING]);
}

int main(int argc, char **argv) {
    if (argc != 3) return 2;
    static struct reader reader;
    u32 line;
    long length = read_records(), size = number_in(argv[1] + 1), at = 0;
    start(&reader);
    for (long left = number_in(argv[2]); left; left--) {
        long piece = length - at < size ? length - at : size;
        int answer = feed(&reader, records + at, piece, &line);
        add_answer(answer, line, reader.length);
        at += piece;
        if (at < length) continue;
        answer = end(&reader, &line);
        add_answer(answer, line, reader.length);
        add_counts(&reader);
        start(&reader);
        at = 0;
    }
    return write_sum() ? 0 : 1;
}
