// The report of a log in C, in one pass: every rule of a log is tested, as in the proved program, and the same bytes are
// written. The log comes in pieces of 64 KiB; a line is judged where it lies, while its end is looked for. No header of C's
// library is used.
typedef unsigned char u8;
typedef unsigned int u32;
typedef unsigned long long u64;
long read(int, void *, unsigned long);
long write(int, const void *, unsigned long);

enum { LONGEST_LINE = 64, PIECE = 65536, MOST_DIGITS = 6, CHANNELS = 204, BAD_LINE = 12 };

// The channel is 0 before the first line.
struct counts {
    u32 channel, slots, read, clean, bits, noword, check, missing;
};

static const u8 is_outcome[256] = {
    ['0' ... '8'] = 1, ['n'] = 1, ['c'] = 1, ['-'] = 1,
};

// Each outcome is counted by its own byte, and they are added up at the end.
static u32 channel, slots, seen[256];

// A line that is cut moves to the start, and the next piece comes behind it. Behind the piece a line feed is put that is
// not the log's: it ends every search, so that the end of the piece is tested once a line and not at each byte.
static u8 buffer[LONGEST_LINE + PIECE + 1];

// Reads a number from 1 to 999,999 in decimal, or 0 where there is none, and answers where it ends.
static const u8 *take_number(const u8 *text, u32 *number) {
    u32 n = 0, digit;
    if (*text != '0')
        for (int k = 0; k < MOST_DIGITS && (digit = *text - '0') <= 9; k++, text++) n = n * 10 + digit;
    *number = n;
    return text;
}

// Takes the first line, and answers the start of the next, or 0 where it is bad or not yet whole.
static const u8 *take_first(const u8 *line, const u8 *end) {
    u32 n;
    for (const char *name = "channel\t"; *name; name++, line++)
        if (*line != *name) return 0;
    line = take_number(line, &n);
    if (*line != '\n' || line == end || n < 1 || CHANNELS < n) return 0;
    channel = n;
    return line + 1;
}

// Takes the line of the next slot, likewise. Six digits bound the slots: after 999,999 no number is the next.
static const u8 *take_slot(const u8 *line, const u8 *end) {
    u32 n;
    line = take_number(line, &n);
    if (n != slots + 1 || line[0] != '\t' || !is_outcome[line[1]] || line[2] != '\n' || line + 2 == end) return 0;
    slots++;
    seen[line[1]]++;
    return line + 3;
}

// Takes the good lines before the end, and answers the start of the line that is cut there, or 0 where a line is bad.
// A good line is far shorter than 64 bytes, so only one that is cut needs the test of its length.
static const u8 *take_lines(const u8 *line, const u8 *end) {
    const u8 *next;
    while ((next = channel ? take_slot(line, end) : take_first(line, end))) line = next;
    const u8 *feed = line;
    while (*feed != '\n') feed++;
    return feed == end && end - line < LONGEST_LINE ? line : 0;
}

static void count(struct counts *counts) {
    counts->channel = channel;
    counts->slots = slots;
    for (int k = 0; k <= 8; k++) {
        counts->read += seen['0' + k];
        counts->bits += k * seen['0' + k];
    }
    counts->clean = seen['0'];
    counts->noword = seen['n'];
    counts->check = seen['c'];
    counts->missing = seen['-'];
}

// Reads the log on standard input to its end: 1 where every line is good, 0 where one is bad, -1 where reading fails.
static int take_log(struct counts *counts) {
    long held = 0, got;
    while ((got = read(0, buffer + held, PIECE)) > 0) {
        u8 *end = buffer + held + got;
        *end = '\n';
        const u8 *rest = take_lines(buffer, end);
        if (!rest) break;
        held = end - rest;
        for (long i = 0; i < held; i++) buffer[i] = rest[i];
    }
    count(counts);
    return got < 0 ? -1 : !got && channel && !held;
}

static char *put_text(char *out, const char *text) {
    while (*text) *out++ = *text++;
    return out;
}

static char *put_number(char *out, u64 n) {
    char digits[20];
    int k = 0;
    do digits[k++] = '0' + n % 10; while (n /= 10);
    while (k) *out++ = digits[--k];
    return out;
}

static char *put_line(char *out, const char *name, u64 n) {
    out = put_number(put_text(out, name), n);
    *out++ = '\n';
    return out;
}

static char *put_refusal(char *out, const struct counts *counts) {
    out = put_number(put_text(out, "refused\t"), BAD_LINE);
    return put_line(out, "\t", counts->channel ? counts->slots + 2 : 1);
}

static char *put_report(char *out, const struct counts *counts) {
    out = put_line(out, "khz\t", 87500 + 100 * counts->channel);
    out = put_line(out, "slots\t", counts->slots);
    out = put_line(out, "read\t", counts->read);
    out = put_line(out, "clean\t", counts->clean);
    out = put_line(out, "bits\t", counts->bits);
    out = put_line(out, "noword\t", counts->noword);
    out = put_line(out, "check\t", counts->check);
    out = put_line(out, "missing\t", counts->missing);
    if (!counts->read) return put_text(out, "mean\t-\n");
    return put_line(out, "mean\t", 1000ull * counts->bits / counts->read);
}

int main(void) {
    char text[256];
    struct counts counts = {0};
    int good = take_log(&counts);
    if (good < 0) return 1;
    long length = (good ? put_report(text, &counts) : put_refusal(text, &counts)) - text;
    return write(1, text, length) == length ? 0 : 1;
}
