// Standard input and the sum over answers, as crates/bench has them. No header of C's library is used.
typedef unsigned char u8;
typedef unsigned int u32;
typedef unsigned long long u64;
long read(int, void *, unsigned long);
long write(int, const void *, unsigned long);

// Room for whole records, whether they have 22, 34 or 264 bytes, and for 113 frames.
enum { ROOM = 1045704 };

static u8 records[ROOM];
static u64 sum;

static inline void add_number(u64 number) {
    sum = (sum * 31 + number) % 4294967296;
}

static long read_records(void) {
    long length = 0, got;
    while (length < ROOM && (got = read(0, records + length, ROOM - length)) > 0) length += got;
    return length;
}

static int write_sum(void) {
    char digits[20], text[32] = "sum\t";
    long n = 4, k = 0;
    do digits[k++] = '0' + sum % 10; while (sum /= 10);
    while (k) text[n++] = digits[--k];
    text[n++] = '\n';
    return write(1, text, n) == n;
}

static long number_in(const char *digits) {
    long number = 0;
    for (; *digits; digits++) number = number * 10 + (*digits - '0');
    return number;
}
