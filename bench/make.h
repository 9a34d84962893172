// What the makers of records share: MAKER KIND COUNT writes so many records. The same words give the same records. No
// header of C's library is used.
typedef unsigned char u8;
typedef unsigned long long u64;
long write(int, const void *, unsigned long);

static u8 waiting[1 << 16];
static unsigned long length;
static u64 state = 88172645463325252ull;
// The records that are still to be made.
static u64 left;

// The first letter of KIND tells which.
static void make(char kind);

static u64 next(void) {
    state ^= state << 13;
    state ^= state >> 7;
    state ^= state << 17;
    return state;
}

static unsigned below(unsigned most) {
    return (next() >> 33) % most;
}

static void flush(void) {
    if (write(1, waiting, length) != (long)length) __builtin_trap();
    length = 0;
}

static void put(const u8 *record, unsigned long bytes) {
    if (!left) return;
    left--;
    if (sizeof waiting < length + bytes) flush();
    for (unsigned long i = 0; i < bytes; i++) waiting[length++] = record[i];
}

int main(int argc, char **argv) {
    if (argc != 3) return 2;
    for (char *c = argv[2]; *c; c++) left = left * 10 + (*c - '0');
    make(argv[1][0]);
    flush();
    return 0;
}
