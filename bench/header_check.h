// The six check bits over a header's fields: the remainder by x^6 + x^4 + x^3 + 1, in a register.
static unsigned check_of(unsigned long long fields, int width) {
    unsigned rest = 0;
    while (width--) {
        rest = rest << 1 ^ (fields >> width & 1) << 6;
        if (rest & 0x40) rest ^= 0x59;
    }
    return rest;
}
