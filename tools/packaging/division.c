/* A division of 128 bits, which compilers keep in a library of their own: for a shared library that is linked where
   that one isn't there for its processor. */
typedef unsigned __int128 wide;

wide __udivti3(wide number, wide by) {
    if (number >> 64 == 0 && by >> 64 == 0)
        return (unsigned long)number / (unsigned long)by;
    wide quotient = 0, rest = 0;
    for (int i = 128; i-- > 0;) {
        rest = rest << 1 | (number >> i & 1);
        quotient <<= 1;
        /* (nothing is shifted out: before the last bit `rest` has 127 at most) */
        if (rest >= by)
            rest -= by, quotient |= 1;
    }
    return quotient;
}
