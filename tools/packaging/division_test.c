/* Compares division.c, whose function has the name `divided` here, with the compiler's own division. */
#include <stdio.h>

typedef unsigned __int128 wide;
wide divided(wide number, wide by);

int main(void) {
    enum { COUNT = 140, POWERS = 64 };
    wide texts[COUNT] = {~(wide)0}, seed = 1;
    int wrong = 0;
    for (int i = 1; i < COUNT; i++) {
        /* (Knuth's generator MMIX, by 128 bits) */
        seed = seed * 6364136223846793005u + 1442695040888963407u;
        texts[i] = i < POWERS ? ((wide)1 << 2 * i) + i % 3 - 1 : seed;
    }
    for (int i = 0; i < COUNT; i++)
        for (int j = 0; j < COUNT; j++)
            wrong += texts[j] != 0 && divided(texts[i], texts[j]) != texts[i] / texts[j];
    printf("%d of %d\n", wrong, COUNT * COUNT);
    return 0;
}
