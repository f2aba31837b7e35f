/* Both figures of the task image on standard input, as the program figure writes them; nothing of an input that cannot be read whole. */
#include "slotfigures.h"
#include <inttypes.h>
#include <stdio.h>

int main(void) {
    static uint8_t image[16384];
    static uint64_t table[SLOTFIGURES_MOST_PLACES];
    uint64_t answer[3];
    size_t n = fread(image, 1, sizeof image, stdin), o;
    if (ferror(stdin)) {
        perror("standard input");
        return 1;
    }
    for (o = 0; o < SLOTFIGURES_MOST_PLACES; o++) table[o] = SLOTFIGURES_NO_TIME;
    if (slotfigures_figures(image, n, table, SLOTFIGURES_MOST_PLACES, answer, 3) != SLOTFIGURES_DONE) {
        printf("refused %" PRIu64 " %" PRIu64 "\n", answer[0], answer[1]);
    } else {
        printf("tight %" PRIu64 "\npublished %" PRIu64 "\nexits %" PRIu64 "\n", answer[0], answer[1], answer[2]);
        for (o = 0; o < SLOTFIGURES_MOST_PLACES; o++)
            if (table[o] != SLOTFIGURES_NO_TIME) printf("%zu %" PRIu64 "\n", o, table[o]);
    }
    if (fflush(stdout) != 0 || ferror(stdout)) {
        perror("standard output");
        return 1;
    }
    return 0;
}
