/* What both figures would be if a plain block had other durations: previews IMAGE NODE LOWEST HIGHEST [LOWEST HIGHEST ..]
 * IMAGE is the file of a task image (bytes), which stays as it is, and NODE the block's number, counted from 0. Writes a line for the image as
 * it is, and one for each pair of durations; a pair that is refused does not keep the next from being tried. */
#include "slotfigures.h"
#include <inttypes.h>
#include <stdio.h>
#include <stdlib.h>

/* reads a word that is a decimal number; 0, if it is none or needs more than 64 bits */
static int number(const char *word, uint64_t *n) {
    const char *s;
    for (s = word, *n = 0; *s >= '0' && *s <= '9'; s++) {
        uint64_t digit = (uint64_t)(*s - '0');
        if (*n > (UINT64_MAX - digit) / 10) return 0;
        *n = *n * 10 + digit;
    }
    return s != word && *s == '\0';
}

static uint8_t image[16384 + 1];
static size_t length;

/* reads the image: NULL, or what is wrong with its file */
static const char *read_image(const char *file) {
    FILE *in = fopen(file, "rb");
    int failed;
    length = in ? fread(image, 1, sizeof image, in) : 0;
    failed = !in || ferror(in);
    if (in) fclose(in);
    if (failed) return "it cannot be read";
    return length == sizeof image ? "longer than 16384 bytes" : NULL;
}

/* the rest of a line: both figures, or the refusal */
static void list(uint64_t status, const uint64_t *answer) {
    printf(status == SLOTFIGURES_DONE ? "tight %" PRIu64 ", published %" PRIu64 "\n" : "refused %" PRIu64 " %" PRIu64 "\n",
           answer[0], answer[1]);
}

int main(int argc, char **argv) {
    static uint64_t table[SLOTFIGURES_MOST_PLACES];
    size_t n = (size_t)argc, i;
    uint64_t *numbers = calloc(n + 1, sizeof *numbers), answer[3];
    int good = numbers && n >= 5 && n % 2 == 1;
    const char *wrong;
    for (i = 2; good && i < n; i++) good = number(argv[i], &numbers[i]);
    if (!good) {
        fputs("usage: previews IMAGE NODE LOWEST HIGHEST [LOWEST HIGHEST ..]\n", stderr);
        return 2;
    }
    wrong = read_image(argv[1]);
    if (wrong) {
        fprintf(stderr, "%s: %s\n", argv[1], wrong);
        return 1;
    }
    printf("as it is: ");
    list(slotfigures_figures(image, length, table, SLOTFIGURES_MOST_PLACES, answer, 3), answer);
    for (i = 3; i < n; i += 2) {
        uint64_t lowest = numbers[i], highest = numbers[i + 1];
        printf("%" PRIu64 " to %" PRIu64 ": ", lowest, highest);
        list(slotfigures_preview(image, length, numbers[2], lowest, highest, table, SLOTFIGURES_MOST_PLACES, answer, 3), answer);
    }
    if (fflush(stdout) != 0 || ferror(stdout)) {
        fputs("standard output: it cannot be written\n", stderr);
        return 1;
    }
    return 0;
}
