/* Both functions of include/slotfigures.h on the cases of cases.txt, from standard input: for each, answers of 0 to 4 places and tables of 0 to
 * period + 3 (13 for a refused image). Every place that a call may not write is filled and compared, those behind the lent ones too.
 * Writes 'ok NAME' or 'wrong NAME: ..' for each case. */
#include "lent.h"
#include "slotfigures.h"
#include <inttypes.h>
#include <stdio.h>
#include <stdlib.h>
#include <string.h>

enum { PLACES = 280, ANSWERS = 8 };

static int same(const uint64_t *a, const uint64_t *b, size_t n) { return memcmp(a, b, n * sizeof *a) == 0; }

/* one case, and what both calls are to leave */
static uint8_t image[16384];
static size_t length;
static int given;
static uint64_t period, number, place, figure[3], times[PLACES];

static int read_image(const char *s) {
    length = 0;
    for (; *s; s++) {
        if (*s == ' ') continue;
        if (hex(s[0]) < 0 || hex(s[1]) < 0 || length == sizeof image) return 0;
        image[length++] = (uint8_t)(hex(s[0]) * 16 + hex(s[1]));
        s++;
    }
    return 1;
}

static int read_expected(const char *s) {
    int used = 0;
    size_t o;
    uint64_t time;
    for (o = 0; o < PLACES; o++) times[o] = SLOTFIGURES_NO_TIME;
    given = sscanf(s, " given %" SCNu64 " %" SCNu64 " %" SCNu64 " %" SCNu64 "%n", &period, &figure[0], &figure[1], &figure[2], &used) == 4;
    if (!given) return sscanf(s, " refused %" SCNu64 " %" SCNu64, &number, &place) == 2;
    for (s += used; sscanf(s, " %zu:%" SCNu64 "%n", &o, &time, &used) == 2; s += used) times[o] = time;
    return period + 3 < PLACES && *s == '\0';
}

/* the expected status, and the expected answer over one that is filled */
static uint64_t judged(uint64_t *answer, size_t answers) {
    if (answers < 2) return 2;
    answer[0] = given ? 0 : number;
    answer[1] = given ? period : place;
    return given ? 0 : 1;
}

static uint64_t worked_out(uint64_t *table, size_t places, uint64_t *answer, size_t answers) {
    if (answers < 3) return 2;
    if (!given || places < period) {
        answer[0] = given ? 10 : number;
        answer[1] = given ? length : place;
        return 1;
    }
    memcpy(answer, figure, sizeof figure);
    memcpy(table, times, period * sizeof *table);
    return 0;
}

/* NULL, or what is wrong */
static const char *try_case(void) {
    static uint64_t table[PLACES], expected_table[PLACES], answer[ANSWERS], expected[ANSWERS];
    static uint8_t before[sizeof image];
    static char what[80];
    size_t answers, places, most = given ? period + 3 : 13;
    memcpy(before, image, length);
    for (answers = 0; answers <= 4; answers++) {
        fill(answer, ANSWERS);
        fill(expected, ANSWERS);
        sprintf(what, "judge, answer of %zu", answers);
        if (slotfigures_judge(image, length, answer, answers) != judged(expected, answers)) return what;
        if (!same(answer, expected, ANSWERS)) return what;
        for (places = 0; places <= most; places++) {
            fill(table, PLACES);
            fill(expected_table, PLACES);
            fill(answer, ANSWERS);
            fill(expected, ANSWERS);
            sprintf(what, "figures, table of %zu, answer of %zu", places, answers);
            if (slotfigures_figures(image, length, table, places, answer, answers) != worked_out(expected_table, places, expected, answers)) return what;
            if (!same(answer, expected, ANSWERS) || !same(table, expected_table, PLACES)) return what;
        }
    }
    return memcmp(image, before, length) ? "the image is written to" : NULL;
}

int main(void) {
    static char line[65536];
    int failed = 0;
    while (fgets(line, sizeof line, stdin)) {
        char *bytes, *expected;
        const char *wrong;
        line[strcspn(line, "\n")] = '\0';
        if (line[0] == '\0' || line[0] == '#') continue;
        bytes = strchr(line, ';');
        expected = bytes ? strchr(bytes + 1, ';') : NULL;
        if (!expected) return printf("wrong line: %s\n", line), 1;
        *bytes++ = '\0';
        *expected++ = '\0';
        wrong = read_image(bytes) && read_expected(expected) ? try_case() : "the line is not understood";
        failed |= wrong != NULL;
        if (wrong) printf("wrong %s: %s\n", line, wrong);
        else printf("ok %s\n", line);
    }
    return failed;
}
