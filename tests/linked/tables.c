/* slotfigures_finishes on task tables from standard input, a line each, its numbers in decimal (an empty line is a table without numbers).
 * Writes a line for each: the status, both places of the answer and the 64 finishes. Every table is tried with answers of 0 to 4 places and
 * with finishes of fewer than 64 places, of 64 and of more; every place that a call may not write is filled before it and compared after it,
 * those behind the lent ones and the table too. Where one is another, the line is 'wrong ..'. */
#include "lent.h"
#include "slotfigures.h"
#include <inttypes.h>
#include <stdio.h>
#include <stdlib.h>
#include <string.h>

enum { NUMBERS = 1024, PLACES = 80, ANSWERS = 8 };

static uint64_t table[NUMBERS], before[NUMBERS], finishes[PLACES], answer[ANSWERS];

static uint64_t call(size_t length, size_t ends, size_t answers) {
    fill(finishes, PLACES);
    fill(answer, ANSWERS);
    return slotfigures_finishes(table, length, finishes, ends, answer, answers);
}

/* one call, against what the first one left; NULL, or what is wrong */
static const char *try_call(size_t length, size_t ends, size_t answers, uint64_t status, const uint64_t *found, const uint64_t *said) {
    static char what[80];
    uint64_t got = call(length, ends, answers);
    sprintf(what, "finishes of %zu, answer of %zu", ends, answers);
    if (memcmp(table, before, sizeof table)) return "the table is written to";
    if (ends < 64 || answers < 2) return got == 2 && kept(finishes, 0, PLACES) && kept(answer, 0, ANSWERS) ? NULL : what;
    if (got != status || memcmp(finishes, found, 64 * sizeof *found) || memcmp(answer, said, 2 * sizeof *said)) return what;
    return kept(finishes, 64, PLACES) && kept(answer, 2, ANSWERS) ? NULL : what;
}

static void try_table(size_t length) {
    static const size_t lengths[] = {0, 1, 63, 64, 65, PLACES};
    uint64_t status, found[64], said[2];
    const char *wrong = NULL;
    size_t i, answers;
    memcpy(before, table, sizeof table);
    status = call(length, 64, 2);
    memcpy(found, finishes, sizeof found);
    memcpy(said, answer, sizeof said);
    for (i = 0; i < sizeof lengths / sizeof *lengths; i++)
        for (answers = 0; answers <= 4; answers++)
            if (!wrong) wrong = try_call(length, lengths[i], answers, status, found, said);
    if (wrong) {
        printf("wrong %s\n", wrong);
        return;
    }
    printf("%" PRIu64 " %" PRIu64 " %" PRIu64, status, said[0], said[1]);
    for (i = 0; i < 64; i++) printf(" %" PRIu64, found[i]);
    putchar('\n');
}

int main(void) {
    static char line[32768];
    while (fgets(line, sizeof line, stdin)) {
        char *s = line, *end;
        size_t length = 0;
        if (!strchr(line, '\n')) return printf("wrong: a line without end\n"), 1;
        fill(table, NUMBERS);
        for (;; s = end, length++) {
            uint64_t number = strtoull(s, &end, 10);
            if (end == s) break;
            if (length == NUMBERS) return printf("wrong: a line too long\n"), 1;
            table[length] = number;
        }
        if (s[strspn(s, " \n")] != '\0') return printf("wrong: no number: %s", s), 1;
        try_table(length);
    }
    return 0;
}
