/* By when tasks that wait for tasks start and end, the whole way from their images: finishes IMAGE WAITS [IMAGE WAITS ..]
 * Two words to a task: the file of its task image (bytes), and the indices of the earlier tasks that it waits for, with commas, or - for none.
 * Its core is that of its image, and its time the image's tight figure. */
#include "slotfigures.h"
#include <inttypes.h>
#include <stdio.h>
#include <stdlib.h>
#include <string.h>

/* reads the decimal number at *s into *n and moves *s behind it; 0, if there is none or it needs more than 64 bits */
static int number(const char **s, uint64_t *n) {
    const char *first = *s;
    for (*n = 0; **s >= '0' && **s <= '9'; ++*s) {
        uint64_t digit = (uint64_t)(**s - '0');
        if (*n > (UINT64_MAX - digit) / 10) return 0;
        *n = *n * 10 + digit;
    }
    return *s != first;
}

/* reads the waits of a task, which is all 0 before; 0, if the word says none. An entry has room for eight; that there are no more the library
 * judges, by their count */
static int read_waits(const char *waits, struct slotfigures_task *task) {
    if (strcmp(waits, "-") == 0) return 1;
    for (;; waits++) {
        uint64_t wait;
        if (!number(&waits, &wait)) return 0;
        if (task->count < SLOTFIGURES_MOST_WAITS) task->waits[task->count] = wait;
        task->count++;
        if (*waits != ',') return *waits == '\0';
    }
}

/* reads the bus of an accepted image, the core that owns each offset below the period, and gives the task's own core. Field 1 has tag 1, with
 * cores, slot and core in bytes 3 to 5, or tag 9, with the core in byte 3 and then pairs of core and slot length; its length is in byte 2 */
static uint8_t read_bus(const uint8_t *image, uint8_t *owner) {
    size_t i;
    if (image[0] == 9) {
        for (i = 4; i < 3u + image[2]; owner += image[i + 1], i += 2) memset(owner, image[i], image[i + 1]);
        return image[3];
    }
    for (i = 0; i < image[3]; owner += image[4], i++) memset(owner, (int)i, image[4]);
    return image[5];
}

/* reads the core and the time of a task off the image in a file: NULL, or what is wrong with it */
static const char *read_image(const char *file, struct slotfigures_task *task) {
    static uint8_t image[16384 + 1], first[SLOTFIGURES_MOST_PLACES], bus[SLOTFIGURES_MOST_PLACES];
    static uint64_t table[SLOTFIGURES_MOST_PLACES], period; /* that of the first image */
    static char refused[64];
    const uint8_t *starts;
    uint64_t answer[3];
    FILE *in = fopen(file, "rb");
    size_t n = in ? fread(image, 1, sizeof image, in) : 0;
    int failed = !in || ferror(in);
    if (in) fclose(in);
    if (failed) return "it cannot be read";
    if (n == sizeof image) return "longer than 16384 bytes";
    if (slotfigures_figures(image, n, table, SLOTFIGURES_MOST_PLACES, answer, 3) != SLOTFIGURES_DONE) {
        sprintf(refused, "refused %" PRIu64 " %" PRIu64, answer[0], answer[1]);
        return refused;
    }
    task->core = read_bus(image, bus);
    task->time = answer[0];
    /* The tight figure holds only for the starts that the image lists, and a task may start at any offset. An accepted image lists each start
     * once and below the period, so it lists every offset if field 2's length, two bytes with the high byte first, is the period. Field 2 stands
     * behind field 1, wherever that ends. */
    slotfigures_judge(image, n, answer, 3);
    starts = image + 3 + image[2];
    if (starts[1] * 256u + starts[2] != answer[1]) return "it does not list every offset as a start: its tight figure is no time";
    /* all tasks run on one bus: each offset has the owner that it has in the first image */
    if (period == 0) {
        period = answer[1];
        memcpy(first, bus, sizeof first);
    }
    return period == answer[1] && memcmp(first, bus, period) == 0 ? NULL : "its bus is not that of the first image";
}

int main(int argc, char **argv) {
    size_t n = (size_t)argc / 2, i;
    struct slotfigures_task *tasks = calloc(n + 1, sizeof *tasks);
    uint64_t finishes[SLOTFIGURES_MOST_TASKS], answer[2];
    int good = tasks && argc > 1 && argc % 2 == 1;
    for (i = 0; good && i < n; i++) good = read_waits(argv[2 * i + 2], &tasks[i]);
    if (!good) {
        fputs("usage: finishes IMAGE WAITS [IMAGE WAITS ..]\n", stderr);
        return 2;
    }
    for (i = 0; i < n; i++) {
        const char *file = argv[2 * i + 1], *wrong = read_image(file, &tasks[i]);
        if (wrong) {
            fprintf(stderr, "%s: %s\n", file, wrong);
            return 1;
        }
    }
    if (slotfigures_finishes((const uint64_t *)tasks, n * (sizeof *tasks / sizeof(uint64_t)), finishes, SLOTFIGURES_MOST_TASKS, answer, 2) !=
        SLOTFIGURES_DONE) {
        printf("refused %" PRIu64 " %" PRIu64 "\n", answer[0], answer[1]);
    } else {
        for (i = 0; i < n; i++)
            printf("task %zu on core %" PRIu64 ": starts by %" PRIu64 ", ends by %" PRIu64 "\n",
                   i, tasks[i].core, finishes[i] - tasks[i].time, finishes[i]);
    }
    if (fflush(stdout) != 0 || ferror(stdout)) {
        fputs("standard output: it cannot be written\n", stderr);
        return 1;
    }
    return 0;
}
