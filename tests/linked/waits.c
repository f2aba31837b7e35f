/* The wait on both sides of each boundary, where an access may start at one offset and not at the next or the other way round, and at the period's
 * first and last offset: both figures of a block that always accesses, from one start, are the cycles that the clock takes, passed here one by one
 * with the question who owns the next ones, and its one exit has that time. That is tried
 *   - on every bus of tag 1's ranges, for every core and length of access, and on the same buses written as pairs, with tag 9;
 *   - with tag 9 for every way in which a core can own cycles of a period of up to nine, for long slots apart, joined and joined round the period,
 *     and for 32 pairs. An access of one cycle more than the longest stretch, or than the period, is refused.
 * And the arbiter as a device: an access of each core, written at one offset, is done after as many ticks as the clock takes cycles, and no sooner.
 * Writes 'wrong ..' for each that is another, and at last 'ok N ..' or 'wrong N ..' for each of the three. */
#include "slotfigures.h"
#include <inttypes.h>
#include <stdio.h>
#include <string.h>

/* a bus: field 1 of its images, and the core that owns each offset */
static uint8_t field[68];
static size_t field_length;
static unsigned owner[256], period, core, e;

struct count {
    unsigned long tried, wrong;
};
static struct count tag_1, tag_9, device, *count;

/* "an access may start where that core owns the next e cycles", counted round the period. Where all slots are equal these cycles "lie inside the
 * core's slot of that period", since the slot behind it is another core's */
static int may_start(unsigned o) {
    unsigned i;
    for (i = 0; i < e; i++)
        if (owner[(o + i) % period] != core) return 0;
    return 1;
}

static unsigned next(unsigned o) { return o == period - 1 ? 0 : o + 1; }

/* "An access of e cycles passes one cycle at a time until it may start, and then passes e cycles." */
static unsigned clocked(unsigned o) {
    unsigned cycles = 0;
    for (; !may_start(o); o = next(o)) cycles++;
    return cycles + e;
}

/* the image of an access of e cycles from one offset: field 1, 4 bytes of the start, and the block; gives its length */
static size_t make_image(uint8_t *image, unsigned o) {
    const uint8_t rest[] = {2, 0, 1, (uint8_t)o, 4, 0, 3, 2, (uint8_t)e, (uint8_t)e};
    memcpy(image, field, field_length);
    memcpy(image + field_length, rest, sizeof rest);
    return field_length + sizeof rest;
}

/* counts an image, and shows one whose answer is wrong */
static void counted(int good, const uint8_t *image, size_t length, const uint64_t *answer) {
    size_t i;
    count->tried++;
    if (good) return;
    count->wrong++;
    printf("wrong");
    for (i = 0; i < length; i++) printf(" %02x", image[i]);
    printf(": %" PRIu64 " and %" PRIu64 "\n", answer[0], answer[1]);
}

static void try_wait(unsigned o) {
    uint8_t image[80];
    uint64_t table[256], answer[3] = {0, 0, 0};
    unsigned cycles = clocked(o), end = (o + cycles) % period, place;
    size_t length = make_image(image, o);
    int good = slotfigures_figures(image, length, table, 256, answer, 3) == 0 && answer[0] == cycles && answer[1] == cycles && answer[2] == 1;
    for (place = 0; good && place < period; place++) good = table[place] == (place == end ? cycles : SLOTFIGURES_NO_TIME);
    counted(good, image, length, answer);
}

/* the offsets around each boundary, and the period's first and last */
static void try_length(void) {
    unsigned o;
    for (o = 0; o < period; o++)
        if (may_start(o) != may_start(next(o))) {
            try_wait(o);
            try_wait(next(o));
        }
    try_wait(0);
    try_wait(period - 1);
}

/* an access that is longer than the longest, where a byte can say it: 5 at its field */
static void try_refused(void) {
    uint8_t image[80];
    uint64_t answer[2] = {0, 0};
    size_t length = make_image(image, 0);
    if (e <= 255) counted(slotfigures_judge(image, length, answer, 2) == 1 && answer[0] == 5 && answer[1] == field_length + 4, image, length, answer);
}

/* a bus written as pairs: its beginning, each pair, and last the analysed core */
static void begin(void) {
    field_length = 4;
    period = 0;
}

static void pair(unsigned who, unsigned cycles) {
    field[field_length++] = (uint8_t)who;
    field[field_length++] = (uint8_t)cycles;
    while (cycles--) owner[period++] = who;
}

static void analyse(unsigned who) {
    const uint8_t head[] = {9, 0, (uint8_t)(field_length - 3), (uint8_t)who};
    memcpy(field, head, sizeof head);
    core = who;
    count = &tag_9;
}

/* the longest access that may start anywhere: the longest stretch, or the period */
static unsigned longest(void) {
    unsigned o;
    for (e = period; e > 1; e--)
        for (o = 0; o < period; o++)
            if (may_start(o)) return e;
    return e;
}

/* accesses of every length where the longest is short, else of the shortest, the longest, and as long as a slot of a or b cycles or one more */
static void try_lengths(unsigned a, unsigned b) {
    unsigned most = longest();
    for (e = 1; e <= most && e <= 255; e++)
        if (most <= 16 || e == 1 || e == most || e == a || e == a + 1 || e == b || e == b + 1) try_length();
    try_refused();
}

/* every way in which core 5 can own cycles of a period, each stretch as one pair, and then each cycle as one */
static void try_owned(unsigned cycles) {
    unsigned own, o, last;
    for (own = 1; own < 1u << cycles; own++) {
        begin();
        for (o = 0; o < cycles; o = last) {
            for (last = o + 1; last < cycles && (own >> last & 1) == (own >> o & 1);) last++;
            pair(own >> o & 1 ? 5 : 11, last - o);
        }
        analyse(5);
        try_lengths(0, 0);
        begin();
        for (o = 0; o < cycles; o++) pair(own >> o & 1 ? 5 : o % 5, 1);
        analyse(5);
        try_lengths(0, 0);
    }
}

/* two slots of core 15, of a and b cycles, and g and h cycles of other cores: apart, joined, joined round the period, and alone */
static void try_two(unsigned a, unsigned b, unsigned g, unsigned h) {
    begin(), pair(15, a), pair(0, g), pair(15, b), pair(1, h), analyse(15), try_lengths(a, b);
    begin(), pair(0, g), pair(15, a), pair(15, b), pair(1, h), analyse(15), try_lengths(a, b);
    begin(), pair(15, a), pair(0, g), pair(1, h), pair(15, b), analyse(15), try_lengths(a, b);
    begin(), pair(15, a), pair(15, b), analyse(15), try_lengths(a, b);
}

/* 32 pairs, of slots of 1 to 7 cycles that three cores share, and of one core alone */
static void try_many(void) {
    unsigned who, i;
    for (who = 0; who < 3; who++) {
        for (begin(), i = 0; i < 32; i++) pair(i * i / 2 % 3, 1 + i * 5 % 7);
        analyse(who);
        try_lengths(0, 0);
    }
    for (begin(), i = 0; i < 32; i++) pair(9, 8);
    analyse(9);
    try_lengths(8, 16);
}

static void try_unequal(void) {
    static const unsigned slots[] = {1, 2, 31, 64, 127, 128}, gaps[] = {1, 2, 60};
    unsigned cycles, a, b, g, h;
    for (cycles = 1; cycles <= 9; cycles++) try_owned(cycles);
    for (a = 0; a < 6; a++)
        for (b = 0; b < 6; b++)
            for (g = 0; g < 3; g++)
                for (h = 0; h < 3; h++)
                    if (slots[a] + slots[b] + gaps[g] + gaps[h] <= 256) try_two(slots[a], slots[b], gaps[g], gaps[h]);
    try_many();
}

/* every core writes the length at one offset, and ticks pass until the last is to be done */
static void try_device(unsigned cores, unsigned slot, unsigned o) {
    uint8_t state[SLOTFIGURES_ARBITER_BYTES] = {(uint8_t)cores, (uint8_t)slot, (uint8_t)o};
    uint64_t answer[2];
    unsigned due[16], tick, last = 0;
    int good = 1;
    for (core = 0; core < cores; core++) {
        due[core] = clocked(o);
        if (due[core] > last) last = due[core];
        good = good && slotfigures_arbiter_write(state, sizeof state, core, core, SLOTFIGURES_ARBITER_LENGTH, e, answer, 2) == 0;
    }
    for (tick = 1; good && tick <= last; tick++) {
        good = slotfigures_arbiter_tick(state, sizeof state, SLOTFIGURES_ARBITER_WORKSHOP, answer, 2) == 0;
        for (core = 0; core < cores; core++) good = good && (state[4 + 3 * core] == SLOTFIGURES_ARBITER_DONE) == (tick >= due[core]);
    }
    device.tried += cores;
    if (good) return;
    device.wrong += cores;
    printf("wrong %u cores, slot %u, offset %u, length %u: tick %u of the device\n", cores, slot, o, e, tick - 1);
}

/* every length and offset where the period is short; the shortest and the longest length around every slot's boundaries where it is not */
static int chosen(unsigned slot, unsigned o) { return period <= 48 || ((e == 1 || e == slot) && (o % slot <= 1 || o % slot == slot - 1)); }

/* a bus of equal slots: each core with the slots written as pairs and with tag 1, and the device */
static void try_equal(unsigned cores, unsigned slot) {
    unsigned who, i, o;
    for (who = 0; who < cores; who++) {
        const uint8_t bus[] = {1, 0, 3, (uint8_t)cores, (uint8_t)slot, (uint8_t)who};
        for (begin(), i = 0; i < cores; i++) pair(i, slot);
        analyse(who);
        for (e = 1; e <= slot; e++) try_length();
        try_refused();
        memcpy(field, bus, sizeof bus);
        field_length = sizeof bus;
        count = &tag_1;
        for (e = 1; e <= slot; e++) try_length();
        try_refused();
    }
    for (e = 1; e <= slot; e++)
        for (o = 0; o < period; o++)
            if (chosen(slot, o)) try_device(cores, slot, o);
}

static int told(const char *what, struct count of) {
    printf("%s %lu %s\n", of.wrong ? "wrong" : "ok", of.wrong ? of.wrong : of.tried, what);
    return of.wrong == 0 && of.tried > 0;
}

int main(void) {
    unsigned cores, slot;
    int good;
    for (cores = 2; cores <= 16; cores++)
        for (slot = 1; slot <= 128 && cores * slot <= 256; slot++) try_equal(cores, slot);
    try_unequal();
    good = told("waits with tag 1", tag_1);
    good = told("waits with tag 9", tag_9) && good;
    return !(told("accesses of the device", device) && good);
}
