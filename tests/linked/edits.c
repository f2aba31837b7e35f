/* slotfigures_edit and slotfigures_preview on cases from standard input, a line each: HEX NODE LOWEST HIGHEST PLACES, which are the image
 * (hexadecimal, small letters, - for an empty one), the block's number and its durations, and the places of the table that is lent (at most
 * 300). Writes for each case the line
 *   edit STATUS A B HEX; preview STATUS A B ..
 * with both places of the answer and the image's bytes after the edit, and of a preview that is done the third place too and OFFSET:TIME for
 * each exit offset. Both are tried with answers of 0 to 4 places; every place and byte that a call may not write is filled before it and
 * compared after it, those behind the lent ones too. An edited image is accepted, has the figures and the table of the preview, and is the old
 * one again after an edit back. Where one is otherwise, the line is 'wrong ..'. */
#include "lent.h"
#include "slotfigures.h"
#include <inttypes.h>
#include <stdio.h>
#include <string.h>

enum { BYTES = 16384, PLACES = 300, ANSWERS = 8, GUARD = 32 };

/* one case; behind the image, and in `before` too, stand GUARD bytes that are filled */
static uint8_t image[BYTES + GUARD], before[BYTES + GUARD];
static size_t length, places;
static uint64_t node, lowest, highest;

/* what a call leaves */
struct left {
    uint64_t status, answer[ANSWERS], table[PLACES + GUARD];
    uint8_t image[BYTES + GUARD];
};

/* whether an image, and the bytes behind it, are those before */
static int untouched(const uint8_t *bytes) { return memcmp(bytes, before, length + GUARD) == 0; }

static void start(struct left *to) {
    fill(to->answer, ANSWERS);
    fill(to->table, PLACES + GUARD);
    memcpy(to->image, before, length + GUARD);
}

static int same(const struct left *a, const struct left *b) {
    return a->status == b->status && !memcmp(a->answer, b->answer, sizeof a->answer) && !memcmp(a->table, b->table, sizeof a->table);
}

/* edits with answers of 0 to 4 places: NULL, or what is wrong */
static const char *try_edits(struct left *edited) {
    static struct left other;
    static char what[80];
    size_t answers;
    start(edited);
    edited->status = slotfigures_edit(edited->image, length, node, lowest, highest, edited->answer, 2);
    if (!kept(edited->answer, 2, ANSWERS)) return "edit: the answer behind two places";
    if (memcmp(edited->image + length, before + length, GUARD)) return "edit: bytes behind the image";
    if (edited->status != SLOTFIGURES_DONE && !untouched(edited->image)) return "edit: refused, and a byte is changed";
    for (answers = 0; answers <= 4; answers++) {
        start(&other);
        other.status = slotfigures_edit(other.image, length, node, lowest, highest, other.answer, answers);
        sprintf(what, "edit, answer of %zu", answers);
        if (answers < 2 && !(other.status == SLOTFIGURES_SHORT && kept(other.answer, 0, ANSWERS) && untouched(other.image))) return what;
        if (answers >= 2 && !(same(&other, edited) && !memcmp(other.image, edited->image, length + GUARD))) return what;
    }
    return NULL;
}

/* previews with answers of 0 to 4 places: NULL, or what is wrong */
static const char *try_previews(struct left *previewed, uint64_t period) {
    static struct left other;
    static char what[80];
    size_t answers, written;
    start(previewed);
    previewed->status = slotfigures_preview(image, length, node, lowest, highest, previewed->table, places, previewed->answer, 3);
    written = previewed->status == SLOTFIGURES_DONE ? 3 : 2;
    if (!untouched(image)) return "preview: a byte of the image is changed";
    if (!kept(previewed->answer, written, ANSWERS)) return "preview: the answer behind what is given";
    if (previewed->status == SLOTFIGURES_DONE && places < period) return "preview: done with too few places";
    if (!kept(previewed->table, previewed->status == SLOTFIGURES_DONE ? period : 0, PLACES + GUARD)) return "preview: places of the table";
    for (answers = 0; answers <= 4; answers++) {
        start(&other);
        other.status = slotfigures_preview(image, length, node, lowest, highest, other.table, places, other.answer, answers);
        sprintf(what, "preview, answer of %zu", answers);
        if (!untouched(image)) return what;
        if (answers < 3 && !(other.status == SLOTFIGURES_SHORT && kept(other.answer, 0, ANSWERS) && kept(other.table, 0, PLACES + GUARD))) return what;
        if (answers >= 3 && !same(&other, previewed)) return what;
    }
    return NULL;
}

/* where the body of the node's field stands, or 0: fields follow each other from byte 0, and node 0 is the third */
static size_t body(void) {
    size_t at = 0;
    uint64_t field;
    for (field = 0; at + 7 <= length; field++, at += 3u + before[at + 1] * 256u + before[at + 2])
        if (field >= 2 && field - 2 == node) return at + 3;
    return 0;
}

/* the edited image is accepted, has the figures of the preview and can be edited back: NULL, or what is wrong */
static const char *try_edited(const struct left *edited, const struct left *previewed, uint64_t period) {
    static struct left fresh;
    uint64_t answer[2];
    size_t at = body();
    if (slotfigures_judge(edited->image, length, answer, 2) != SLOTFIGURES_DONE || answer[1] != period) return "the edited image is not accepted";
    start(&fresh);
    fresh.status = slotfigures_figures(edited->image, length, fresh.table, places, fresh.answer, 3);
    if (!same(&fresh, previewed)) return "preview: other than the figures of the edited image";
    if (at == 0) return "edit: done, and there is no such node";
    memcpy(image, edited->image, length);
    if (slotfigures_edit(image, length, node, before[at] * 256u + before[at + 1], before[at + 2] * 256u + before[at + 3], answer, 2) != SLOTFIGURES_DONE)
        return "the edit back is refused";
    return untouched(image) ? NULL : "the edit back does not restore the image";
}

static void try_case(void) {
    static struct left edited, previewed;
    static char digits[2 * BYTES + 1];
    uint64_t answer[2], period = 0;
    const char *wrong;
    size_t i;
    for (i = 0; i < GUARD; i++) image[length + i] = (uint8_t)(0xa5 + i);
    memcpy(before, image, length + GUARD);
    if (slotfigures_judge(image, length, answer, 2) == SLOTFIGURES_DONE) period = answer[1];
    wrong = try_edits(&edited);
    if (!wrong) wrong = try_previews(&previewed, period);
    if (!wrong && edited.status == SLOTFIGURES_DONE) wrong = try_edited(&edited, &previewed, period);
    if (wrong) {
        printf("wrong %s\n", wrong);
        return;
    }
    write_bytes(digits, edited.image, length);
    printf("edit %" PRIu64 " %" PRIu64 " %" PRIu64 " %s; preview %" PRIu64 " %" PRIu64 " %" PRIu64, edited.status, edited.answer[0],
           edited.answer[1], digits, previewed.status, previewed.answer[0], previewed.answer[1]);
    if (previewed.status == SLOTFIGURES_DONE) {
        printf(" %" PRIu64, previewed.answer[2]);
        for (i = 0; i < period; i++)
            if (previewed.table[i] != SLOTFIGURES_NO_TIME) printf(" %zu:%" PRIu64, i, previewed.table[i]);
    }
    putchar('\n');
}

int main(void) {
    static char line[2 * BYTES + 128];
    while (fgets(line, sizeof line, stdin)) {
        const char *s = line;
        uint64_t lent;
        if (!read_bytes(&s, image, BYTES, &length) || !read_number(&s, ' ', &node) || !read_number(&s, ' ', &lowest) ||
            !read_number(&s, ' ', &highest) || !read_number(&s, ' ', &lent) || strcmp(s, "\n") != 0 || lent > PLACES)
            return printf("wrong: the line is not understood\n"), 1;
        places = (size_t)lent;
        try_case();
    }
    return 0;
}
