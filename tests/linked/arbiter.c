/* The five calls of the arbiter on sequences from standard input, a line each: HEX CALL CALL .., which are the state's bytes (hexadecimal,
 * small letters, - for none, at most 64) and calls on it, one after another:
 *   t/CALLER                      tick
 *   r/CALLER/CORE/REGISTER        read
 *   l/CALLER/CORE                 line
 *   w/CALLER/CORE/REGISTER/VALUE  write
 *   z/CALLER/CORES/SLOT           reset
 * Writes a line for each, with STATUS/A/B/HEX for each call: both places of the answer (- where the status is 2), and the bytes that it leaves,
 * or = where every byte is as before. Each call is tried on copies first, with answers of 0 to 4 places and with states one byte shorter and
 * longer; every place and byte that a call may not write is filled before it and compared after it, those behind the lent ones too. Where one
 * is otherwise, the line is 'wrong ..'. */
#include "lent.h"
#include "slotfigures.h"
#include <inttypes.h>
#include <stdio.h>
#include <string.h>

/* OUT is enough for the largest answer to each of the shortest calls of a line */
enum { LINE = 1 << 17, OUT = LINE / 4 * 176, BYTES = 64, GUARD = 32, ANSWERS = 8 };

/* the state, behind whose bytes stand GUARD that are filled */
static uint8_t state[BYTES + GUARD];
static size_t length;

struct call {
    char kind;
    uint64_t number[4];
};

/* what a call leaves */
struct left {
    uint64_t status, answer[ANSWERS];
    uint8_t state[BYTES + GUARD];
};

/* makes a call on a copy of the state, of which so many bytes are lent, and so many places of the answer */
static void make(const struct call *call, size_t bytes, size_t places, struct left *to) {
    const uint64_t *n = call->number;
    fill(to->answer, ANSWERS);
    memcpy(to->state, state, sizeof state);
    switch (call->kind) {
    case 't': to->status = slotfigures_arbiter_tick(to->state, bytes, n[0], to->answer, places); break;
    case 'r': to->status = slotfigures_arbiter_read(to->state, bytes, n[0], n[1], n[2], to->answer, places); break;
    case 'l': to->status = slotfigures_arbiter_line(to->state, bytes, n[0], n[1], to->answer, places); break;
    case 'w': to->status = slotfigures_arbiter_write(to->state, bytes, n[0], n[1], n[2], n[3], to->answer, places); break;
    default: to->status = slotfigures_arbiter_reset(to->state, bytes, n[0], n[1], n[2], to->answer, places);
    }
}

/* whether a call that leaves this has written only what it may */
static int sound(const struct call *call, size_t bytes, size_t places, const struct left *left) {
    int same = memcmp(left->state, state, sizeof state) == 0;
    if (bytes != SLOTFIGURES_ARBITER_BYTES || places < 2) return left->status == SLOTFIGURES_SHORT && same && kept(left->answer, 0, ANSWERS);
    if (!kept(left->answer, 2, ANSWERS) || memcmp(left->state + bytes, state + bytes, sizeof state - bytes)) return 0;
    if (left->status == SLOTFIGURES_REFUSED) return same;
    return left->status == SLOTFIGURES_DONE && left->answer[0] == 0 && (same || (call->kind != 'r' && call->kind != 'l'));
}

/* makes a call on copies, with answers and states of other lengths too: NULL, or what is wrong */
static const char *try_call(const struct call *call, struct left *found) {
    static struct left other;
    static char what[80];
    size_t places, bytes;
    make(call, length, 2, found);
    for (places = 0; places <= 4; places++) {
        make(call, length, places, &other);
        sprintf(what, "%c, answer of %zu", call->kind, places);
        if (!sound(call, length, places, &other)) return what;
        if (places >= 2 && memcmp(&other, found, sizeof other)) return what;
    }
    for (bytes = length ? length - 1 : 0; bytes <= length + 1; bytes++) {
        make(call, bytes, 2, &other);
        sprintf(what, "%c, state of %zu", call->kind, bytes);
        if (!sound(call, bytes, 2, &other)) return what;
    }
    return NULL;
}

/* writes what a call leaves, and the end of the text; gives where that stands */
static char *write_left(char *to, const struct left *left) {
    if (left->status == SLOTFIGURES_SHORT) to += sprintf(to, "2/-/-/");
    else to += sprintf(to, "%" PRIu64 "/%" PRIu64 "/%" PRIu64 "/", left->status, left->answer[0], left->answer[1]);
    if (memcmp(left->state, state, length) == 0) return to + sprintf(to, "=");
    return write_bytes(to, left->state, length);
}

/* reads a blank and a call at *s and moves *s behind them; 0, if there is none */
static int read_call(const char **s, struct call *call) {
    static const char kinds[] = "tlrzw";
    static const int numbers[] = {1, 2, 3, 3, 4};
    const char *kind;
    int i;
    if (**s != ' ' || (*s)[1] == '\0' || !(kind = strchr(kinds, (*s)[1]))) return 0;
    call->kind = *kind;
    *s += 2;
    for (i = 0; i < numbers[kind - kinds]; i++)
        if (!read_number(s, '/', &call->number[i])) return 0;
    return 1;
}

/* makes the calls at s, each on the state that the one before left, and writes the line; 0, if they are none */
static int try_calls(const char *s) {
    static char out[OUT];
    static struct left left;
    char *end = out;
    const char *wrong = NULL;
    struct call call;
    while (*s != '\n') {
        if (!read_call(&s, &call)) return 0;
        if (wrong || (wrong = try_call(&call, &left))) continue;
        if (end != out) *end++ = ' ';
        end = write_left(end, &left);
        memcpy(state, left.state, sizeof state);
    }
    *end = '\0';
    printf("%s%s\n", wrong ? "wrong " : "", wrong ? wrong : out);
    return 1;
}

int main(void) {
    static char line[LINE];
    size_t i;
    while (fgets(line, sizeof line, stdin)) {
        const char *s = line;
        int good = strchr(line, '\n') && read_bytes(&s, state, BYTES, &length);
        for (i = 0; good && i < GUARD; i++) state[length + i] = (uint8_t)(0xa5 + i);
        if (!good || !try_calls(s)) return printf("wrong: the line is not understood\n"), 1;
    }
    return 0;
}
