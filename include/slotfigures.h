/* Both figures, the exit count and the table of exit offsets of a task image, the same after a change of one block's durations, the
 * finishes of tasks that wait for tasks, and the bus arbiter as a device, from C.
 *
 * Link crates/linked/out/liblinked.a (`rt lib` in crates/linked; x86-64 Linux) beside the C library. The functions are those of
 * crates/linked/src/lib.rt, where they are proved to leave exactly what is said here, for every image, table, state and array.
 *
 * Every array is a pointer and then its number of elements. What no proof covers is the calling program's side:
 *   - a pointer is not NULL and is aligned for its type, even where the number is 0 (nothing is then read or written through it);
 *   - the array has that many elements, and the arrays of one call do not overlap;
 *   - slotfigures_figures and slotfigures_preview have 1 MiB of stack, each of the others 32 KiB.
 * Nothing is kept between calls, and no memory is allocated: calls from several threads do not disturb each other, unless they lend one array
 * that is written, such as an arbiter's state: its owner lets in one call at a time.
 */
#ifndef SLOTFIGURES_H
#define SLOTFIGURES_H

#include <stddef.h>
#include <stdint.h>

#ifdef __cplusplus
extern "C" {
#endif

/* The status that a call returns. */
enum {
    SLOTFIGURES_DONE = 0,    /* the image is accepted or edited, its figures, those of the preview or the finishes are given, or the
                                arbiter's call is made */
    SLOTFIGURES_REFUSED = 1, /* the answer's first two places hold the refusal's number and its place */
    SLOTFIGURES_SHORT = 2    /* the answer or the finishes have too few places, or an arbiter's state is not 51 bytes long; every array
                                keeps its contents and nothing is judged */
};

/* The number of a refusal. Of an image the first that holds is answered: fields are judged from the front, within one in the order head cut,
 * 2, 3, 4, body cut, 5, 6, 11; then 7, 8, 9, 18; then, where a block is named, 19 and 5 of the durations given for it; 10 is the last. Its
 * place is the byte position of the field's tag for 1 to 6 and 11, that of the block's field for the durations given, and the image's length
 * for 7 to 10, 18 and 19. Of an arbiter the numbers are 17, then 15 and then 16, with place 0. Of a task table the number is 21, and its place
 * is an entry's index, or 0 for the table's size. */
enum {
    SLOTFIGURES_CUT = 1,        /* "cut": 1 or 2 bytes left where a field's head should stand, or a body with bytes missing */
    SLOTFIGURES_TAG = 2,        /* "tag": the first field's tag is neither 1 nor 9, the second's not 2, or a later one's neither 3 to 7 nor 10,
                                   nor 8 behind a node field; or a field stands behind one with tag 8 */
    SLOTFIGURES_FULL = 3,       /* "full": a 257th node field */
    SLOTFIGURES_LENGTH = 4,     /* "length": a body length that the tag does not permit */
    SLOTFIGURES_VALUE = 5,      /* "value": a number that breaks the rules of its field, order, products and sums included; or the durations
                                   given for a block do */
    SLOTFIGURES_FORWARD = 6,    /* "forward": a child number not below the node's own, of a loop its body's or its test's */
    SLOTFIGURES_UNFINISHED = 7, /* "unfinished": the image ends, between fields, before a node field */
    SLOTFIGURES_DEEP = 8,       /* "deep": the entry's depth is above 24 */
    SLOTFIGURES_LONG = 9,       /* "long": the entry's visits are above 100,000 */
    SLOTFIGURES_TABLE = 10,     /* "table": the table has fewer places than the period; slotfigures_figures and slotfigures_preview only */
    SLOTFIGURES_ENTRY = 11,     /* "entry": the number in tag 8 is not that of a node */
    SLOTFIGURES_REGISTER = 15,  /* "register": a core, register or value out of range (a reset's too), a write to the flags, or, save for
                                   a reset, a state that is not well formed (see below); slotfigures_arbiter_* only */
    SLOTFIGURES_BUSY = 16,      /* "busy": a length written while waiting or running; slotfigures_arbiter_write only */
    SLOTFIGURES_FORBIDDEN = 17, /* "forbidden": a caller above 16 or without that right (see below); slotfigures_arbiter_* only */
    SLOTFIGURES_LINES = 18,     /* "lines": the period times 2 to the number of lines is above 1,024; lines are one more than the highest line
                                   number in the image, or 0 */
    SLOTFIGURES_BLOCK = 19,     /* "block": the node named does not exist or is no plain block; slotfigures_edit and slotfigures_preview
                                   only */
    SLOTFIGURES_TASK = 21       /* "task": a table size outside 1 to 64, or else the first entry with a number out of range or a
                                   predecessor not earlier; slotfigures_finishes only */
};

/* At a place of the table: no run ends at this offset. */
#define SLOTFIGURES_NO_TIME UINT64_MAX

/* Places that are enough for every image: no period is larger. */
#define SLOTFIGURES_MOST_PLACES 256

/* Tasks of the largest table, and tasks that one may wait for. */
#define SLOTFIGURES_MOST_TASKS 64
#define SLOTFIGURES_MOST_WAITS 8

/* Judges an image.
 *   image    the task image's bytes. Its nodes are numbered from 0 as they stand in it: the third field is node 0. The last node is the entry,
 *            or the one whose number stands in a field with tag 8, which may close the image and is no node. A loop, tag 7, names a body and
 *            a test: its body length is 8, and one of 6, without a test, is refused. No accepted image has more than 9,265 bytes.
 *   answer   at least 2 places. DONE: 0, and the period, which is the number of places that a table for this image needs.
 *            REFUSED: the number, 1 to 9, 11 or 18, and the place. Later places keep their contents.
 */
uint64_t slotfigures_judge(const uint8_t *image, size_t image_length, uint64_t *answer, size_t answer_length);

/* Works out both figures of an image, in cycles.
 *   image    the task image's bytes
 *   table    at least as many places as the period. DONE: place o below the period holds the longest time of a run that ends at
 *            offset o, or SLOTFIGURES_NO_TIME; later places keep their contents. Otherwise the table keeps its contents.
 *   answer   at least 3 places. DONE: the tight figure, the published figure and the number of exit offsets.
 *            REFUSED: the number, 1 to 11 or 18, and the place. Later places keep their contents.
 */
uint64_t slotfigures_figures(const uint8_t *image, size_t image_length, uint64_t *table, size_t table_length,
                             uint64_t *answer, size_t answer_length);

/* Sets the durations of one plain block in an image: the four bytes of its field's body, and no other byte.
 *   image    the task image's bytes, which are written: the answer may not overlap them. DONE: the durations are set, and the edited
 *            image is accepted too. Otherwise every byte is as it was.
 *   node     the block's number. Nodes are numbered from 0 as they stand in the image: its third field is node 0.
 *   lowest, highest   the durations, in cycles: highest at most 65,535, lowest at most highest, and at most 63 less
 *            (all 64 bits of these three numbers count)
 *   answer   at least 2 places. DONE: 0 and 0.
 *            REFUSED: the number, 1 to 9, 11, 18 or 19, and the place. Later places keep their contents.
 */
uint64_t slotfigures_edit(uint8_t *image, size_t image_length, uint64_t node, uint64_t lowest, uint64_t highest,
                          uint64_t *answer, size_t answer_length);

/* Works out what the figures would be after an edit, and leaves the image alone: what slotfigures_figures gives of a copy that
 * slotfigures_edit has edited.
 *   image    the task image's bytes
 *   node, lowest, highest   as for slotfigures_edit
 *   table    at least as many places as the period. DONE: filled as slotfigures_figures would. Otherwise the table keeps its contents.
 *   answer   at least 3 places. DONE: the tight figure, the published figure and the number of exit offsets.
 *            REFUSED: the number, 1 to 11, 18 or 19, and the place. Later places keep their contents.
 */
uint64_t slotfigures_preview(const uint8_t *image, size_t image_length, uint64_t node, uint64_t lowest, uint64_t highest,
                             uint64_t *table, size_t table_length, uint64_t *answer, size_t answer_length);

/* An entry of a table of tasks that wait for tasks: eleven numbers. */
struct slotfigures_task {
    uint64_t core;                          /* 0 to 15. Tasks on one core run in table order */
    uint64_t time;                          /* cycles, at most 6,553,500,000. It may be the tight figure of an image (see below) */
    uint64_t count;                         /* how many earlier tasks it waits for, 0 to 8. The previous task on its core need not be
                                               among them */
    uint64_t waits[SLOTFIGURES_MOST_WAITS]; /* their indices, counted from 0; places behind the first `count` may hold anything */
};

/* Works out the finish of each task: its time plus the largest finish among those it waits for and the previous task on its core (plus 0
 * where there are none). If every task starts as soon as those have ended and takes no longer than its time, each starts by its finish less
 * its time, and none ends after its finish. A tight figure may be a time only if its image lists every offset below its period as a start,
 * since a task may start at any; the image is then one of this core, and all images are of one bus (in all of them the same core owns each
 * offset).
 *   table     the numbers of 1 to 64 entries. table_length counts numbers, eleven to an entry: for `struct slotfigures_task t[n]` pass
 *             (const uint64_t *)t and 11 * n. A length that is no multiple of eleven is that of no table (21, place 0)
 *   finishes  at least 64 places. DONE: place i holds the finish of task i, which may be 0, or 0 past the table. REFUSED: 64 times 0.
 *             Later places keep their contents.
 *   answer    at least 2 places. DONE: 0 and 0. REFUSED: 21 and the place. Later places keep their contents.
 */
uint64_t slotfigures_finishes(const uint64_t *table, size_t table_length, uint64_t *finishes, size_t finishes_length,
                              uint64_t *answer, size_t answer_length);

/* The arbiter of a bus of equal slots as a device. Its state is 51 bytes, lent to each call and kept by their owner between calls:
 *   byte 0       cores, 2 to 16
 *   byte 1       slot, the cycles of each core's slot: 1 to 128, and cores times slot, the period, at most 256
 *   byte 2       offset, the cycle number modulo the period: below it. Core p owns the offsets p * slot to (p + 1) * slot - 1
 *   byte 3 + 3p  register 0 of core p, length: the cycles that its access has still to run, at most slot; not 0 while waiting or running
 *   byte 4 + 3p  register 1 of core p, flags: 0, or one of the three flags below. They are read, never written
 *   byte 5 + 3p  register 2 of core p, mask: 1 if done is to set its interrupt line, else 0
 * for p from 0 to 15. A state is well formed if each of these numbers is as said here, those of unused cores (p not below cores) too. A
 * reset makes one of any 51 bytes; every other call refuses a state that is not well formed (15), and keeps a well formed one so.
 *
 * Each call names its caller, and that decides what it may do:
 *   0 to 15      the core of that number, whatever the bus: reads and writes its own registers and reads its own line
 *   16           the workshop: reads the registers and the line of every core, ticks and resets; it writes no register
 * All else is refused with 17, whatever the state: 17 goes by the caller, the core and the function, not by register or value. So core 9 of a
 * bus of two may ask for itself, and gets 15; for another core it gets 17.
 *
 * Of every call:
 *   state    state_length is 51; SHORT otherwise. The answer may not overlap it. REFUSED and SHORT: every byte is as it was.
 *   caller, core, reg, value, cores, slot   all 64 bits of these numbers count: 256 is not 0
 *   answer   at least 2 places. DONE: 0 and the value read, or 0 where nothing is read. REFUSED: the number, 15, 16 or 17, and 0.
 *            Later places keep their contents.
 * 17 is judged first, then 15, then 16.
 *
 * What is proved of these calls, one after another on one state (a call that is SHORT is none):
 *   - They lead where the permitted ones among them lead, those that are not refused with 17; so the other laws hold of calls with callers.
 *   - Of states reached by calls from a reset: a length whose write is DONE at offset o is done after wait + length ticks and no sooner, if
 *     no reset comes between. The wait is that of an access of this length from offset o, the same that both figures go by on such a bus: 0
 *     if core * slot <= o <= (core + 1) * slot - length, else (core * slot + period - o) % period. Other calls, of every core, may come in
 *     between.
 *   - From one state, with this core's own writes and all ticks and resets equal and in the same order, the other cores' writes never alter
 *     this core's registers or line.
 *   - From one reset that is DONE on, with a core's own calls and the workshop's ticks and resets equal and in the same order, every answer to
 *     that core is equal: from any two states before that reset, whatever else is called. Its own calls are all that name it as caller,
 *     forbidden ones too.
 *   - Of states reached by calls from a reset: no two cores have running set, and the offset is the number of ticks since the last
 *     accepted reset, modulo the period. */
#define SLOTFIGURES_ARBITER_BYTES 51

/* The caller that is no core. */
#define SLOTFIGURES_ARBITER_WORKSHOP 16

/* The registers of a core. */
enum { SLOTFIGURES_ARBITER_LENGTH = 0, SLOTFIGURES_ARBITER_FLAGS = 1, SLOTFIGURES_ARBITER_MASK = 2 };

/* The flags of a core: 0, or one of these. */
enum {
    SLOTFIGURES_ARBITER_WAITING = 1, /* a length is written, and its access has not started */
    SLOTFIGURES_ARBITER_RUNNING = 2, /* its access has started */
    SLOTFIGURES_ARBITER_DONE = 4     /* its access has run; until the next length is written, or a reset */
};

/* Sets cores and slot, and all else to 0: the offset and every register. 17: a caller that is not the workshop. Then these two numbers alone
 * are judged, never the state before: 15 where cores is not 2 to 16, slot not 1 to 128, or cores times slot above 256. */
uint64_t slotfigures_arbiter_reset(uint8_t *state, size_t state_length, uint64_t caller, uint64_t cores, uint64_t slot,
                                   uint64_t *answer, size_t answer_length);

/* Passes a cycle. A waiting core whose slot still holds its whole length, at the offset before the tick, turns from waiting to running.
 * Each running length, that one too, falls by 1, and at 0 running gives way to done. Then the offset moves on by 1, from period - 1 to 0.
 * 17: a caller that is not the workshop. */
uint64_t slotfigures_arbiter_tick(uint8_t *state, size_t state_length, uint64_t caller, uint64_t *answer, size_t answer_length);

/* Writes a register. A length is 1 to slot; it clears done and sets waiting, and the mask stays. A mask is 0 or 1, and may be written
 * while waiting or running. 17: a caller that is not this core, 0 to 15; then 15: a core not below cores, a register above 2, any write to
 * the flags, or another value; then 16: a length while this core is waiting or running. */
uint64_t slotfigures_arbiter_write(uint8_t *state, size_t state_length, uint64_t caller, uint64_t core, uint64_t reg, uint64_t value,
                                   uint64_t *answer, size_t answer_length);

/* Reads a register: the answer's second place holds it, and the state stays as it is. 17: a caller that is neither this core, 0 to 15, nor the
 * workshop; then 15: a core not below cores, or a register above 2. */
uint64_t slotfigures_arbiter_read(uint8_t *state, size_t state_length, uint64_t caller, uint64_t core, uint64_t reg,
                                  uint64_t *answer, size_t answer_length);

/* Reads a core's interrupt line: the answer's second place holds 1 if its flags are done and its mask is 1, else 0, and the state stays as
 * it is. 17: as for slotfigures_arbiter_read; then 15: a core not below cores. */
uint64_t slotfigures_arbiter_line(uint8_t *state, size_t state_length, uint64_t caller, uint64_t core, uint64_t *answer, size_t answer_length);

#ifdef __cplusplus
}
#endif

#endif
