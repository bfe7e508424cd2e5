/* The engine of crossbar5, for C and C++.

   One function does each task: a replay, a walk, an audit, a drawing, a page or a look. It keeps nothing between calls,
   so several threads may call it at once. What comes out is proved: crates/crossbar5_c/README.md. What plans, rows,
   records and texts are is in docs/FORMATS.md. Link libcrossbar5.a or libcrossbar5.so, which bindings/build makes. */

#ifndef CROSSBAR5_H
#define CROSSBAR5_H

#include <stddef.h>
#include <stdint.h>
#include <stdlib.h>

#ifdef __cplusplus
extern "C" {
#endif

/* The tasks. The input of an audit, a drawing and a page is records, as a replay gives them; that of all others is rows
   of traffic. */
enum crossbar5_task {
    CROSSBAR5_REPLAY = 0,        /* replays rows: the records */
    CROSSBAR5_WALK = 1,          /* replays rows, and describes each step in words */
    CROSSBAR5_WALK_IN_SHORT = 2, /* the same, with one line for the tests of a row of switches */
    CROSSBAR5_WALK_AS_JSON = 3,  /* the same as JSON objects, one in a line */
    CROSSBAR5_AUDIT = 4,         /* judges records by the one-marker office */
    CROSSBAR5_DRAW_AS_TEXT = 5,  /* draws the office after records, for a terminal of 80 columns */
    CROSSBAR5_DRAW = 6,          /* draws the office after records, in SVG */
    CROSSBAR5_PAGE = 7,          /* shows records turn by turn, as an HTML page */
    CROSSBAR5_LOOK = 8,          /* the office as it stands after rows, in words */
    CROSSBAR5_LOOK_AS_JSON = 9,  /* the office as it stands after rows, as one JSON object */
    CROSSBAR5_LOOK_IN_SVG = 10   /* the office as it stands after rows, in SVG */
};

/* How a task ended. These are the exit statuses of the program crossbar5, but for 1. */
enum crossbar5_status {
    CROSSBAR5_FINE = 0,            /* the task was done */
    CROSSBAR5_NO_SUCH_TASK = 1,    /* no task has this number. There is no text */
    CROSSBAR5_MARKERS_REFUSED = 2, /* the kinds are not 1 to 48 of the letters D, C and X. There is no text */
    CROSSBAR5_PLAN_REFUSED = 3,    /* the plan has a fault. The text is its line, such as FAULT,P2 */
    CROSSBAR5_INPUT_REFUSED = 4,   /* a row has a fault, or the input is no text of records. The text is the line of
                                      the fault, such as FAULT,T1,1 or FAULT,U1,1 */
    CROSSBAR5_OUT_OF_MEMORY = 5,   /* memory ran out. There is no text */
    CROSSBAR5_FOUND_WRONG = 7,     /* the records are not legal, or their counts are wrong. The text is the audit's */

    /* These are of crossbar5_text alone, with no text. */
    CROSSBAR5_BAD_CALL = 100,      /* a pointer is NULL, or a length above PTRDIFF_MAX. The library was not called */
    CROSSBAR5_BAD_ANSWER = 101     /* the library told a length that its text can't have, as the real one never does */
};

/* The plan that the program has if none is named. */
#define CROSSBAR5_EXAMPLE_PLAN                                                                                         \
    "version = 1\n"                                                                                                    \
    "groups = [\"REG register 417 418 509\", \"INTRA intra 600-601 700-711\", \"OUTA outgoing 800\", "                 \
    "\"OUTB outgoing 801 902\"]\n"                                                                                     \
    "numbers = [\"0001 3041\", \"0002 3052\", \"0003 1000\", \"0004 3100\"]\n"                                         \
    "codes = [\"234 INTRA\", \"555 OUTA OUTB\"]\n"                                                                     \
    "faults = []\n"

/* What a call says of its text. */
struct crossbar5_answered {
    size_t length;   /* how many bytes the text has */
    uint32_t status; /* how the task ended, one of enum crossbar5_status */
};

/* Does a task with a plan, the kinds of the markers (a letter for each, such as XX) and an input. The kinds are read for
   tasks on rows alone.

   Writes the text to the beginning of `out`, which has `room` bytes, without a 0 byte after it. If the text is longer
   than `room`, `out` is left as it is: call again with room for `answer->length` bytes.

   No pointer may be NULL, even with a length of 0. No length and no room may be above PTRDIFF_MAX, or more than there
   is behind the pointer. Neither `out` nor `answer` may overlap anything else. None of this is checked.

   Calls malloc, realloc and free, and nothing else of the C library but memcpy, memmove and memset. So don't call it
   from a signal handler. A thread that calls it needs 256 KiB of stack. */
void crossbar5_answer(uint32_t task,
                      const uint8_t *plan, size_t plan_length,
                      const uint8_t *kinds, size_t kinds_length,
                      const uint8_t *input, size_t input_length,
                      uint8_t *out, size_t room,
                      struct crossbar5_answered *answer);

/* Does the same, and returns the text in memory that the caller frees, with a 0 byte after it. The plan and the kinds
   end at their 0 bytes; the input may contain 0 bytes. Returns NULL if there is no memory for the text; the status is
   then CROSSBAR5_OUT_OF_MEMORY. Returns NULL too with CROSSBAR5_BAD_CALL and CROSSBAR5_BAD_ANSWER, and if `answer` is
   NULL. */
static inline char *crossbar5_text(uint32_t task, const char *plan, const char *kinds, const char *input,
                                   size_t input_length, struct crossbar5_answered *answer)
{
    size_t room = 65536, plan_length = 0, kinds_length = 0;
    int call;
    char *out;
    if (!answer)
        return NULL;
    answer->length = 0;
    answer->status = CROSSBAR5_BAD_CALL;
    if (!plan || !kinds || !input || input_length > PTRDIFF_MAX)
        return NULL;
    while (plan[plan_length])
        plan_length++;
    while (kinds[kinds_length])
        kinds_length++;
    for (call = 0; call < 2; call++) {
        out = (char *)malloc(room + 1);
        if (!out) {
            answer->length = 0;
            answer->status = CROSSBAR5_OUT_OF_MEMORY;
            return NULL;
        }
        crossbar5_answer(task, (const uint8_t *)plan, plan_length, (const uint8_t *)kinds, kinds_length,
                         (const uint8_t *)input, input_length, (uint8_t *)out, room, answer);
        if (answer->length <= room) {
            out[answer->length] = 0;
            return out;
        }
        free(out);
        room = answer->length;
        if (room >= PTRDIFF_MAX)
            break;
    }
    answer->length = 0;
    answer->status = CROSSBAR5_BAD_ANSWER;
    return NULL;
}

#ifdef __cplusplus
}
#endif

#endif
