/* Tests what crossbar5_text makes of calls and answers that are out of the ordinary, on the library that
   bindings/stubs/odd.c makes. bindings/test runs it. */

#include "crossbar5.h"

#include <stdio.h>
#include <string.h>

static int failures;

static void check(int holds, const char *what)
{
    if (holds)
        return;
    failures++;
    fprintf(stderr, "%s\n", what);
}

/* How many calls the library has had, without the one that asks. */
static unsigned long calls(void)
{
    struct crossbar5_answered answer;
    char *text = crossbar5_text(0, "calls", "XX", "", 0, &answer);
    unsigned long count = text ? strtoul(text, NULL, 10) - 1 : 0;
    free(text);
    return count;
}

/* Whether a call gives this status and this text, or no text. */
static int gives(const char *plan, const char *input, size_t length, uint32_t status, const char *wanted)
{
    struct crossbar5_answered answer = {77, 77};
    char *text = crossbar5_text(9, plan, "kinds", input, length, &answer);
    int same = wanted ? text && answer.length == strlen(wanted) && !strcmp(text, wanted) : !text && !answer.length;
    free(text);
    return same && answer.status == status;
}

static void try_bad_calls(void)
{
    struct crossbar5_answered answer;
    unsigned long before = calls();
    check(gives(NULL, "", 0, CROSSBAR5_BAD_CALL, NULL), "no plan");
    check(gives("echo", NULL, 0, CROSSBAR5_BAD_CALL, NULL), "no input");
    check(gives("echo", "", (size_t)-1, CROSSBAR5_BAD_CALL, NULL), "an input of -1 bytes");
    check(gives("echo", "", (size_t)PTRDIFF_MAX + 1, CROSSBAR5_BAD_CALL, NULL), "an input above PTRDIFF_MAX");
    check(!crossbar5_text(0, "echo", NULL, "", 0, &answer) && answer.status == CROSSBAR5_BAD_CALL, "no kinds");
    check(!crossbar5_text(0, "echo", "XX", "", 0, NULL), "no answer");
    check(calls() == before + 1, "the library was called");
}

static void try_statuses(void)
{
    static const uint32_t all[] = {0, 1, 2, 3, 4, 5, 6, 7, 8, 9, 99, 102, 255, 256, 2147483648u, 4294967295u};
    for (size_t at = 0; at < sizeof all / sizeof *all; at++) {
        char plan[30];
        sprintf(plan, "status %u", all[at]);
        check(gives(plan, "said", 4, all[at], "said"), plan);
    }
}

static void try_lengths(void)
{
    static char long_text[150001];
    memset(long_text, 'x', sizeof long_text - 1);
    check(gives("status 0", long_text, sizeof long_text - 1, CROSSBAR5_FINE, long_text), "a text above the first room");
    long_text[65536] = 0;
    check(gives("status 0", long_text, 65536, CROSSBAR5_FINE, long_text), "a text that just fits");
    check(gives("grows", "", 0, CROSSBAR5_BAD_ANSWER, NULL), "a length that grows");
    check(gives("length 18446744073709551615", "", 0, CROSSBAR5_BAD_ANSWER, NULL), "a length of all bits");
    check(gives("length 9223372036854775807", "", 0, CROSSBAR5_BAD_ANSWER, NULL), "a length without room for a 0 byte");
    check(gives("length 9223372036854775806", "", 0, CROSSBAR5_OUT_OF_MEMORY, NULL), "a length without memory");
}

/* Rooms of crossbar5_answer itself: nothing is written if the text is longer. */
static void try_rooms(void)
{
    for (size_t room = 0; room < 8; room++) {
        struct crossbar5_answered answer;
        uint8_t out[8];
        memset(out, 0xA5, sizeof out);
        crossbar5_answer(0, (const uint8_t *)"status 7", 8, (const uint8_t *)"", 0, (const uint8_t *)"text", 4, out, room,
                         &answer);
        check(answer.status == 7 && answer.length == 4, "another answer");
        check(!memcmp(out, "text", 4) == (room >= 4) && out[4] == 0xA5, "more or less than the text is written");
    }
}

int main(void)
{
    check(gives("echo", "input", 5, CROSSBAR5_FINE, "9|echo|kinds|input"), "another order of parameters");
    try_bad_calls();
    try_statuses();
    try_lengths();
    try_rooms();
    printf("c, odd answers: %d failures\n", failures);
    return failures > 0;
}
