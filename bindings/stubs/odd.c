/* A library that answers as the real one never does, to test what the bindings make of it. The plan says how:

       echo      status 0, with the text TASK|PLAN|KINDS|INPUT
       room      status 0, with the room that the call gives, in digits
       calls     status 0, with the number of calls so far, this one too, in digits
       status N  status N, with the input as the text
       length N  status 0, with a length of N bytes, which never fits; nothing is written
       grows     status 0, with a length that is always one byte more than there is room for; nothing is written
       bytes     status 0, with two bytes that aren't UTF-8 */

#include "crossbar5.h"

#include <stdatomic.h>
#include <stdio.h>
#include <string.h>

enum { MOST = 200000 };

static atomic_ulong calls;

/* The number behind a word, if the plan begins with the word. */
static int has_number(const char *plan, const char *word, unsigned long long *number)
{
    size_t length = strlen(word);
    return !strncmp(plan, word, length) && sscanf(plan + length, " %llu", number) == 1;
}

static void give(const char *text, size_t length, uint8_t *out, size_t room, struct crossbar5_answered *answer)
{
    answer->length = length;
    if (length <= room)
        memcpy(out, text, length);
}

void crossbar5_answer(uint32_t task, const uint8_t *plan, size_t plan_length, const uint8_t *kinds, size_t kinds_length,
                      const uint8_t *input, size_t input_length, uint8_t *out, size_t room,
                      struct crossbar5_answered *answer)
{
    unsigned long long number = 0;
    unsigned long count = atomic_fetch_add(&calls, 1) + 1;
    char word[64], *text = malloc(MOST);
    int length = 0;
    if (!text || plan_length + kinds_length + input_length + 64 > MOST || plan_length >= sizeof word)
        abort();
    memcpy(word, plan, plan_length);
    word[plan_length] = 0;
    answer->status = CROSSBAR5_FINE;
    if (has_number(word, "length", &number)) {
        answer->length = (size_t)number;
    } else if (!strcmp(word, "grows")) {
        answer->length = room + 1;
    } else if (has_number(word, "status", &number)) {
        answer->status = (uint32_t)number;
        give((const char *)input, input_length, out, room, answer);
    } else if (!strcmp(word, "bytes")) {
        give("\xff\xfe", 2, out, room, answer);
    } else {
        if (!strcmp(word, "room"))
            length = sprintf(text, "%zu", room);
        else if (!strcmp(word, "calls"))
            length = sprintf(text, "%lu", count);
        else
            length = sprintf(text, "%u|%s|%.*s|%.*s", task, word, (int)kinds_length, (const char *)kinds,
                             (int)input_length, (const char *)input);
        give(text, (size_t)length, out, room, answer);
    }
    free(text);
}
