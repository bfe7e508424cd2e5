/* A stand-in for the library, to test the tests of the bindings without it. It answers each call as the file of cases
   says that CROSSBAR5_CASES names, and the calls by which test_each_task asks for every task with a made-up text that has
   what the test looks for. Built with one of these, it is wrong in one way, and the tests have to notice:

       SWAPPED_PARAMETERS  it takes the plan for the kinds, and the kinds for the plan
       SWAPPED_ANSWER      it tells the status where the length belongs, and the length where the status belongs
       NO_LOOKS            tasks 8, 9 and 10 always answer that memory ran out */

#include "crossbar5.h"

#include <stdio.h>
#include <string.h>

enum { MOST_CASES = 100000, UNKNOWN_CALL = 999 };

struct part {
    const uint8_t *bytes;
    size_t length;
};

struct known {
    uint32_t task, status;
    struct part kinds, plan, input, text;
};

static struct known all[MOST_CASES];
static size_t count;

/* What test_each_task looks for, by task. */
static const char *const MADE_UP[] = {
    "0,1,0,D,3041,-,DIALTONE,1,3041-0-417,-\nPATHS,1\nCLOSED,4\n", "marker 0", "marker 0", "{}", "AUDIT,LEGAL,1\n",
    "PATHS AT A GLANCE\n", "<svg>", "id=\"turn0\"", "marker 0", "{}", "<svg>",
};

static void must(int holds, const char *what)
{
    if (holds)
        return;
    fprintf(stderr, "by_cases.c: %s\n", what);
    abort();
}

static struct part read_part(FILE *file, size_t length)
{
    uint8_t *bytes = malloc(length + 1);
    must(bytes && fread(bytes, 1, length, file) == length, "a case is cut short");
    return (struct part){bytes, length};
}

/* Before any call, and so before a test counts memory or begins threads. */
static void __attribute__((constructor)) read_cases(void)
{
    size_t kinds, plan, input, text;
    const char *path = getenv("CROSSBAR5_CASES");
    FILE *file = path ? fopen(path, "rb") : NULL;
    must(file != NULL, "CROSSBAR5_CASES names no file of cases");
    while (count < MOST_CASES) {
        struct known *it = &all[count];
        if (fscanf(file, "%u %u %zu %zu %zu %zu", &it->task, &it->status, &kinds, &plan, &input, &text) != 6)
            break;
        while (fgetc(file) != '\n')
            must(!feof(file), "a case has no name");
        it->kinds = read_part(file, kinds);
        it->plan = read_part(file, plan);
        it->input = read_part(file, input);
        it->text = read_part(file, text);
        count++;
    }
    fclose(file);
}

static int same(struct part one, struct part other)
{
    return one.length == other.length && !memcmp(one.bytes, other.bytes, one.length);
}

static struct known answer_to(uint32_t task, struct part plan, struct part kinds, struct part input)
{
    static const struct part both = {(const uint8_t *)"XX", 2};
    struct known made = {.status = UNKNOWN_CALL, .text = {(const uint8_t *)"", 0}};
#ifdef NO_LOOKS
    if (task >= 8 && task <= 10)
        return (struct known){.status = CROSSBAR5_OUT_OF_MEMORY, .text = made.text};
#endif
    for (size_t at = 0; at < count; at++)
        if (all[at].task == task && same(all[at].input, input) && same(all[at].kinds, kinds) &&
            same(all[at].plan, plan))
            return all[at];
    if (task <= 10 && same(kinds, both)) {
        made.status = CROSSBAR5_FINE;
        made.text = (struct part){(const uint8_t *)MADE_UP[task], strlen(MADE_UP[task])};
    }
    return made;
}

static void tell(struct crossbar5_answered *answer, size_t length, uint32_t status)
{
#ifdef SWAPPED_ANSWER
    struct {
        uint32_t status;
        size_t length;
    } swapped = {status, length};
    memcpy(answer, &swapped, sizeof swapped);
#else
    answer->length = length;
    answer->status = status;
#endif
}

void crossbar5_answer(uint32_t task, const uint8_t *plan, size_t plan_length, const uint8_t *kinds, size_t kinds_length,
                      const uint8_t *input, size_t input_length, uint8_t *out, size_t room,
                      struct crossbar5_answered *answer)
{
    struct part first = {plan, plan_length}, second = {kinds, kinds_length}, third = {input, input_length};
#ifdef SWAPPED_PARAMETERS
    struct known it = answer_to(task, second, first, third);
#else
    struct known it = answer_to(task, first, second, third);
#endif
    /* Memory is asked for, so that it can be refused. */
    uint8_t *text = malloc(it.text.length + 1);
    if (!text) {
        tell(answer, 0, CROSSBAR5_OUT_OF_MEMORY);
        return;
    }
    memcpy(text, it.text.bytes, it.text.length);
    tell(answer, it.text.length, it.status);
    if (it.text.length <= room)
        memcpy(out, text, it.text.length);
    free(text);
}
