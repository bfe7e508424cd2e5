/* Tests the C binding: test CASES [few].

   CASES is the file that bindings/cases.py writes. Each case is called with no room, with too little, with just enough
   and with more; each task is done once; then eight threads call at once; memory is refused allocation by allocation, by
   the linker's --wrap; and 10,000 calls have to leave the resident size as it is. With `few`, for valgrind, only a part of
   this is done. */

#define _GNU_SOURCE
#include "crossbar5.h"

#include <pthread.h>
#include <stdio.h>
#include <string.h>
#include <unistd.h>

enum { MARK = 0xA5, MOST_CASES = 100000, THREADS = 8, CALLS = 10000 };

struct part {
    uint8_t *bytes;
    size_t length;
};

struct test_case {
    uint32_t task, status;
    struct part kinds, plan, input, text;
    char name[200];
};

#define FIRST "J,0,1,D,3041\nS,0,128,,\n"
#define HALF "J,0,1,D,3041\nS,0,5,,\n"
#define RECORDS "0,1,0,D,3041,-,DIALTONE,1,3041-0-417,-\nPATHS,1\nCLOSED,4\n"

/* What the text of each task has, with these rows or records. */
static const struct {
    const char *input, *part;
} each_task[] = {
    {FIRST, RECORDS},   {FIRST, "marker 0"}, {FIRST, "marker 0"},       {FIRST, "{"},
    {RECORDS, "AUDIT,LEGAL,1\n"}, {RECORDS, "PATHS AT A GLANCE"}, {RECORDS, "<svg"}, {RECORDS, "id=\"turn0\""},
    {HALF, "marker 0"}, {HALF, "{"},         {HALF, "<svg"},
};

static struct test_case cases[MOST_CASES];
static size_t case_count;
static int failures;

static void fail(const struct test_case *it, const char *what)
{
    if (++failures <= 20)
        fprintf(stderr, "%s: %s\n", it->name, what);
}

/* Which allocation of this thread is refused, counted down; 0 if none is. */
static __thread long refused;

void *__real_malloc(size_t size);
void *__real_realloc(void *old, size_t size);

static int is_refused(void)
{
    return refused > 0 && --refused == 0;
}

void *__wrap_malloc(size_t size)
{
    return is_refused() ? NULL : __real_malloc(size);
}

void *__wrap_realloc(void *old, size_t size)
{
    return is_refused() ? NULL : __real_realloc(old, size);
}

static void *grab(size_t size)
{
    void *found = __real_malloc(size + 1);
    if (!found)
        abort();
    return found;
}

static struct part read_part(FILE *file, size_t length)
{
    struct part part = {grab(length), length};
    if (fread(part.bytes, 1, length, file) != length)
        abort();
    return part;
}

static void read_cases(const char *path)
{
    size_t kinds, plan, input, text;
    FILE *file = fopen(path, "rb");
    if (!file)
        abort();
    while (case_count < MOST_CASES) {
        struct test_case *it = &cases[case_count];
        if (fscanf(file, "%u %u %zu %zu %zu %zu ", &it->task, &it->status, &kinds, &plan, &input, &text) != 6)
            break;
        if (!fgets(it->name, sizeof it->name, file) || !strchr(it->name, '\n'))
            abort();
        it->name[strcspn(it->name, "\n")] = 0;
        it->kinds = read_part(file, kinds);
        it->plan = read_part(file, plan);
        it->input = read_part(file, input);
        it->text = read_part(file, text);
        case_count++;
    }
    fclose(file);
}

static void call(const struct test_case *it, uint8_t *out, size_t room, struct crossbar5_answered *answer)
{
    answer->length = 77;
    answer->status = 77;
    crossbar5_answer(it->task, it->plan.bytes, it->plan.length, it->kinds.bytes, it->kinds.length, it->input.bytes,
                     it->input.length, out, room, answer);
}

static int is_marked(const uint8_t *from, const uint8_t *to)
{
    while (from < to)
        if (*from++ != MARK)
            return 0;
    return 1;
}

/* Calls a case with so much room, in a place that goes on behind the room. */
static void try_room(const struct test_case *it, size_t room)
{
    struct crossbar5_answered answer;
    size_t length = it->text.length, whole = room + 64;
    uint8_t *out = grab(whole);
    memset(out, MARK, whole);
    call(it, out, room, &answer);
    if (answer.status != it->status)
        fail(it, "another status");
    if (answer.length != length)
        fail(it, "another length");
    else if (length > room && !is_marked(out, out + whole))
        fail(it, "a text that doesn't fit is written");
    else if (length <= room && memcmp(out, it->text.bytes, length))
        fail(it, "another text");
    else if (length <= room && !is_marked(out + length, out + whole))
        fail(it, "more than the text is written");
    free(out);
}

static void try_case(const struct test_case *it)
{
    size_t length = it->text.length;
    try_room(it, length);
    if (it->plan.length > 1000000 || it->input.length > 1000000)
        return;
    try_room(it, 0);
    try_room(it, length + 1 + length / 2);
    if (length > 0)
        try_room(it, length - 1);
}

/* Refuses one allocation after another of a case, until it needs no more. Each time memory has run out, or the answer is
   right, as it may do without a sentence. */
static void refuse_memory(const struct test_case *it)
{
    struct crossbar5_answered answer;
    size_t length = it->text.length;
    uint8_t *out = grab(length);
    long at = 0, left = 0;
    int out_of_memory = 0;
    do {
        memset(out, MARK, length);
        refused = ++at;
        call(it, out, length, &answer);
        left = refused;
        refused = 0;
        if (answer.status == CROSSBAR5_OUT_OF_MEMORY) {
            out_of_memory = 1;
            if (answer.length || !is_marked(out, out + length))
                fail(it, "something is written without memory");
        } else if (answer.status != it->status || answer.length != length || memcmp(out, it->text.bytes, length)) {
            fail(it, "another answer without memory");
        }
    } while (left == 0 && at < 100000);
    if (!out_of_memory && length)
        fail(it, "no allocation matters");
    free(out);
}

static size_t resident(void)
{
    size_t whole = 0, pages = 0;
    FILE *file = fopen("/proc/self/statm", "r");
    if (!file || fscanf(file, "%zu %zu", &whole, &pages) != 2)
        abort();
    fclose(file);
    return pages * (size_t)sysconf(_SC_PAGESIZE);
}

static int is_small(const struct test_case *it)
{
    return it->plan.length < 10000 && it->input.length < 10000 && it->text.length < 100000;
}

/* How far to go from case to case, for about so many of them. */
static size_t stride(size_t count)
{
    return case_count / count + 1;
}

static void *try_all(void *few)
{
    for (size_t at = 0; at < case_count; at += few ? stride(20) : 1)
        if (is_small(&cases[at]))
            try_room(&cases[at], cases[at].text.length);
    return NULL;
}

static void try_threads(void *few)
{
    pthread_t threads[THREADS];
    for (int at = 0; at < THREADS; at++)
        if (pthread_create(&threads[at], NULL, try_all, few))
            abort();
    for (int at = 0; at < THREADS; at++)
        pthread_join(threads[at], NULL);
}

static void try_many_calls(void)
{
    size_t before = 0, after, done = 0;
    while (done < CALLS) {
        for (size_t at = 0; at < case_count && done < CALLS; at++) {
            if (!is_small(&cases[at]))
                continue;
            try_room(&cases[at], cases[at].text.length);
            if (++done == CALLS / 4)
                before = resident();
        }
    }
    after = resident();
    printf("resident after %d calls: %zu bytes; after %d calls: %zu bytes\n", CALLS / 4, before, CALLS, after);
    if (after > before + 262144)
        fail(&cases[0], "memory grows from call to call");
}

/* The function of the header that finds room by itself. */
static void try_text(const struct test_case *it)
{
    struct crossbar5_answered answer;
    char plan[10001], kinds[10001], *text;
    if (!is_small(it) || memchr(it->plan.bytes, 0, it->plan.length) || memchr(it->kinds.bytes, 0, it->kinds.length))
        return;
    sprintf(plan, "%.*s", (int)it->plan.length, (const char *)it->plan.bytes);
    sprintf(kinds, "%.*s", (int)it->kinds.length, (const char *)it->kinds.bytes);
    text = crossbar5_text(it->task, plan, kinds, (const char *)it->input.bytes, it->input.length, &answer);
    if (!text || answer.status != it->status || answer.length != it->text.length ||
        memcmp(text, it->text.bytes, answer.length) || text[answer.length])
        fail(it, "another text in memory of its own");
    free(text);
}

static void try_each_task(void)
{
    for (size_t task = 0; task < sizeof each_task / sizeof *each_task; task++) {
        struct crossbar5_answered answer;
        const char *input = each_task[task].input;
        struct test_case it = {.task = (uint32_t)task};
        char *text = crossbar5_text(it.task, CROSSBAR5_EXAMPLE_PLAN, "XX", input, strlen(input), &answer);
        snprintf(it.name, sizeof it.name, "task %zu", task);
        if (answer.status != CROSSBAR5_FINE || !text || !strstr(text, each_task[task].part))
            fail(&it, "it isn't done");
        free(text);
    }
}

/* The answer lies in memory as the library has it. */
_Static_assert(offsetof(struct crossbar5_answered, length) == 0, "the length comes first");
_Static_assert(offsetof(struct crossbar5_answered, status) == sizeof(size_t), "the status comes second");
_Static_assert(sizeof(struct crossbar5_answered) == 2 * sizeof(size_t), "there is nothing else");

int main(int count, char **words)
{
    void *few = count > 2 ? words : NULL;
    read_cases(words[1]);
    try_each_task();
    for (size_t at = 0; at < case_count; at += few ? stride(100) : 1) {
        if (few && !is_small(&cases[at]))
            continue;
        try_case(&cases[at]);
        try_text(&cases[at]);
    }
    for (size_t at = 0; at < case_count; at += stride(few ? 5 : 200))
        if (is_small(&cases[at]))
            refuse_memory(&cases[at]);
    try_threads(few);
    if (!few)
        try_many_calls();
    printf("c: %zu cases, %d failures\n", case_count, failures);
    return failures > 0;
}
