/* A line goes off hook, and the marker finds it a register: the records, what an audit says of them, and a drawing. */

#include "crossbar5.h"

#include <stdio.h>
#include <string.h>

/* Does a task with the example plan and two markers for all jobs. Prints its text, and returns it. */
static char *show(uint32_t task, const char *input)
{
    struct crossbar5_answered answer;
    char *text = crossbar5_text(task, CROSSBAR5_EXAMPLE_PLAN, "XX", input, strlen(input), &answer);
    if (!text) {
        fprintf(stderr, "there is no memory\n");
        exit(1);
    }
    printf("status %u, %zu bytes\n%s\n", answer.status, answer.length, text);
    return text;
}

int main(void)
{
    char *records = show(CROSSBAR5_REPLAY, "J,0,1,D,3041\nS,0,128,,\n");
    free(show(CROSSBAR5_AUDIT, records));
    free(show(CROSSBAR5_DRAW_AS_TEXT, records));
    free(show(CROSSBAR5_REPLAY, "J,0,1,D\n")); /* four fields: FAULT,T1,1 */
    free(records);
    return 0;
}
