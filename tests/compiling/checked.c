/* Steps that are refused, and steps that aren't, of the networks `sums` and `lists`. A line a step: its name, whether it was done, and
   the output. Where it isn't done, state and output must stay as they are. */
#include <inttypes.h>
#include <stdio.h>
#include <string.h>

#include "sums.h"
#include "lists.h"

static void sums(struct sums_state *state, const char *name, int64_t dt)
{
    const sums_input five = 5;
    struct sums_state before;
    sums_output output, unseen;
    memset(&output, 1, sizeof output);
    memcpy(&unseen, &output, sizeof output);
    memcpy(&before, state, sizeof before);
    if (sums_step(state, dt, &five, &output)) {
        printf("%s %" PRId64 " %" PRId64 "\n", name, output.a, output.b);
    } else {
        const bool same = memcmp(&before, state, sizeof before) == 0 && memcmp(&unseen, &output, sizeof output) == 0;
        printf("%s refused%s\n", name, same ? "" : ", but something changed");
    }
}

static void lists(struct lists_state *state, const char *name, uint32_t n, uint32_t first, uint32_t second)
{
    lists_input input;
    lists_output output = 99;
    struct lists_state before;
    memset(&input, 0, sizeof input);
    input.n = n;
    input.e[0].n = first;
    input.e[1].n = second;
    memcpy(&before, state, sizeof before);
    if (lists_step(state, 1, &input, &output)) {
        printf("%s %" PRId64 "\n", name, output);
    } else {
        const bool same = memcmp(&before, state, sizeof before) == 0 && output == 99;
        printf("%s refused%s\n", name, same ? "" : ", but something changed");
    }
}

int main(void)
{
    struct sums_state sum;
    struct lists_state list;
    memset(&sum, 0, sizeof sum);
    sums_init(&sum);
    sums(&sum, "first -1", -1);
    sums(&sum, "then 3", 3);
    sums(&sum, "then 0", 0);
    sums(&sum, "then -1", -1);
    sums(&sum, "then least", INT64_MIN);
    sums(&sum, "then 3", 3);
    sums_init(&sum);
    sums(&sum, "first 0", 0);
    sums(&sum, "then 1", 1);
    memset(&list, 0, sizeof list);
    lists_init(&list);
    lists(&list, "three at first", 3, 0, 0);
    lists(&list, "two", 2, 2, 1);
    lists(&list, "three", 3, 0, 0);
    lists(&list, "most", UINT32_MAX, 0, 0);
    lists(&list, "three in the first", 2, 3, 0);
    lists(&list, "three in the second", 2, 0, 3);
    lists(&list, "three behind the end", 1, 2, 3);
    lists(&list, "none", 0, 3, 3);
    lists(&list, "two", 2, 2, 2);
    return 0;
}
