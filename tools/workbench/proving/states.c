/* Goes breadth first over the states of an observer, `observed`, over all inputs and steps: each state once, so that what is found
 * is a shortest recording. samples.h has the inputs, the steps, and `canonical`, which gives states that go on alike the same bytes.
 * Where all steps together are at most MOST_TOTAL, which isn't 0, a state is gone on from again if fewer ticks led to it: more can
 * come behind it. Where MOST_SAMPLES isn't 0, a recording has no more.
 *
 * It prints a line `depth SAMPLES STATES` before each depth, and ends with `all SAMPLES STATES`, before which stands `short SAMPLES STATES`
 * if no fair recording has more samples; with `full SAMPLES STATES` if there are more states than it has room for; or with `false` and a
 * line `STEP INPUT` for each sample of the recording. */
#include <signal.h>
#include <stdio.h>
#include <stdlib.h>
#include <sys/prctl.h>
#include "observed.c"
#include "samples.h"

/* How a state was reached: from which other, and, where MOST_TOTAL says so, by how many ticks from the first sample on. */
struct origin {
    uint32_t state, step, input;
    uint64_t total;
};

static struct observed_state *states;
static struct origin *origins;
static uint32_t *places;
static uint32_t count, seen, room = 1024;
/* Where the states of the next depth begin, and whether a recording could go on otherwise than ever deeper, or was cut. */
static uint32_t next_depth;
static bool lasts;

static uint64_t sum_of(const struct observed_state *state)
{
    uint64_t sum = UINT64_C(14695981039346656037);
    const unsigned char *bytes = (const unsigned char *)state;
    for (size_t at = 0; at < sizeof *state; at++) {
        sum = (sum ^ bytes[at]) * UINT64_C(1099511628211);
    }
    return sum ^ (sum >> 29);
}

static uint32_t *place_of(const struct observed_state *state)
{
    uint64_t at = sum_of(state) & (2 * (uint64_t)room - 1);
    while (places[at] && memcmp(&states[places[at] - 1], state, sizeof *state)) {
        at = (at + 1) & (2 * (uint64_t)room - 1);
    }
    return &places[at];
}

static void *of_size(void *old, uint64_t items, size_t size)
{
    void *made = realloc(old, items * size);
    if (!made) {
        printf("memory\n");
        exit(3);
    }
    return made;
}

static void make_room(void)
{
    room *= 2;
    states = of_size(states, room, sizeof *states);
    origins = of_size(origins, room, sizeof *origins);
    places = of_size(places, 2 * (uint64_t)room, sizeof *places);
    memset(places, 0, 2 * (uint64_t)room * sizeof *places);
    for (uint32_t at = 0; at < count; at++) {
        *place_of(&states[at]) = at + 1;
    }
}

/* Keeps a state that wasn't reached before by as few ticks. */
static void keep(const struct observed_state *state, struct origin origin)
{
    uint32_t *place = place_of(state);
    lasts |= *place && *place - 1 < next_depth;
    if (*place && origins[*place - 1].total <= origin.total) {
        return;
    }
    seen += !*place;
    memcpy(&states[count], state, sizeof *state);
    origins[count] = origin;
    *place = ++count;
    if (count == room) {
        make_room();
    }
}

static void print_recording(struct origin last)
{
    if (last.state) {
        print_recording(origins[last.state]);
    }
    printf("%" PRId64 " %" PRIu32 "\n", STEPS[last.step], last.input);
}

/* Tries all samples behind a state. */
static void go_on(uint32_t from)
{
    for (uint32_t step = 0; step < (from ? STEP_COUNT : 1); step++) {
        uint64_t total = MOST_TOTAL && from ? origins[from].total + (uint64_t)STEPS[step] : 0;
        lasts |= total > MOST_TOTAL;
        for (uint32_t input = 0; input < INPUT_COUNT && total <= MOST_TOTAL; input++) {
            struct origin origin = {from, step, input, total};
            static struct observed_state state;
            static observed_output output;
            memcpy(&state, &states[from], sizeof state);
            observed_step(&state, STEPS[step], &INPUTS[input], &output);
            if (output.a && !output.b) {
                printf("false\n");
                print_recording(origin);
                exit(0);
            }
            if (output.a) {
                canonical(&state);
                keep(&state, origin);
            }
        }
    }
}

int main(void)
{
    prctl(PR_SET_PDEATHSIG, SIGKILL); /* It ends with who started it. */
    make_room();
    static struct observed_state start;
    observed_init(&start);
    canonical(&start);
    keep(&start, (struct origin){0, 0, 0, 0});
    uint32_t depth = 0;
    for (uint32_t at = 0, end = 1; at < end && !(MOST_SAMPLES && depth == MOST_SAMPLES); end = count, depth++) {
        printf("depth %" PRIu32 " %" PRIu32 "\n", depth, seen);
        fflush(stdout);
        next_depth = end;
        for (; at < end; at++) {
            if (count > MOST_STATES) {
                printf("full %" PRIu32 " %" PRIu32 "\n", depth, seen);
                return 0;
            }
            go_on(at);
        }
    }
    if (!lasts && depth != MOST_SAMPLES) {
        printf("short %" PRIu32 " %" PRIu32 "\n", depth - 1, seen);
    }
    printf("all %" PRIu32 " %" PRIu32 "\n", depth, seen);
    return 0;
}
