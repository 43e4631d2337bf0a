/* A boiler, simulated, and its controller, which is the network ../net in C. At the top of the repository:

       ./yampa compile --name boiler --header examples/boiler/net > boiler.h
       ./yampa compile --name boiler --no-main examples/boiler/net > boiler.c
       cc -O2 -I. -o plant examples/boiler/plant/plant.c boiler.c
       ./plant

   It writes a line a minute: what the two sensors tell, and what the controller answers. */
#include <inttypes.h>
#include <stdio.h>

#include "boiler.h"

enum { MINUTES = 40, STUCK_AT = 24, SECONDS = 60 };

/* What the sensors tell: tenths of a degree above -2, and twentieths of a bar. */
struct plant {
    int64_t warmth, pressure;
};

/* A minute passes. The burner warms, the house takes warmth out; where the valve is stuck, no steam does. */
static void pass(struct plant *plant, int64_t heat, bool is_stuck)
{
    plant->warmth += heat / 20 - 2;
    plant->pressure = is_stuck ? plant->pressure + 9 : plant->warmth / 2;
}

int main(void)
{
    struct plant plant = { 204, 102 };
    struct boiler_state state;
    boiler_init(&state);
    for (int minute = 0; minute < MINUTES; minute++) {
        const boiler_input input = { plant.warmth, plant.pressure };
        boiler_output output;
        boiler_step(&state, SECONDS, &input, &output);
        printf("%2d: warmth %" PRId64 ", pressure %" PRId64 ": heat %" PRId64 "%s\n",
               minute, input.a, input.b, output.a, output.b ? ", alarm" : "");
        pass(&plant, output.a, minute >= STUCK_AT);
    }
    return 0;
}
