/* Two instances each of the networks `sums` and `held`, in turn; one of `sums` starts anew at sample 12, and at sample 7 the states of both
   go on from copies. A line an output. */
#include <inttypes.h>
#include <stdio.h>
#include <string.h>

#ifndef IN_ONE_FILE
#include "sums.h"
#include "held.h"
#endif

int main(void)
{
    struct sums_state sums[2];
    struct held_state held[2];
    for (int i = 0; i < 2; i++) {
        sums_init(&sums[i]);
        held_init(&held[i]);
    }
    for (int n = 0; n < 20; n++) {
        for (int i = 0; i < 2; i++) {
            const sums_input number = n * (i + 1) - 7;
            sums_output sum;
            held_input sample;
            held_output answer;
            sample.a = n;
            sample.b.is = n % (4 + i) == 3;
            sample.b.v = 100 * i + n;
            if (n == 12 && i == 1) {
                sums_init(&sums[i]);
            }
            if (n == 7) {
                const struct sums_state saved_sums = sums[i];
                struct held_state saved_held;
                memcpy(&saved_held, &held[i], sizeof saved_held);
                memset(&sums[i], 1, sizeof sums[i]);
                memset(&held[i], 1, sizeof held[i]);
                sums[i] = saved_sums;
                held[i] = saved_held;
            }
            sums_step(&sums[i], i + 1, &number, &sum);
            held_step(&held[i], 3 - i, &sample, &answer);
            printf("%d sums %" PRId64 " held %" PRId64 "\n", i, sum, answer);
        }
    }
    return 0;
}
