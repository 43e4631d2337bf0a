/* Steps the network Parts by its names, and prints what it answers. */
#include <stdio.h>
#include <string.h>
#include "named.h"

static void show(const struct named_Seen *seen) {
    const struct named_All *same = &seen->same;
    for (uint32_t i = 0; i < seen->asWanted.n; i++) { putchar(seen->asWanted.e[i] ? '1' : '0'); }
    printf(" light %d of %d", (int)same->light, (int)named_Green);
    for (uint32_t i = 0; i < same->spots.n; i++) { printf(" (%d %d)", (int)same->spots.e[i].x_prime, (int)same->spots.e[i].int_); }
    printf(" perhaps %d %d", (int)same->perhaps.is, same->perhaps.is ? (int)same->perhaps.v : -1);
    printf(" shape %d side %d at %d", (int)same->shape.is, (int)same->shape.Square.side, (int)same->shape.Square.at_prime.int_);
    printf(" plain %u %d bell %d", (unsigned)same->plain.n, (int)same->plain.e[0].v, (int)same->bell.is);
    printf(" shapes %u %d", (unsigned)same->shapes.n, (int)same->shapes.e[1].Round.p1);
    printf(" before %d %d\n", (int)seen->before.is, (int)seen->before.v.is);
}

int main(void) {
    struct named_state state;
    struct named_All all;
    struct named_Seen seen;
    memset(&all, 0, sizeof all);
    named_init(&state);
    all.light = named_Green;
    all.spots.n = 2;
    all.spots.e[0].x_prime = 1; all.spots.e[0].int_ = -2;
    all.spots.e[1].x_prime = 3; all.spots.e[1].int_ = 4;
    all.perhaps.is = true; all.perhaps.v = named_Light;
    all.box.only = named_Light;
    all.shape.is = named_Square; all.shape.Square.side = 3;
    all.shape.Square.at_prime.x_prime = 4; all.shape.Square.at_prime.int_ = 5;
    all.shape.Round.p1 = 99; /* it isn't round: this means nothing */
    all.both.p1 = named_Red; all.both.p2 = 7; all.both.p3 = true;
    all.plain.n = 1; all.plain.e[0].is = true; all.plain.e[0].v = 12;
    all.shapes.n = 2; all.shapes.e[0].is = named_Nowhere;
    all.shapes.e[1].is = named_Round; all.shapes.e[1].Round.p1 = 8;
    named_step_named(&state, 0, &all, &seen);
    show(&seen);
    all.light = named_Red;
    all.perhaps.is = false;
    all.shape.is = named_Nowhere;
    all.bell.is = true;
    named_step_named(&state, 1, &all, &seen);
    show(&seen);
    all.shapes.n = 17;
    return (named_step_named(&state, 0, &all, &seen) || named_step_named(&state, 1, &all, &seen)) ? 1 : 0;
}
