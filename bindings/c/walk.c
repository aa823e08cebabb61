/* Document 01's printed table, one step a call. Build: cc bindings/c/walk.c crates/host/out/libhost.a -o walk */
#include "stepmachine.h"
#include <stdio.h>

static const uint8_t table[] = {0x02, 0x02, 0x00, 0x05, 0x01, 0x01, 0x01, 0x00, 0x01, 0x00};
static const uint8_t order[] = {0, 0, 0, 0, 1, 0, 0, 1, 1, 0};
static uint8_t state[STEPMACHINE_STATE_BYTES];

/* The steps taken: four bytes at 4, lowest first. */
static unsigned long taken(void)
{
    return state[4] + 256ul * state[5] + 65536ul * state[6] + 16777216ul * state[7];
}

int main(void)
{
    unsigned answer = stepmachine_start(table, sizeof table, state, sizeof state);
    unsigned ended = 0;
    uint8_t count = 0;
    size_t k;
    if (answer != 0) {
        printf("table %u\n", answer);
        return 1;
    }
    printf("line act answer taken\n");
    for (k = 0; k < sizeof order; k++) {
        answer = stepmachine_step(table, sizeof table, state, sizeof state, order[k]);
        printf("%u %u %u %lu", (unsigned)k + 1, (unsigned)order[k], answer, taken());
        if (answer == 16 && stepmachine_awaited(table, sizeof table, state, sizeof state, order[k], &count) == 0)
            printf(" %u", (unsigned)count);
        printf("\n");
    }
    for (k = 0; k < state[1]; k++)
        ended += state[464 + 208 * k + 4] >= 2;
    printf("taken %lu ended %u of %u\n", taken(), ended, (unsigned)state[1]);
    return 0;
}
