/* A benchmark: rounds of transmit, bus start, bus result and receive. It prints how many numbers were given. */
#include "clothbadger.h"

#include <inttypes.h>
#include <stdio.h>

enum { ROUNDS = 10000 };

static void play_round(struct cec_adapter *adapter, struct cec_request poll)
{
    cec_transmit(adapter, 0, poll);
    cec_bus_start(adapter);
    cec_bus_result(adapter, CEC_TX_STATUS_OK, (struct cec_counts){0}, 0);
    cec_receive(adapter, 0);
}

int main(void)
{
    struct cec_request poll = {.length = 1, .bytes = {CEC_LOG_ADDR_UNREGISTERED << 4}};
    struct cec_adapter adapter;
    cec_new(&adapter, true, true);
    cec_open(&adapter, false);
    for (int i = 0; i < ROUNDS; i++)
        play_round(&adapter, poll);
    printf("%" PRIu32 "\n", cec_transmit(&adapter, 0, poll).sequence);
    return 0;
}
