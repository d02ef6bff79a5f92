/*
 * A recorded session, played again through the C header: each record of the log is a call, and a line says what it answered.
 * It prints what the Rattle `replay` prints. README has the records.
 */
#include "clothbadger.h"

#include <inttypes.h>
#include <stdio.h>
#include <string.h>

enum { OPEN = 1, CLOSE, MODE, TRANSMIT, RECEIVE, BUS_START, BUS_RESULT, TIME, MESSAGE, CONFIGURE, UNCONFIGURE };

/* The bytes after each kind. */
static const size_t body_length[] = {0, 1, 1, 5, 27, 1, 0, 13, 4, 25, 27, 0};

/* A number of some bytes, low byte first. */
static uint32_t number(const uint8_t *bytes, int count)
{
    uint32_t n = 0;
    while (count-- > 0)
        n = n << 8 | bytes[count];
    return n;
}

/* A time in nanoseconds, of eight bytes. */
static uint64_t time_at(const uint8_t *bytes)
{
    return (uint64_t)number(bytes + 4, 4) << 32 | number(bytes, 4);
}

static uint32_t transmit(struct cec_adapter *adapter, const uint8_t *body)
{
    struct cec_request request = {
        .length = body[1], .reply = body[18], .timeout = number(body + 19, 4), .flags = number(body + 23, 4)};
    memcpy(request.bytes, body + 2, sizeof request.bytes);
    return cec_transmit(adapter, body[0], request).error;
}

static uint32_t bus_result(struct cec_adapter *adapter, const uint8_t *body)
{
    struct cec_counts counts = {.arb_lost = body[1], .nack = body[2], .low_drive = body[3], .error = body[4]};
    return cec_bus_result(adapter, body[0], counts, time_at(body + 5));
}

static uint32_t message(struct cec_adapter *adapter, const uint8_t *body)
{
    struct cec_message message = {.length = body[0]};
    memcpy(message.bytes, body + 1, sizeof message.bytes);
    return cec_received(adapter, message, time_at(body + 17));
}

static uint32_t configure(struct cec_adapter *adapter, const uint8_t *body)
{
    struct cec_settings settings = {
        .physical_address = (uint16_t)number(body, 2),
        .mask = (uint16_t)number(body + 2, 2),
        .version = body[4],
        .device_type = body[5],
        .vendor_id = number(body + 6, 3),
        .name_length = body[9],
        .all_device_types = body[24],
        .rc_profile = body[25],
        .device_features = body[26],
    };
    memcpy(settings.name, body + 10, sizeof settings.name);
    return cec_configure(adapter, settings);
}

/* The error of a call that gives nothing that is printed. */
static uint32_t call(struct cec_adapter *adapter, int kind, const uint8_t *body)
{
    switch (kind) {
    case OPEN: return cec_open(adapter, body[0] != 0).error;
    case CLOSE: return cec_close(adapter, body[0]);
    case MODE: return cec_set_mode(adapter, body[0], number(body + 1, 4));
    case TRANSMIT: return transmit(adapter, body);
    case BUS_START: return cec_bus_start(adapter).error;
    case BUS_RESULT: return bus_result(adapter, body);
    case TIME: return cec_time_passed(adapter, number(body, 4));
    case MESSAGE: return message(adapter, body);
    case CONFIGURE: return configure(adapter, body);
    default: return cec_unconfigure(adapter);
    }
}

static void receive(struct cec_adapter *adapter, uint8_t handle)
{
    struct cec_receive_answer got = cec_receive(adapter, handle);
    printf("%d %" PRIu32, RECEIVE, got.error);
    if (got.error == 0)
        printf(" %" PRIu32 " %u %u %u", got.entry.sequence, got.entry.tx_status, got.entry.rx_status, got.entry.message.length);
    putchar('\n');
}

/* The next record, if there is a whole one. */
static bool play_record(struct cec_adapter *adapter, uint64_t *place)
{
    uint8_t body[27];
    int kind = getchar();
    if (kind == EOF)
        return false;
    if (kind < OPEN || kind > UNCONFIGURE) {
        printf("bad %" PRIu64 "\n", *place);
        return false;
    }
    if (fread(body, 1, body_length[kind], stdin) != body_length[kind]) {
        printf("cut %" PRIu64 "\n", *place);
        return false;
    }
    if (kind == RECEIVE)
        receive(adapter, body[0]);
    else
        printf("%d %" PRIu32 "\n", kind, call(adapter, kind, body));
    *place += 1 + body_length[kind];
    return true;
}

int main(void)
{
    struct cec_adapter adapter;
    uint64_t place = 0;
    cec_new(&adapter, true, true);
    while (play_record(&adapter, &place))
        ;
    return 0;
}
