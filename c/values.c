/* Arguments and fields that the other programs do not print: capabilities, settings, counts, rows, opcodes of replies, times. */
#include "clothbadger.h"

#include <inttypes.h>
#include <stdio.h>

static struct cec_adapter adapter;

/* The driver's clock, in nanoseconds. */
static uint64_t now = 5000000000;

static uint64_t later(void)
{
    return now += 1000000;
}

static struct cec_transmit_answer poll(uint8_t header)
{
    return cec_transmit(&adapter, 0, (struct cec_request){.length = 1, .bytes = {header}});
}

/* ENOTTY without TRANSMIT, EINVAL without MONITOR_ALL. */
static void capabilities(bool can_transmit, bool can_monitor_all)
{
    cec_new(&adapter, can_transmit, can_monitor_all);
    cec_open(&adapter, true);
    printf("transmit %d, monitor all %d: ", can_transmit, can_monitor_all);
    printf("poll %" PRIu32 ", ", poll(0xF0).error);
    printf("mode %" PRIu32 "\n", cec_set_mode(&adapter, 0, CEC_MODE_MONITOR_ALL));
}

/* What the core answers to a question of device 0 shows the settings. */
static void core_answers(uint8_t opcode)
{
    cec_received(&adapter, (struct cec_message){.length = 2, .bytes = {0x04, opcode}}, later());
    struct cec_message answer = cec_bus_start(&adapter).message;
    printf("%02X:", opcode);
    for (uint8_t i = 0; i < answer.length; i++)
        printf(" %02X", answer.bytes[i]);
    putchar('\n');
    cec_bus_result(&adapter, CEC_TX_STATUS_OK, (struct cec_counts){0}, later());
}

static void settings(void)
{
    struct cec_settings box = {.physical_address = 0x1234, .mask = 1 << 4, .version = CEC_OP_CEC_VERSION_1_4,
                               .device_type = CEC_OP_PRIM_DEVTYPE_PLAYBACK, .vendor_id = 0xABCDEF, .name_length = 14,
                               .name = {'a', 'b', 'c', 'd', 'e', 'f', 'g', 'h', 'i', 'j', 'k', 'l', 'm', 'n'}};
    cec_new(&adapter, true, true);
    printf("configure %" PRIu32 "\n", cec_configure(&adapter, box));
    core_answers(CEC_MSG_GET_CEC_VERSION);
    core_answers(CEC_MSG_GIVE_DEVICE_VENDOR_ID);
    core_answers(CEC_MSG_GIVE_PHYSICAL_ADDR);
    core_answers(CEC_MSG_GIVE_OSD_NAME);
    core_answers(CEC_MSG_GIVE_FEATURES);
    box.version = CEC_OP_CEC_VERSION_2_0;
    box.all_device_types = 0x12;
    box.rc_profile = 0x34;
    box.device_features = 0x56;
    cec_unconfigure(&adapter);
    printf("configure %" PRIu32 "\n", cec_configure(&adapter, box));
    core_answers(CEC_MSG_GIVE_FEATURES);
}

/* Each count comes back in its own field, and one whose bit is clear as 0. */
static void counts(uint8_t status)
{
    cec_transmit(&adapter, 0, (struct cec_request){.length = 2, .bytes = {0x40, CEC_MSG_GIVE_DEVICE_POWER_STATUS}});
    cec_bus_start(&adapter);
    cec_bus_result(&adapter, status, (struct cec_counts){.arb_lost = 1, .nack = 2, .low_drive = 3, .error = 4}, later());
    struct cec_counts kept = cec_receive(&adapter, 0).entry.counts;
    printf("status %02X: counts %u %u %u %u\n", status, kept.arb_lost, kept.nack, kept.low_drive, kept.error);
}

static void next_entry(const char *name, unsigned handle)
{
    struct cec_entry entry = cec_receive(&adapter, handle).entry;
    printf("%s: tx_status %u, rx_status %u, reply %02X, ", name, entry.tx_status, entry.rx_status, entry.reply);
    printf("tx_ts %" PRIu64 ", rx_ts %" PRIu64 "\n", entry.tx_ts, entry.rx_ts);
}

static uint32_t flags;

/* CEC_MSG_INITIATE_ARC is to be sent, and CEC_MSG_REPORT_ARC_INITIATED wanted. */
static void queue_arc(void)
{
    struct cec_request request = {
        .length = 2, .bytes = {0x40, CEC_MSG_INITIATE_ARC}, .reply = CEC_MSG_REPORT_ARC_INITIATED, .flags = flags};
    cec_transmit(&adapter, 0, request);
}

static void initiate_arc(void)
{
    queue_arc();
    cec_bus_start(&adapter);
    cec_bus_result(&adapter, CEC_TX_STATUS_OK, (struct cec_counts){0}, later());
    next_entry("result", 0);
}

static void answered(const char *name, struct cec_message message)
{
    initiate_arc();
    cec_received(&adapter, message, later());
    next_entry(name, 0);
}

/* The opcode that an entry shows: the one that came, or the one that was wanted. The times: of the bus result, of the message. */
static void replies(void)
{
    cec_open(&adapter, true);
    cec_set_mode(&adapter, 1, CEC_MODE_MONITOR);
    answered("wanted opcode", (struct cec_message){.length = 2, .bytes = {0x04, CEC_MSG_REPORT_ARC_INITIATED}});
    next_entry("copy of the result, for a monitor", 1);
    next_entry("copy of the message, for a monitor", 1);
    cec_close(&adapter, 1);
    answered("the other of the pair", (struct cec_message){.length = 2, .bytes = {0x04, CEC_MSG_REPORT_ARC_TERMINATED}});
    answered("Feature Abort",
             (struct cec_message){.length = 4, .bytes = {0x04, CEC_MSG_FEATURE_ABORT, CEC_MSG_INITIATE_ARC, CEC_OP_ABORT_REFUSED}});
    initiate_arc();
    answered("reply to the first of two", (struct cec_message){.length = 2, .bytes = {0x04, CEC_MSG_REPORT_ARC_INITIATED}});
    cec_time_passed(&adapter, 1000);
    next_entry("timeout of the second", 0);
    cec_set_mode(&adapter, 0, CEC_MODE_INITIATOR | CEC_MODE_FOLLOWER);
    flags = CEC_MSG_FL_REPLY_TO_FOLLOWERS;
    answered("reply to a follower", (struct cec_message){.length = 2, .bytes = {0x04, CEC_MSG_REPORT_ARC_INITIATED}});
    next_entry("its copy", 0);
    initiate_arc();
    queue_arc();
    cec_unconfigure(&adapter);
    next_entry("unconfigure, of what was queued", 0);
    next_entry("unconfigure, of the wait", 0);
}

static uint32_t result_at(uint64_t ts)
{
    return cec_bus_result(&adapter, CEC_TX_STATUS_OK, (struct cec_counts){0}, ts);
}

static uint32_t message_at(uint64_t ts)
{
    return cec_received(&adapter, (struct cec_message){.length = 2, .bytes = {0x0F, CEC_MSG_INACTIVE_SOURCE}}, ts);
}

/* A time below the last of either call is EINVAL. Unconfigure, which came before this, kept the last; in a new adapter it is 0. */
static void times(void)
{
    poll(0xF0);
    cec_bus_start(&adapter);
    printf("message: before the last result: %" PRIu32 ", ", message_at(now - 1));
    printf("at its time: %" PRIu32 ", ", message_at(now));
    printf("later: %" PRIu32 "\n", message_at(later()));
    printf("result: before the last message: %" PRIu32 ", ", result_at(now - 1));
    printf("at its time: %" PRIu32 "\n", result_at(now));
    next_entry("result", 0);
    cec_new(&adapter, true, true);
    printf("new adapter: message at 0: %" PRIu32 ", ", message_at(0));
    printf("at 2^64 - 1: %" PRIu32 ", ", message_at(UINT64_MAX));
    printf("at 2^64 - 2: %" PRIu32 "\n", message_at(UINT64_MAX - 1));
}

/* Nine rows: the ninth stays. Seven: EINVAL. */
static void rows(void)
{
    struct cec_row rows[9] = {{0}};
    rows[8].lost = 77;
    printf("listing %" PRIu32 ":", cec_listing(&adapter, rows, 9));
    for (size_t i = 0; i < 9; i++)
        printf(" %u %d %" PRIu32 ",", rows[i].number, rows[i].is_open, rows[i].lost);
    printf(" of seven rows %" PRIu32 "\n", cec_listing(&adapter, rows, 7));
}

int main(void)
{
    capabilities(false, true);
    capabilities(true, false);
    settings();
    cec_open(&adapter, false);
    counts(CEC_TX_STATUS_MAX_RETRIES | CEC_TX_STATUS_ARB_LOST | CEC_TX_STATUS_NACK | CEC_TX_STATUS_LOW_DRIVE | CEC_TX_STATUS_ERROR);
    counts(CEC_TX_STATUS_OK | CEC_TX_STATUS_NACK);
    printf("poll of an own address: tx_status %u\n", poll(0x44).tx_status);
    rows();
    replies();
    times();
    return 0;
}
