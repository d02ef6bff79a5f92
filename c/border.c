/*
 * What crosses the border between C and the proved code: numbers that are too wide, times of 64 bits, and every byte of answers,
 * rows and new adapters. Before a call the stack is filled with a pattern: bytes that come from there are printed, and valgrind sees them too.
 * c/run makes structs.inc, the structs of the Rattle sources in C, and fields.inc, which marks the bytes of their fields.
 */
#include "clothbadger.h"

#include <inttypes.h>
#include <limits.h>
#include <stdio.h>
#include <string.h>

#include "structs.inc"
#include "fields.inc"

/* The frame of the next call lies where the pattern was put. */
#define OWN_FRAME __attribute__((noinline))
#define SOILED(call) (soil_stack(0xA5), call)

static const struct cec_counts no_counts;

static const struct cec_request question = {
    .length = 2, .bytes = {0x40, CEC_MSG_GIVE_DEVICE_POWER_STATUS}, .reply = CEC_MSG_REPORT_POWER_STATUS};
static const struct cec_request own_poll = {.length = 1, .bytes = {0x44}};
static const struct cec_request no_message = {.length = 0};
static const struct cec_message power_report = {.length = 3, .bytes = {0x04, CEC_MSG_REPORT_POWER_STATUS, 0x01}};

/* When results came, and when the messages after them did: no two bytes are the same. */
static const uint64_t sent_at = 0x1122334455667788, heard_at = 0x2132435465768798;

static struct cec_adapter adapter;

/* Further down than any call reaches. */
static OWN_FRAME void soil_stack(int pattern)
{
    volatile uint8_t stack[1 << 17];
    for (size_t i = 0; i < sizeof stack; i++)
        stack[i] = (uint8_t)pattern;
}

static void print_bytes(const char *name, const void *object, size_t size)
{
    const uint8_t *bytes = object;
    printf("%s:", name);
    for (size_t i = 0; i < size; i++)
        printf(" %02X", bytes[i]);
    putchar('\n');
}

static OWN_FRAME void show_open(const char *name)
{
    struct cec_open_answer answer = cec_open(&adapter, true);
    print_bytes(name, &answer, sizeof answer);
}

static OWN_FRAME void show_transmit(const char *name, unsigned handle, struct cec_request request)
{
    struct cec_transmit_answer answer = cec_transmit(&adapter, handle, request);
    print_bytes(name, &answer, sizeof answer);
}

static OWN_FRAME void show_receive(const char *name, unsigned handle)
{
    struct cec_receive_answer answer = cec_receive(&adapter, handle);
    print_bytes(name, &answer, sizeof answer);
}

static OWN_FRAME void show_bus_start(const char *name)
{
    struct cec_bus_start_answer answer = cec_bus_start(&adapter);
    print_bytes(name, &answer, sizeof answer);
}

static OWN_FRAME void show_lookup(const char *name, unsigned address)
{
    struct cec_lookup_answer answer = cec_lookup(&adapter, address);
    print_bytes(name, &answer, sizeof answer);
}

static OWN_FRAME void show_route(const char *name, uint16_t first, uint16_t second)
{
    struct cec_route_answer answer = cec_route(first, second);
    print_bytes(name, &answer, sizeof answer);
}

/* The rows are lent with something where no field of the proved code is. */
static OWN_FRAME void show_rows(void)
{
    struct cec_row rows[8] = {{0}};
    for (size_t i = 0; i < 8; i++)
        memset((uint8_t *)&rows[i] + 2, 0xA5, 2);
    cec_listing(&adapter, rows, 8);
    print_bytes("row of an open handle", &rows[1], sizeof rows[1]);
    print_bytes("row of a closed handle", &rows[7], sizeof rows[7]);
}

static OWN_FRAME void make(struct cec_adapter *target, bool can_transmit, bool can_monitor_all)
{
    cec_new(target, can_transmit, can_monitor_all);
}

/* Whether two adapters are the same in every field, whatever their padding is. */
static bool same_fields(const struct cec_adapter *one, const struct cec_adapter *other)
{
    static struct adapter_Adapter marked;
    const uint8_t *a = (const uint8_t *)one, *b = (const uint8_t *)other, *mark = (const uint8_t *)&marked;
    size_t different = 0;
    mark_adapter_Adapter(&marked);
    for (size_t i = 0; i < sizeof marked; i++)
        different += mark[i] && a[i] != b[i];
    return different == 0;
}

/* The same bytes, whatever was on the stack and in their place, and the fields of the proved function's adapter. */
static void new_adapter(bool can_transmit, bool can_monitor_all)
{
    static struct cec_adapter one, other, proved;
    memset(&one, 0x3C, sizeof one);
    memset(&other, 0xC3, sizeof other);
    soil_stack(0xA5);
    make(&one, can_transmit, can_monitor_all);
    soil_stack(0x5A);
    make(&other, can_transmit, can_monitor_all);
    proved = cec_adapter_new(can_transmit, can_monitor_all);
    printf("new %d %d: bytes %s, fields %s\n", can_transmit, can_monitor_all,
           memcmp(&one, &other, sizeof one) == 0 ? "the same" : "that differ",
           same_fields(&one, &proved) ? "as proved" : "that are others");
}

static void configure(void)
{
    struct cec_settings settings = {.physical_address = 0x1000, .mask = 1 << 4, .version = CEC_OP_CEC_VERSION_1_4,
                                    .device_type = CEC_OP_PRIM_DEVTYPE_PLAYBACK, .name_length = 1, .name = {'b'}};
    cec_configure(&adapter, settings);
}

/* Device 0 reports its physical address, and its power status. */
static void report(void)
{
    cec_received(&adapter, (struct cec_message){.length = 5, .bytes = {0x0F, CEC_MSG_REPORT_PHYSICAL_ADDR, 0x12, 0x34}}, heard_at);
    cec_received(&adapter, power_report, heard_at);
}

/* Every answer that has more in it than an error, and every error that it can have. */
static void answers(void)
{
    cec_new(&adapter, true, true);
    SOILED(show_open("open"));
    SOILED(show_open("open"));
    SOILED(show_transmit("transmit, ENONET", 0, question));
    configure();
    SOILED(show_transmit("transmit", 0, question));
    SOILED(show_transmit("transmit, a poll of an own address", 0, own_poll));
    SOILED(show_transmit("transmit, EBADF", 2, question));
    SOILED(show_transmit("transmit, EINVAL", 0, no_message));
    cec_set_mode(&adapter, 1, CEC_MODE_EXCL_INITIATOR);
    SOILED(show_transmit("transmit, EBUSY", 0, question));
    cec_set_mode(&adapter, 1, CEC_MODE_MONITOR);
    SOILED(show_transmit("transmit, EPERM", 1, question));
    SOILED(show_rows());
    SOILED(show_bus_start("bus start"));
    SOILED(show_bus_start("bus start, EBUSY"));
    cec_bus_result(&adapter, CEC_TX_STATUS_OK | CEC_TX_STATUS_NACK, (struct cec_counts){.nack = 3}, sent_at);
    SOILED(show_bus_start("bus start, EAGAIN"));
    report();
    SOILED(show_receive("receive, EBADF", 2));
    SOILED(show_receive("receive", 0));
    SOILED(show_receive("receive", 0));
    SOILED(show_receive("receive, EAGAIN", 0));
    SOILED(show_receive("receive, a copy of the result", 1));
    SOILED(show_receive("receive, a copy of a message", 1));
    SOILED(show_lookup("lookup", 0));
    SOILED(show_lookup("lookup, EINVAL", 15));
    SOILED(show_route("route", 0x2000, 0x2100));
    SOILED(show_route("route, EINVAL", 0x2000, 0x2010));
    for (int i = 2; i < 8; i++)
        cec_open(&adapter, false);
    SOILED(show_open("open, EMFILE"));
    cec_new(&adapter, false, false);
    cec_open(&adapter, false);
    SOILED(show_transmit("transmit, ENOTTY", 0, question));
}

/* Two handles with entries and waits, and a message on the wire. The last time is heard_at. */
static void prepare(void)
{
    cec_new(&adapter, true, true);
    cec_open(&adapter, true);
    cec_open(&adapter, true);
    configure();
    for (int i = 0; i < 2; i++) {
        cec_transmit(&adapter, 0, question);
        cec_transmit(&adapter, 1, question);
        cec_bus_start(&adapter);
        cec_bus_result(&adapter, CEC_TX_STATUS_OK, no_counts, sent_at);
    }
    report();
    cec_bus_start(&adapter);
}

/* Cut to 8 bits, most of these would be taken. */
static void wide_numbers(void)
{
    static const unsigned handles[] = {0x100, 0x101, 0x10000, UINT_MAX - 0xFF, UINT_MAX};
    static const unsigned addresses[] = {0x100, 0x10E, 0x10F, UINT_MAX};
    static const unsigned statuses[] = {0x101, 0x120, 0x10001, UINT_MAX};
    struct cec_adapter before;

    prepare();
    before = adapter;

    for (size_t i = 0; i < sizeof handles / sizeof *handles; i++) {
        printf("handle %X: ", handles[i]);
        printf("mode %" PRIu32 ", ", cec_set_mode(&adapter, handles[i], CEC_MODE_MONITOR));
        printf("transmit %" PRIu32 ", ", cec_transmit(&adapter, handles[i], question).error);
        printf("receive %" PRIu32 ", ", cec_receive(&adapter, handles[i]).error);
        printf("close %" PRIu32 "\n", cec_close(&adapter, handles[i]));
    }
    for (size_t i = 0; i < sizeof addresses / sizeof *addresses; i++)
        printf("address %X: lookup %" PRIu32 "\n", addresses[i], cec_lookup(&adapter, addresses[i]).error);
    for (size_t i = 0; i < sizeof statuses / sizeof *statuses; i++)
        printf("status %X: result %" PRIu32 "\n", statuses[i], cec_bus_result(&adapter, statuses[i], no_counts, heard_at));
    printf("adapter: %s\n", same_fields(&adapter, &before) ? "as before" : "changed");

    printf("address 0: lookup %" PRIu32 "\n", cec_lookup(&adapter, 0).error);
    printf("status 1: result %" PRIu32 "\n", cec_bus_result(&adapter, 1, no_counts, heard_at));
    printf("handle 0: receive %" PRIu32 ", ", cec_receive(&adapter, 0).error);
    printf("close %" PRIu32 "\n", cec_close(&adapter, 0));
    printf("adapter: %s\n", same_fields(&adapter, &before) ? "as before" : "changed");
}

static void show_time(uint64_t ts)
{
    printf("time %" PRIX64 ": ", ts);
    printf("result %" PRIu32 ", ", cec_bus_result(&adapter, CEC_TX_STATUS_OK, no_counts, ts));
    printf("message %" PRIu32 "\n", cec_received(&adapter, power_report, ts));
}

/* Cut to 32 bits, the second and the third would not be below the last. */
static void earlier_times(void)
{
    struct cec_adapter before;

    prepare();
    before = adapter;
    show_time(0);
    show_time(UINT32_MAX);
    show_time(sent_at | UINT32_MAX);
    show_time(heard_at - 1);
    printf("adapter: %s\n", same_fields(&adapter, &before) ? "as before" : "changed");

    show_time(heard_at);
    printf("adapter: %s\n", same_fields(&adapter, &before) ? "as before" : "changed");
}

int main(void)
{
    for (int i = 0; i < 4; i++)
        new_adapter(i & 2, i & 1);
    answers();
    wide_numbers();
    earlier_times();
    return 0;
}
