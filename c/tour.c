/*
 * The camera program and the chart program share one wire, later with a controller, through the C header.
 * It prints the lines of crates/tour/stdout.
 */
#include "clothbadger.h"

#include <inttypes.h>
#include <stdio.h>

/* The display and the amplifier on the wire, and the address of the box. */
enum { DISPLAY = 0, BOX = 4, AMPLIFIER = 5 };

/* Set Menu Language, which a display sends to all. */
enum { SET_MENU_LANGUAGE = 0x32 };

/* The handles that the programs get. */
enum { CAMERA = 0, CHART = 1, MONITOR = 2, CONTROLLER = 3 };

static const struct cec_counts no_counts;

static struct cec_adapter adapter;

/* The driver's clock, in nanoseconds: it moves where pass_time() moves it. */
static uint64_t now;

static const char *program(uint8_t handle)
{
    static const char *const names[] = {"camera", "chart", "monitor", "controller"};
    return names[handle < CONTROLLER ? handle : CONTROLLER];
}

static uint8_t header(uint8_t from, uint8_t to)
{
    return (uint8_t)(from << 4 | to);
}

static void open_handle(bool privileged)
{
    struct cec_open_answer answer = cec_open(&adapter, privileged);
    printf("%s: open, errno %" PRIu32 ", handle %u\n", program(answer.handle), answer.error, answer.handle);
}

static void configure(void)
{
    struct cec_settings settings = {
        .physical_address = 0x1000,
        .mask = 1 << BOX,
        .version = CEC_OP_CEC_VERSION_1_4,
        .device_type = CEC_OP_PRIM_DEVTYPE_PLAYBACK,
        .vendor_id = 0x00A0B0,
        .name_length = 3,
        .name = {'T', 'U', 'G'},
    };
    printf("box: configure, errno %" PRIu32 "\n", cec_configure(&adapter, settings));
}

/* A message without parameters. */
static struct cec_request request(uint8_t from, uint8_t to, uint8_t opcode, uint8_t reply)
{
    return (struct cec_request){.length = 2, .bytes = {header(from, to), opcode}, .reply = reply};
}

static void transmit(uint8_t handle, struct cec_request message)
{
    struct cec_transmit_answer answer = cec_transmit(&adapter, handle, message);
    printf("%s: transmit to %u, errno %" PRIu32 ", number %" PRIu32 "\n", program(handle), message.bytes[0] & 15,
           answer.error, answer.sequence);
}

/* A device is asked for its power status. */
static void ask(uint8_t handle, uint8_t device)
{
    transmit(handle, request(BOX, device, CEC_MSG_GIVE_DEVICE_POWER_STATUS, CEC_MSG_REPORT_POWER_STATUS));
}

/* The next message goes out and comes to its end. */
static void send_next(uint8_t status, struct cec_counts counts)
{
    struct cec_bus_start_answer start = cec_bus_start(&adapter);
    printf("wire: start, errno %" PRIu32 ", to %u", start.error, start.message.bytes[0] & 15);
    printf("; result, errno %" PRIu32 ", status %u\n", cec_bus_result(&adapter, status, counts, now), status);
}

/* A message of three bytes comes from the wire. */
static void come(uint8_t from, uint8_t to, uint8_t opcode, uint8_t third)
{
    cec_received(&adapter, (struct cec_message){.length = 3, .bytes = {header(from, to), opcode, third}}, now);
}

static void show_message(uint8_t from, uint8_t opcode)
{
    printf("wire: message from %u, opcode %u\n", from, opcode);
}

/* A device answers the box. */
static void answer_box(uint8_t from, uint8_t opcode, uint8_t third)
{
    show_message(from, opcode);
    come(from, BOX, opcode, third);
}

static void receive(uint8_t handle)
{
    struct cec_receive_answer answer = cec_receive(&adapter, handle);
    const struct cec_entry *entry = &answer.entry;
    printf("%s: receive, ", program(handle));
    if (answer.error)
        printf("errno %" PRIu32 "\n", answer.error);
    else
        printf("number %" PRIu32 ", tx_status %u, rx_status %u, opcode %u\n", entry->sequence, entry->tx_status,
               entry->rx_status, entry->message.bytes[1]);
}

/* Each program reads what it has, oldest first. */
static void read_out(void)
{
    receive(CAMERA);
    receive(CAMERA);
    receive(CHART);
    receive(CHART);
}

static void pass_time(uint32_t ms)
{
    printf("clock: milliseconds %" PRIu32 "\n", ms);
    cec_time_passed(&adapter, ms);
    now += (uint64_t)ms * 1000000;
}

/* Both ask, and both messages go out. */
static void both_ask(void)
{
    ask(CAMERA, DISPLAY);
    ask(CHART, AMPLIFIER);
    send_next(CEC_TX_STATUS_OK, no_counts);
    send_next(CEC_TX_STATUS_OK, no_counts);
}

/* The display is woken before the box has an address. */
static void wake(void)
{
    transmit(CAMERA, request(CEC_LOG_ADDR_UNREGISTERED, DISPLAY, CEC_MSG_IMAGE_VIEW_ON, 0));
    send_next(CEC_TX_STATUS_OK, no_counts);
    receive(CAMERA);
}

/* The replies come the other way round, and each program gets its own. */
static void replies(void)
{
    both_ask();
    answer_box(AMPLIFIER, CEC_MSG_REPORT_POWER_STATUS, 0);
    answer_box(DISPLAY, CEC_MSG_REPORT_POWER_STATUS, 1);
    read_out();
    receive(CAMERA);
    receive(CHART);
}

/* One is not answered in time, the other is told that the opcode is not known. */
static void no_replies(void)
{
    both_ask();
    pass_time(999);
    answer_box(AMPLIFIER, CEC_MSG_FEATURE_ABORT, CEC_MSG_GIVE_DEVICE_POWER_STATUS);
    pass_time(1);
    read_out();
}

/* A message that is not taken off the wire. */
static void not_taken(void)
{
    ask(CHART, AMPLIFIER);
    send_next(CEC_TX_STATUS_NACK | CEC_TX_STATUS_MAX_RETRIES, (struct cec_counts){.nack = 5});
    receive(CHART);
    receive(CHART);
}

static void look_up(uint8_t address)
{
    struct cec_lookup_answer answer = cec_lookup(&adapter, address);
    printf("box: lookup of %u, errno %" PRIu32 ", physical address %u\n", address, answer.error, answer.address);
}

/* The amplifier reports its physical address, 0x2000. */
static void report(void)
{
    uint8_t to_all = header(AMPLIFIER, CEC_LOG_ADDR_BROADCAST);
    cec_received(&adapter, (struct cec_message){.length = 5, .bytes = {to_all, CEC_MSG_REPORT_PHYSICAL_ADDR, 0x20}}, now);
    look_up(AMPLIFIER);
    look_up(CEC_LOG_ADDR_BROADCAST);
}

static void show_address(const char *text, unsigned address)
{
    printf("%s%u.%u.%u.%u", text, address >> 12, address >> 8 & 15, address >> 4 & 15, address & 15);
}

static void show_picture(void)
{
    uint16_t active = cec_active_address(&adapter);
    if (active == CEC_PHYS_ADDR_INVALID)
        printf("box: no picture");
    else
        show_address("box: the picture is at ", active);
    puts("");
}

static void show_way(uint16_t first, uint16_t second)
{
    struct cec_route_answer way = cec_route(first, second);
    show_address("way: from ", first);
    show_address(" to ", second);
    show_address(", common ancestor ", way.ancestor);
    if (way.on_path)
        printf(", port %u\n", way.port);
    else
        puts(", off the path");
}

/* The amplifier changes its input from 1.0.0.0, the box, to 2.1.0.0; the display asks for the box again. */
static void picture(void)
{
    uint8_t from_amplifier = header(AMPLIFIER, CEC_LOG_ADDR_BROADCAST);
    uint8_t from_display = header(DISPLAY, CEC_LOG_ADDR_BROADCAST);
    show_picture();
    show_message(AMPLIFIER, CEC_MSG_ROUTING_CHANGE);
    cec_received(&adapter, (struct cec_message){.length = 6, .bytes = {from_amplifier, CEC_MSG_ROUTING_CHANGE, 0x10, 0, 0x21}}, now);
    show_picture();
    show_way(0x0000, 0x2100);
    show_way(0x2000, 0x2100);
    show_way(0x1000, 0x2100);
    show_message(DISPLAY, CEC_MSG_SET_STREAM_PATH);
    cec_received(&adapter, (struct cec_message){.length = 4, .bytes = {from_display, CEC_MSG_SET_STREAM_PATH, 0x10}}, now);
    show_picture();
}

static void set_mode(uint8_t handle, uint32_t mode)
{
    printf("%s: mode %" PRIu32 ", errno %" PRIu32 "\n", program(handle), mode, cec_set_mode(&adapter, handle, mode));
}

/* The listing's rows of the three programs. */
static void list(void)
{
    struct cec_row rows[8] = {{0}};
    cec_listing(&adapter, rows, 8);
    for (size_t i = 0; i < 3; i++)
        printf("listing: handle %u, mode %" PRIu32 ", entries %" PRIu32 ", owed %" PRIu32 ", lost %" PRIu32 "\n",
               rows[i].number, rows[i].mode, rows[i].entries, rows[i].owed, rows[i].lost);
}

/* A monitor has room for 16 copies; the listing says how many it lost. */
static void watch(void)
{
    open_handle(true);
    set_mode(MONITOR, CEC_MODE_MONITOR);
    for (int i = 0; i < 18; i++)
        come(DISPLAY, CEC_LOG_ADDR_BROADCAST, SET_MENU_LANGUAGE, 0x65);
    puts("wire: 18 messages from 0 to all");
    list();
    receive(MONITOR);
    receive(CAMERA);
}

/* The display asks the box for its CEC version. */
static void ask_version(void)
{
    show_message(DISPLAY, CEC_MSG_GET_CEC_VERSION);
    cec_received(&adapter, (struct cec_message){.length = 2, .bytes = {header(DISPLAY, BOX), CEC_MSG_GET_CEC_VERSION}}, now);
}

/* The controller tells it. */
static void tell_version(void)
{
    struct cec_request answer = request(BOX, DISPLAY, CEC_MSG_CEC_VERSION, 0);
    answer.length = 3;
    answer.bytes[2] = CEC_OP_CEC_VERSION_1_4;
    transmit(CONTROLLER, answer);
}

/* The core leaves a question to the passthrough follower, which may answer it beside an exclusive initiator. */
static void control(void)
{
    open_handle(false);
    set_mode(CONTROLLER, CEC_MODE_EXCL_FOLLOWER_PASSTHRU | CEC_MODE_INITIATOR);
    set_mode(CAMERA, CEC_MODE_EXCL_INITIATOR);
    ask_version();
    receive(CONTROLLER);
    ask(CHART, AMPLIFIER);
    tell_version();
    send_next(CEC_TX_STATUS_OK, no_counts);
    receive(CONTROLLER);
    set_mode(CAMERA, CEC_MODE_INITIATOR);
}

/* One transmit waits for its reply, one is queued: the address is taken away. */
static void unconfigure(void)
{
    ask(CAMERA, DISPLAY);
    send_next(CEC_TX_STATUS_OK, no_counts);
    ask(CHART, AMPLIFIER);
    printf("box: unconfigure, errno %" PRIu32 "\n", cec_unconfigure(&adapter));
    read_out();
    ask(CHART, AMPLIFIER);
}

int main(void)
{
    if (cec_adapter_size() != sizeof adapter)
        return 1;
    cec_new(&adapter, true, true);
    open_handle(false);
    open_handle(false);
    wake();
    configure();
    replies();
    no_replies();
    not_taken();
    report();
    picture();
    watch();
    control();
    unconfigure();
    show_picture();
    return 0;
}
