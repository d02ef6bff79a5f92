/*
 * Clothbadger: a CEC adapter that several programs share, for programs in C.
 * docs/C.md is the guide. Link crates/clothbadger/out/libclothbadger.a (rt lib in crates/clothbadger), x86-64 only.
 *
 * The caller owes:
 *  - an adapter that came from cec_new() or cec_adapter_new(), and that only these calls changed;
 *  - pointers that are not null, also where a length is 0, that do not overlap, and that have as many
 *    rows or bytes behind them as the count or length says;
 *  - rows lent to cec_listing() that are rows: zeroed, or filled by an earlier listing;
 *  - one call at a time on an adapter: there is no lock in it.
 * Every other value of an argument is tested by the calls. The forms by pointer take a handle, a logical address and a status
 * as unsigned, and refuse all that is over 255. C itself cuts what is wider than the argument or field that it is given for, before
 * a call can see it: 2^32 as a handle, a mode or milliseconds is 0, and so is 256 in a field of 8 bits, or as a handle of a proved
 * function. -Wconversion shows where.
 *
 * An error is a number of Linux's errno.h, 0 for success. A call that is refused changes nothing, and
 * all else in its answer is 0: handle, sequence, tx_status, entry, message, address, ancestor, on_path, port.
 */
#ifndef CLOTHBADGER_H
#define CLOTHBADGER_H

#include <stdbool.h>
#include <stddef.h>
#include <stdint.h>
#include <string.h>

#ifdef __cplusplus
extern "C" {
#define CLOTHBADGER_STATIC_ASSERT static_assert
#define CLOTHBADGER_ALIGNOF alignof
#else
#define CLOTHBADGER_STATIC_ASSERT _Static_assert
#define CLOTHBADGER_ALIGNOF _Alignof
#endif

/* The kernel's numbers, written as in linux/cec.h, so that both headers can be included in either order. */

/* Modes of a handle: an initiator part and a follower part. */
#define CEC_MODE_NO_INITIATOR           (0x0 << 0)
#define CEC_MODE_INITIATOR              (0x1 << 0)
#define CEC_MODE_EXCL_INITIATOR         (0x2 << 0)
#define CEC_MODE_NO_FOLLOWER            (0x0 << 4)
#define CEC_MODE_FOLLOWER               (0x1 << 4)
#define CEC_MODE_EXCL_FOLLOWER          (0x2 << 4)
#define CEC_MODE_EXCL_FOLLOWER_PASSTHRU (0x3 << 4)
#define CEC_MODE_MONITOR                (0xe << 4)
#define CEC_MODE_MONITOR_ALL            (0xf << 4)

/* Status bits of a transmit. */
#define CEC_TX_STATUS_OK                (1 << 0)
#define CEC_TX_STATUS_ARB_LOST          (1 << 1)
#define CEC_TX_STATUS_NACK              (1 << 2)
#define CEC_TX_STATUS_LOW_DRIVE         (1 << 3)
#define CEC_TX_STATUS_ERROR             (1 << 4)
#define CEC_TX_STATUS_MAX_RETRIES       (1 << 5)
#define CEC_TX_STATUS_ABORTED           (1 << 6)
#define CEC_TX_STATUS_TIMEOUT           (1 << 7)

/* Status bits of a received message. */
#define CEC_RX_STATUS_OK                (1 << 0)
#define CEC_RX_STATUS_TIMEOUT           (1 << 1)
#define CEC_RX_STATUS_FEATURE_ABORT     (1 << 2)
#define CEC_RX_STATUS_ABORTED           (1 << 3)

/* The flag of a transmit. */
#define CEC_MSG_FL_REPLY_TO_FOLLOWERS   (1 << 0)

/* Opcodes that the adapter knows, and those of a power status. */
#define CEC_MSG_FEATURE_ABORT            0x00
#define CEC_MSG_IMAGE_VIEW_ON            0x04
#define CEC_MSG_TEXT_VIEW_ON             0x0d
#define CEC_MSG_GIVE_OSD_NAME            0x46
#define CEC_MSG_SET_OSD_NAME             0x47
#define CEC_MSG_ROUTING_CHANGE           0x80
#define CEC_MSG_ACTIVE_SOURCE            0x82
#define CEC_MSG_GIVE_PHYSICAL_ADDR       0x83
#define CEC_MSG_REPORT_PHYSICAL_ADDR     0x84
#define CEC_MSG_SET_STREAM_PATH          0x86
#define CEC_MSG_DEVICE_VENDOR_ID         0x87
#define CEC_MSG_GIVE_DEVICE_VENDOR_ID    0x8c
#define CEC_MSG_GIVE_DEVICE_POWER_STATUS 0x8f
#define CEC_MSG_REPORT_POWER_STATUS      0x90
#define CEC_MSG_INACTIVE_SOURCE          0x9d
#define CEC_MSG_CEC_VERSION              0x9e
#define CEC_MSG_GET_CEC_VERSION          0x9f
#define CEC_MSG_GIVE_FEATURES            0xa5
#define CEC_MSG_REPORT_FEATURES          0xa6
#define CEC_MSG_INITIATE_ARC             0xc0
#define CEC_MSG_REPORT_ARC_INITIATED     0xc1
#define CEC_MSG_REPORT_ARC_TERMINATED    0xc2
#define CEC_MSG_ABORT                    0xff

/* Reasons of a Feature Abort. */
#define CEC_OP_ABORT_UNRECOGNIZED_OP    0
#define CEC_OP_ABORT_REFUSED            4

/* Versions and device types, for cec_configure(). */
#define CEC_OP_CEC_VERSION_1_3A         4
#define CEC_OP_CEC_VERSION_1_4          5
#define CEC_OP_CEC_VERSION_2_0          6
#define CEC_OP_PRIM_DEVTYPE_TV          0
#define CEC_OP_PRIM_DEVTYPE_RECORD      1
#define CEC_OP_PRIM_DEVTYPE_TUNER       3
#define CEC_OP_PRIM_DEVTYPE_PLAYBACK    4
#define CEC_OP_PRIM_DEVTYPE_AUDIOSYSTEM 5
#define CEC_OP_PRIM_DEVTYPE_SWITCH      6
#define CEC_OP_PRIM_DEVTYPE_PROCESSOR   7

/* Addresses. */
#define CEC_LOG_ADDR_UNREGISTERED       15
#define CEC_LOG_ADDR_BROADCAST          15
#define CEC_PHYS_ADDR_INVALID           0xffff

/*
 * An adapter, opaque: copy it, but change it by the calls alone. The messages of all programs are in it, read ones too: show it
 * to none of them.
 */
#define CLOTHBADGER_ADAPTER_SIZE 8744

struct cec_adapter {
    uint64_t opaque[CLOTHBADGER_ADAPTER_SIZE / 8];
};

CLOTHBADGER_STATIC_ASSERT(sizeof(struct cec_adapter) == CLOTHBADGER_ADAPTER_SIZE, "size of an adapter");
CLOTHBADGER_STATIC_ASSERT(CLOTHBADGER_ALIGNOF(struct cec_adapter) == 8, "alignment of an adapter");

/*
 * For cec_new(), where a fresh adapter is not 0: the owner in each slot of the queue and on the wire (nobody), the capabilities,
 * the physical address, the noted ones and the active one (invalid).
 */
#define CLOTHBADGER_QUEUE_SLOTS       32
#define CLOTHBADGER_QUEUE_OWNER(slot) (252 + 32 * (slot))
#define CLOTHBADGER_WIRE_OWNER        1280
#define CLOTHBADGER_CAPABILITIES      72
#define CLOTHBADGER_PHYSICAL_ADDRESS  80
#define CLOTHBADGER_NOTED             112
#define CLOTHBADGER_ACTIVE_ADDRESS    142

/*
 * A message: the first byte is initiator and destination, the second the opcode.
 * Bytes past the length are 0 in what a call gives, and ignored in what it takes.
 */
struct cec_message {
    uint8_t length;
    uint8_t bytes[16];
};

/* How often arbitration was lost, and NACK, low drive and other errors came. A count whose status bit is clear is stored as 0. */
struct cec_counts {
    uint8_t arb_lost;
    uint8_t nack;
    uint8_t low_drive;
    uint8_t error;
};

/*
 * What an inbox holds. Under a sequence number: the result of that transmit (tx_status not 0), or the end of its wait
 * (rx_status not 0: reply, Feature Abort, timeout or abort). With sequence 0: a copy for a monitor or a follower.
 * At the end of a wait, reply is the opcode that came, CEC_MSG_FEATURE_ABORT (0) for a Feature Abort, or, with a timeout or an
 * abort, the opcode that was wanted. In results and copies it is 0.
 * tx_ts is the time that was given to cec_bus_result() when the transmit ended, rx_ts the time that was given to cec_received() with
 * the message, both in nanoseconds. Results and their copies show tx_ts, copies of messages rx_ts, replies and Feature Aborts both,
 * timeouts and aborts of a wait tx_ts. A time that is not shown is 0; in the result of a transmit that cec_unconfigure() ended both are.
 */
struct cec_entry {
    uint32_t sequence;
    uint8_t tx_status;
    uint8_t rx_status;
    struct cec_message message;
    struct cec_counts counts;
    uint8_t reply;
    uint8_t reserved[4];
    uint64_t tx_ts;
    uint64_t rx_ts;
};

/*
 * A transmit: the message, the opcode of the reply that is wanted, the milliseconds to wait for it once the transmit's
 * result has come, and flags. A reply is wanted if reply or timeout is not 0; timeout 0 then means 1000.
 */
struct cec_request {
    uint8_t length;
    uint8_t bytes[16];
    uint8_t reply;
    uint32_t timeout;
    uint32_t flags;
};

/*
 * What cec_configure() sets: a physical address other than CEC_PHYS_ADDR_INVALID, 1 to 4 own logical addresses (bit n of the
 * mask is address n, 0 to 14), CEC_OP_CEC_VERSION_1_3A, _1_4 or _2_0, a CEC_OP_PRIM_DEVTYPE_, a vendor id of 24 bits, an OSD name of 1 to 14 bytes.
 * The last three are what CEC_MSG_REPORT_FEATURES tells of a CEC 2.0 device: rc_profile and device_features are below 128 (bit 7 would
 * announce another byte). With the other versions all three are 0.
 */
struct cec_settings {
    uint16_t physical_address;
    uint16_t mask;
    uint8_t version;
    uint8_t device_type;
    uint32_t vendor_id;
    uint8_t name_length;
    uint8_t name[14];
    uint8_t all_device_types;
    uint8_t rc_profile;
    uint8_t device_features;
};

/* A row of the listing: a handle, how many entries it has, the room that it owes, and how many copies it lost. */
struct cec_row {
    uint8_t number;
    bool is_open;
    uint8_t reserved[2];
    uint32_t mode;
    uint32_t entries;
    uint32_t owed;
    uint32_t lost;
};

/*
 * The answers of the calls that give more than an error. What would be padding is a field, reserved, here, in entries and in
 * rows, so that C copies it. It is 0 in what the forms by pointer give; the proved functions leave there what was in memory before.
 */
struct cec_open_answer {
    uint32_t error;
    uint8_t handle;
    uint8_t reserved[3];
};

struct cec_transmit_answer {
    uint32_t error;
    uint32_t sequence;
    uint8_t tx_status;
    uint8_t reserved[3];
};

struct cec_receive_answer {
    uint32_t error;
    uint8_t reserved[4];
    struct cec_entry entry;
};

struct cec_bus_start_answer {
    uint32_t error;
    struct cec_message message;
    uint8_t reserved[3];
};

struct cec_lookup_answer {
    uint32_t error;
    uint16_t address;
    uint8_t reserved[2];
};

struct cec_route_answer {
    uint32_t error;
    uint16_t ancestor;
    bool on_path;
    uint8_t port;
};

/* The adapter after a call, and the answer. */
struct cec_after {
    struct cec_adapter adapter;
    uint32_t error;
};

struct cec_after_open {
    struct cec_adapter adapter;
    struct cec_open_answer answer;
};

struct cec_after_transmit {
    struct cec_adapter adapter;
    struct cec_transmit_answer answer;
};

struct cec_after_receive {
    struct cec_adapter adapter;
    struct cec_receive_answer answer;
};

struct cec_after_bus_start {
    struct cec_adapter adapter;
    struct cec_bus_start_answer answer;
};

/*
 * The proved functions. Those that change the adapter take it by value and give back the one after the call.
 * The forms below them, with a pointer, are what a program calls.
 */

/* A fresh adapter, with or without CEC_CAP_TRANSMIT and CEC_CAP_MONITOR_ALL: not configured, all handles closed. */
struct cec_adapter cec_adapter_new(bool can_transmit, bool can_monitor_all);

/* sizeof(struct cec_adapter), as the proved code has it. */
size_t cec_adapter_size(void);

struct cec_after_open cec_adapter_open(struct cec_adapter adapter, bool privileged);
struct cec_after cec_adapter_close(struct cec_adapter adapter, uint8_t handle);
struct cec_after cec_adapter_set_mode(struct cec_adapter adapter, uint8_t handle, uint32_t mode);
struct cec_after_transmit cec_adapter_transmit(struct cec_adapter adapter, uint8_t handle, struct cec_request request);
struct cec_after_receive cec_adapter_receive(struct cec_adapter adapter, uint8_t handle);
struct cec_after_bus_start cec_adapter_bus_start(struct cec_adapter adapter);
struct cec_after cec_adapter_bus_result(struct cec_adapter adapter, uint8_t status, struct cec_counts counts, uint64_t ts);
struct cec_after cec_adapter_received(struct cec_adapter adapter, struct cec_message message, uint64_t ts);
struct cec_after cec_adapter_time_passed(struct cec_adapter adapter, uint32_t ms);
struct cec_after cec_adapter_configure(struct cec_adapter adapter, struct cec_settings settings);
struct cec_after cec_adapter_unconfigure(struct cec_adapter adapter);
uint32_t cec_adapter_listing(struct cec_adapter adapter, struct cec_row *rows, size_t count);
struct cec_lookup_answer cec_adapter_lookup(struct cec_adapter adapter, uint8_t address);
uint16_t cec_adapter_active_address(struct cec_adapter adapter);

/*
 * The way between two physical addresses, of four hex digits each: 0x2100 is 2.1.0.0, at port 1 of 2.0.0.0. Their deepest common
 * ancestor, an address being its own; whether the first lies on the path from 0.0.0.0 to the second, which it does if they are
 * equal; and through which of the first's ports that path goes on, 1 to 15, or 0 if they are equal or the first is off the path.
 * EINVAL: a digit other than 0 follows a 0, or an address is CEC_PHYS_ADDR_INVALID.
 */
struct cec_route_answer cec_route(uint16_t first, uint16_t second);

/*
 * By which rule the received bytes are the reply to the sent bytes, with the opcode wanted as the reply: the first of the three that
 * holds, or none. Each message is a pointer and a length; any length is taken, and one under 2 or over 16 is no match. A match comes
 * from the address that the sent bytes went to, which is any if that is 15, and goes to their initiator or to 15.
 */
#define CLOTHBADGER_RULE_NONE          0
#define CLOTHBADGER_RULE_FEATURE_ABORT 1 /* CEC_MSG_FEATURE_ABORT, its third byte the sent opcode */
#define CLOTHBADGER_RULE_WANTED_OPCODE 2 /* the opcode wanted, which is not 0 */
#define CLOTHBADGER_RULE_ARC_PAIR      3 /* the other ARC report, where CEC_MSG_INITIATE_ARC wants one of the two */

uint8_t cec_reply_match(const uint8_t *sent, size_t sent_length,
                        const uint8_t *received, size_t received_length,
                        uint8_t wanted);

/*
 * A number as an argument of 8 bits: all that is over 255 becomes 255. As a handle that is EBADF, as a logical address EINVAL, and
 * as a status EINVAL too: it has all four of the bits of which there must be exactly one.
 */
static inline uint8_t cec_narrow(unsigned number)
{
    return (uint8_t)(number > 255 ? 255 : number);
}

/* Copies some bytes of an adapter to the same place in another. */
static inline void cec_copy_bytes(struct cec_adapter *to, const struct cec_adapter *from, size_t place, size_t length)
{
    memcpy((uint8_t *)to->opaque + place, (const uint8_t *)from->opaque + place, length);
}

/*
 * Makes a fresh adapter, the same as cec_adapter_new() in every field. That one has bytes of the stack in its padding, so what is
 * not 0 in it is copied to a cleared one.
 */
static inline void cec_new(struct cec_adapter *adapter, bool can_transmit, bool can_monitor_all)
{
    struct cec_adapter fresh = cec_adapter_new(can_transmit, can_monitor_all);
    memset(adapter, 0, sizeof *adapter);
    for (size_t slot = 0; slot < CLOTHBADGER_QUEUE_SLOTS; slot++)
        cec_copy_bytes(adapter, &fresh, CLOTHBADGER_QUEUE_OWNER(slot), 1);
    cec_copy_bytes(adapter, &fresh, CLOTHBADGER_WIRE_OWNER, 1);
    cec_copy_bytes(adapter, &fresh, CLOTHBADGER_CAPABILITIES, 2);
    cec_copy_bytes(adapter, &fresh, CLOTHBADGER_PHYSICAL_ADDRESS, 2);
    cec_copy_bytes(adapter, &fresh, CLOTHBADGER_NOTED, 30);
    cec_copy_bytes(adapter, &fresh, CLOTHBADGER_ACTIVE_ADDRESS, 2);
}

/* Opens the lowest closed handle, in mode CEC_MODE_INITIATOR. Privileged stands for CAP_NET_ADMIN. EMFILE: eight are open. */
static inline struct cec_open_answer cec_open(struct cec_adapter *adapter, bool privileged)
{
    struct cec_after_open after = cec_adapter_open(*adapter, privileged);
    struct cec_open_answer answer;
    *adapter = after.adapter;
    memset(&answer, 0, sizeof answer);
    answer.error = after.answer.error;
    answer.handle = after.answer.handle;
    return answer;
}

/* Closes a handle: its mode, inbox and waits are gone; its messages, queued or on the wire, stay there and bring no result or reply. EBADF. */
static inline uint32_t cec_close(struct cec_adapter *adapter, unsigned handle)
{
    struct cec_after after = cec_adapter_close(*adapter, cec_narrow(handle));
    *adapter = after.adapter;
    return after.error;
}

/* CEC_S_MODE: an initiator part and a follower part. EBADF, EINVAL. EPERM: monitor without privilege. EBUSY: another holds the exclusive role. */
static inline uint32_t cec_set_mode(struct cec_adapter *adapter, unsigned handle, uint32_t mode)
{
    struct cec_after after = cec_adapter_set_mode(*adapter, cec_narrow(handle), mode);
    *adapter = after.adapter;
    return after.error;
}

/*
 * CEC_TRANSMIT of a handle that does not block: queues a message under a sequence number, with tx_status 0. Its result, and
 * its reply if one is wanted, come under that number to the inbox of this handle alone; monitors, and followers if
 * CEC_MSG_FL_REPLY_TO_FOLLOWERS is set, get copies with sequence 0. A poll to an own address is not queued: its answer has
 * CEC_TX_STATUS_NACK at once. EBADF, ENOTTY, EPERM, EINVAL, ENONET. EBUSY: another handle is exclusive initiator and this
 * one is not the exclusive follower, or there is no room.
 */
static inline struct cec_transmit_answer cec_transmit(struct cec_adapter *adapter, unsigned handle, struct cec_request request)
{
    struct cec_after_transmit after = cec_adapter_transmit(*adapter, cec_narrow(handle), request);
    struct cec_transmit_answer answer;
    *adapter = after.adapter;
    memset(&answer, 0, sizeof answer);
    answer.error = after.answer.error;
    answer.sequence = after.answer.sequence;
    answer.tx_status = after.answer.tx_status;
    return answer;
}

/* CEC_RECEIVE of a handle that does not block: gives the oldest entry of the inbox and takes it out. EBADF. EAGAIN: there is none. */
static inline struct cec_receive_answer cec_receive(struct cec_adapter *adapter, unsigned handle)
{
    struct cec_after_receive after = cec_adapter_receive(*adapter, cec_narrow(handle));
    struct cec_receive_answer answer;
    *adapter = after.adapter;
    memset(&answer, 0, sizeof answer);
    answer.error = after.answer.error;
    answer.entry.sequence = after.answer.entry.sequence;
    answer.entry.tx_status = after.answer.entry.tx_status;
    answer.entry.rx_status = after.answer.entry.rx_status;
    answer.entry.message = after.answer.entry.message;
    answer.entry.counts = after.answer.entry.counts;
    answer.entry.reply = after.answer.entry.reply;
    answer.entry.tx_ts = after.answer.entry.tx_ts;
    answer.entry.rx_ts = after.answer.entry.rx_ts;
    return answer;
}

/* The driver asks what to send: the oldest message of the queue, on the wire from now on. EBUSY: the wire is taken. EAGAIN: nothing is queued. */
static inline struct cec_bus_start_answer cec_bus_start(struct cec_adapter *adapter)
{
    struct cec_after_bus_start after = cec_adapter_bus_start(*adapter);
    struct cec_bus_start_answer answer;
    *adapter = after.adapter;
    memset(&answer, 0, sizeof answer);
    answer.error = after.answer.error;
    answer.message = after.answer.message;
    return answer;
}

/*
 * The driver says how the message on the wire ended: exactly one of CEC_TX_STATUS_OK, _MAX_RETRIES, _ABORTED and _TIMEOUT,
 * others beside it, how often each thing went wrong, and the time of the last byte in nanoseconds. EINVAL: any other status, nothing
 * on the wire, or a time below the last that this call or cec_received() accepted, which is 0 at first and kept by cec_unconfigure().
 * An equal one is fine.
 */
static inline uint32_t cec_bus_result(struct cec_adapter *adapter, unsigned status, struct cec_counts counts, uint64_t ts)
{
    struct cec_after after = cec_adapter_bus_result(*adapter, cec_narrow(status), counts, ts);
    *adapter = after.adapter;
    return after.error;
}

/*
 * The driver hands in a message that came from the wire, and the time of its last byte in nanoseconds. EINVAL: its length is not
 * 1 to 16, or the time is below the last accepted, as for cec_bus_result().
 */
static inline uint32_t cec_received(struct cec_adapter *adapter, struct cec_message message, uint64_t ts)
{
    struct cec_after after = cec_adapter_received(*adapter, message, ts);
    *adapter = after.adapter;
    return after.error;
}

/* Milliseconds passed: each wait for a reply with no more than that left ends with CEC_RX_STATUS_TIMEOUT. Always 0. */
static inline uint32_t cec_time_passed(struct cec_adapter *adapter, uint32_t ms)
{
    struct cec_after after = cec_adapter_time_passed(*adapter, ms);
    *adapter = after.adapter;
    return after.error;
}

/* Sets the physical address, the own logical addresses and what the core answers about this device. EBUSY: it is configured. EINVAL. */
static inline uint32_t cec_configure(struct cec_adapter *adapter, struct cec_settings settings)
{
    struct cec_after after = cec_adapter_configure(*adapter, settings);
    *adapter = after.adapter;
    return after.error;
}

/*
 * Clears the addresses, noted ones and the active one too, and the other settings: all transmits and waits end, with CEC_TX_STATUS_ABORTED or
 * CEC_RX_STATUS_ABORTED. Always 0.
 */
static inline uint32_t cec_unconfigure(struct cec_adapter *adapter)
{
    struct cec_after after = cec_adapter_unconfigure(*adapter);
    *adapter = after.adapter;
    return after.error;
}

/* Fills the first eight of the rows, one for each handle number. EINVAL: under eight rows. */
static inline uint32_t cec_listing(const struct cec_adapter *adapter, struct cec_row *rows, size_t count)
{
    uint32_t error = cec_adapter_listing(*adapter, rows, count);
    for (size_t i = 0; error == 0 && i < 8; i++)
        memset(rows[i].reserved, 0, sizeof rows[i].reserved);
    return error;
}

/* The physical address that a device reported, CEC_PHYS_ADDR_INVALID if none. EINVAL: the logical address is over 14. */
static inline struct cec_lookup_answer cec_lookup(const struct cec_adapter *adapter, unsigned address)
{
    struct cec_lookup_answer noted = cec_adapter_lookup(*adapter, cec_narrow(address));
    struct cec_lookup_answer answer;
    memset(&answer, 0, sizeof answer);
    answer.error = noted.error;
    answer.address = noted.address;
    return answer;
}

/*
 * The physical address that has the picture, CEC_PHYS_ADDR_INVALID for none, by the messages that came from the wire since the
 * adapter was configured. CEC_MSG_ACTIVE_SOURCE and CEC_MSG_SET_STREAM_PATH, of 4 bytes, set it, and CEC_MSG_ROUTING_CHANGE, of 6
 * bytes, to its second address: sent to all, and only to an address that cec_route() takes. CEC_MSG_INACTIVE_SOURCE, of 4 bytes, to
 * anyone, with that same address clears it; so does cec_unconfigure().
 */
static inline uint16_t cec_active_address(const struct cec_adapter *adapter)
{
    return cec_adapter_active_address(*adapter);
}

#ifdef __cplusplus
}
#endif

#endif
