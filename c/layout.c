/*
 * The structs and functions of clothbadger.h are those of the proved code: sizes, alignments, the offset and type of each field, and prototypes.
 * Answers, entries and rows have no padding, and the places that cec_new() copies are those of the fields that are meant.
 * c/run makes structs.inc and prototypes.inc, the structs and exported functions of the Rattle sources in C, rules.inc, the rules of a reply,
 * and offsets.inc, the layout that is proved.
 */
#include "clothbadger.h"

#include "structs.inc"

#define SIZES(ours, theirs)                                                                        \
    _Static_assert(sizeof(struct ours) == sizeof(struct theirs), "size of " #ours);                \
    _Static_assert(_Alignof(struct ours) == _Alignof(struct theirs), "alignment of " #ours)

#define OFFSETS(ours, field, theirs, its)                                                                     \
    _Static_assert(offsetof(struct ours, field) == offsetof(struct theirs, its), "offset of " #ours "." #field); \
    _Static_assert(sizeof(((struct ours *)0)->field) == sizeof(((struct theirs *)0)->its), "size of " #ours "." #field)

/* A number or an array of numbers: its type is the same too. */
#define NUMBERS(ours, field, theirs, its)                                                                       \
    OFFSETS(ours, field, theirs, its);                                                                            \
    _Static_assert(_Generic(&((struct ours *)0)->field, __typeof__(&((struct theirs *)0)->its): 1, default: 0), \
                   "type of " #ours "." #field)

#define SAME(ours, theirs, field) NUMBERS(ours, field, theirs, field)
#define SAME_STRUCT(ours, theirs, field) OFFSETS(ours, field, theirs, field)

/* What Structs.antt states of the structs: the compiler lays them out so. */
#define PROVED_OFFSET(theirs, field, at) \
    _Static_assert(offsetof(struct theirs, field) == at, "Structs.antt: offset of " #theirs "." #field)

#define PROVED_SIZE(theirs, bytes, alignment) \
    _Static_assert(sizeof(struct theirs) == bytes && _Alignof(struct theirs) == alignment, "Structs.antt: size of " #theirs)

#include "offsets.inc"

/* The functions have the types of the exported ones. */
#define PROTOTYPE(name, result, ...) \
    _Static_assert(_Generic(&name, result (*)(__VA_ARGS__): 1, default: 0), "prototype of " #name)

#include "prototypes.inc"

/* The rules of a reply have the numbers of the proved code. */
#define RULE(name, number) _Static_assert(CLOTHBADGER_##name == number, #name)

#include "rules.inc"

/* Every byte of what a form by pointer hands out belongs to a field. */
#define BYTES(ours, field) sizeof(((struct ours *)0)->field)
#define NO_PADDING(ours, bytes) _Static_assert(sizeof(struct ours) == (bytes), "padding in " #ours)

/* What cec_new() copies is where the adapter has it. */
#define PLACE(place, field, bytes)                                                              \
    _Static_assert(offsetof(struct adapter_Adapter, parts.field) == (place), "place of " #field); \
    _Static_assert(BYTES(adapter_Adapter, parts.field) == (bytes), "size of " #field)

SIZES(cec_adapter, adapter_Adapter);
PLACE(CLOTHBADGER_QUEUE_OWNER(0), queue.slots[0].owner, 1);
PLACE(CLOTHBADGER_QUEUE_OWNER(1), queue.slots[1].owner, 1);
PLACE(CLOTHBADGER_WIRE_OWNER, wire.slot.owner, 1);
PLACE(CLOTHBADGER_CAPABILITIES, can_transmit, 1);
PLACE(CLOTHBADGER_CAPABILITIES + 1, can_monitor_all, 1);
PLACE(CLOTHBADGER_PHYSICAL_ADDRESS, settings.physical_address, 2);
PLACE(CLOTHBADGER_NOTED, noted, 30);
PLACE(CLOTHBADGER_ACTIVE_ADDRESS, active, 2);
_Static_assert(BYTES(adapter_Adapter, parts.queue.slots) / BYTES(adapter_Adapter, parts.queue.slots[0]) == CLOTHBADGER_QUEUE_SLOTS,
               "slots of the queue");

SIZES(cec_message, message_Message);
SAME(cec_message, message_Message, length);
SAME(cec_message, message_Message, bytes);
NO_PADDING(cec_message, BYTES(cec_message, length) + BYTES(cec_message, bytes));

SIZES(cec_counts, entry_Counts);
SAME(cec_counts, entry_Counts, arb_lost);
SAME(cec_counts, entry_Counts, nack);
SAME(cec_counts, entry_Counts, low_drive);
SAME(cec_counts, entry_Counts, error);
NO_PADDING(cec_counts, BYTES(cec_counts, arb_lost) + BYTES(cec_counts, nack) + BYTES(cec_counts, low_drive) + BYTES(cec_counts, error));

SIZES(cec_entry, entry_Entry);
SAME(cec_entry, entry_Entry, sequence);
SAME(cec_entry, entry_Entry, tx_status);
SAME(cec_entry, entry_Entry, rx_status);
SAME_STRUCT(cec_entry, entry_Entry, message);
SAME_STRUCT(cec_entry, entry_Entry, counts);
SAME(cec_entry, entry_Entry, reply);
SAME(cec_entry, entry_Entry, tx_ts);
SAME(cec_entry, entry_Entry, rx_ts);
NO_PADDING(cec_entry, BYTES(cec_entry, sequence) + BYTES(cec_entry, tx_status) + BYTES(cec_entry, rx_status) + BYTES(cec_entry, message)
                          + BYTES(cec_entry, counts) + BYTES(cec_entry, reply) + BYTES(cec_entry, reserved)
                          + BYTES(cec_entry, tx_ts) + BYTES(cec_entry, rx_ts));

SIZES(cec_request, request_Request);
SAME(cec_request, request_Request, length);
SAME(cec_request, request_Request, bytes);
SAME(cec_request, request_Request, reply);
SAME(cec_request, request_Request, timeout);
SAME(cec_request, request_Request, flags);

SIZES(cec_settings, settings_Settings);
SAME(cec_settings, settings_Settings, physical_address);
SAME(cec_settings, settings_Settings, mask);
SAME(cec_settings, settings_Settings, version);
SAME(cec_settings, settings_Settings, device_type);
SAME(cec_settings, settings_Settings, vendor_id);
SAME(cec_settings, settings_Settings, name_length);
SAME(cec_settings, settings_Settings, name);
SAME(cec_settings, settings_Settings, all_device_types);
SAME(cec_settings, settings_Settings, rc_profile);
SAME(cec_settings, settings_Settings, device_features);

SIZES(cec_row, handle_Row);
SAME(cec_row, handle_Row, number);
SAME(cec_row, handle_Row, is_open);
SAME(cec_row, handle_Row, mode);
SAME(cec_row, handle_Row, entries);
SAME(cec_row, handle_Row, owed);
SAME(cec_row, handle_Row, lost);
NO_PADDING(cec_row, BYTES(cec_row, number) + BYTES(cec_row, is_open) + BYTES(cec_row, reserved) + BYTES(cec_row, mode)
                        + BYTES(cec_row, entries) + BYTES(cec_row, owed) + BYTES(cec_row, lost));

SIZES(cec_lookup_answer, rows_Noted);
SAME(cec_lookup_answer, rows_Noted, error);
SAME(cec_lookup_answer, rows_Noted, address);
NO_PADDING(cec_lookup_answer,
           BYTES(cec_lookup_answer, error) + BYTES(cec_lookup_answer, address) + BYTES(cec_lookup_answer, reserved));

SIZES(cec_route_answer, route_Route);
SAME(cec_route_answer, route_Route, error);
SAME(cec_route_answer, route_Route, ancestor);
SAME(cec_route_answer, route_Route, on_path);
SAME(cec_route_answer, route_Route, port);
NO_PADDING(cec_route_answer, BYTES(cec_route_answer, error) + BYTES(cec_route_answer, ancestor) + BYTES(cec_route_answer, on_path)
                                 + BYTES(cec_route_answer, port));

SIZES(cec_after, adapter_Done);
SAME_STRUCT(cec_after, adapter_Done, adapter);
SAME(cec_after, adapter_Done, error);

SIZES(cec_after_open, adapter_Opened);
SAME_STRUCT(cec_after_open, adapter_Opened, adapter);
NUMBERS(cec_after_open, answer.error, adapter_Opened, error);
NUMBERS(cec_after_open, answer.handle, adapter_Opened, handle);
NO_PADDING(cec_open_answer, BYTES(cec_open_answer, error) + BYTES(cec_open_answer, handle) + BYTES(cec_open_answer, reserved));

SIZES(cec_after_transmit, adapter_Transmitted);
SAME_STRUCT(cec_after_transmit, adapter_Transmitted, adapter);
NUMBERS(cec_after_transmit, answer.error, adapter_Transmitted, error);
NUMBERS(cec_after_transmit, answer.sequence, adapter_Transmitted, sequence);
NUMBERS(cec_after_transmit, answer.tx_status, adapter_Transmitted, tx_status);
NO_PADDING(cec_transmit_answer, BYTES(cec_transmit_answer, error) + BYTES(cec_transmit_answer, sequence)
                                    + BYTES(cec_transmit_answer, tx_status) + BYTES(cec_transmit_answer, reserved));

SIZES(cec_after_receive, adapter_Received);
SAME_STRUCT(cec_after_receive, adapter_Received, adapter);
NUMBERS(cec_after_receive, answer.error, adapter_Received, error);
OFFSETS(cec_after_receive, answer.entry, adapter_Received, entry);
NO_PADDING(cec_receive_answer,
           BYTES(cec_receive_answer, error) + BYTES(cec_receive_answer, reserved) + BYTES(cec_receive_answer, entry));

SIZES(cec_after_bus_start, adapter_Started);
SAME_STRUCT(cec_after_bus_start, adapter_Started, adapter);
NUMBERS(cec_after_bus_start, answer.error, adapter_Started, error);
OFFSETS(cec_after_bus_start, answer.message, adapter_Started, message);
NO_PADDING(cec_bus_start_answer,
           BYTES(cec_bus_start_answer, error) + BYTES(cec_bus_start_answer, message) + BYTES(cec_bus_start_answer, reserved));
