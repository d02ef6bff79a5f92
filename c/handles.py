"""Two programs share one adapter, and are told where the picture is, from Python by ctypes, over the shared object that c/run builds."""
import ctypes
import sys
from ctypes import Structure, c_bool, c_uint8, c_uint16, c_uint32, c_uint64

GIVE_DEVICE_POWER_STATUS, REPORT_POWER_STATUS = 0x8F, 0x90
ACTIVE_SOURCE = 0x82
TX_STATUS_OK = 0x01


class Adapter(Structure):
    _fields_ = [("opaque", c_uint64 * (8744 // 8))]


class Message(Structure):
    _fields_ = [("length", c_uint8), ("bytes", c_uint8 * 16)]


class Counts(Structure):
    _fields_ = [(name, c_uint8) for name in ("arb_lost", "nack", "low_drive", "error")]


class Entry(Structure):
    _fields_ = [
        ("sequence", c_uint32), ("tx_status", c_uint8), ("rx_status", c_uint8), ("message", Message), ("counts", Counts), ("reply", c_uint8),
        ("tx_ts", c_uint64), ("rx_ts", c_uint64),
    ]


class Request(Structure):
    _fields_ = [("length", c_uint8), ("bytes", c_uint8 * 16), ("reply", c_uint8), ("timeout", c_uint32), ("flags", c_uint32)]


class Settings(Structure):
    _fields_ = [
        ("physical_address", c_uint16), ("mask", c_uint16), ("version", c_uint8), ("device_type", c_uint8),
        ("vendor_id", c_uint32), ("name_length", c_uint8), ("name", c_uint8 * 14),
        ("all_device_types", c_uint8), ("rc_profile", c_uint8), ("device_features", c_uint8),
    ]


class Route(Structure):
    _fields_ = [("error", c_uint32), ("ancestor", c_uint16), ("on_path", c_bool), ("port", c_uint8)]


def after(*fields):
    """The struct of the adapter after a call, the error, and what the call gives."""
    return type("After", (Structure,), {"_fields_": [("adapter", Adapter), ("error", c_uint32), *fields]})


library = ctypes.CDLL(sys.argv[1])


def declare(name, result, *arguments):
    function = getattr(library, "cec_" + name)
    function.restype, function.argtypes = result, arguments
    return function


new = declare("adapter_new", Adapter, c_bool, c_bool)
size = declare("adapter_size", ctypes.c_size_t)
open_ = declare("adapter_open", after(("handle", c_uint8)), Adapter, c_bool)
configure = declare("adapter_configure", after(), Adapter, Settings)
transmit = declare("adapter_transmit", after(("sequence", c_uint32), ("tx_status", c_uint8)), Adapter, c_uint8, Request)
bus_start = declare("adapter_bus_start", after(("message", Message)), Adapter)
bus_result = declare("adapter_bus_result", after(), Adapter, c_uint8, Counts, c_uint64)
receive = declare("adapter_receive", after(("entry", Entry)), Adapter, c_uint8)
received = declare("adapter_received", after(), Adapter, Message, c_uint64)
active_address = declare("adapter_active_address", c_uint16, Adapter)
route = declare("route", Route, c_uint16, c_uint16)

assert size() == ctypes.sizeof(Adapter)
adapter = new(True, True)


def call(function, *arguments):
    """A call on the one adapter, which is from then on the one after it."""
    global adapter
    answer = function(adapter, *arguments)
    adapter = answer.adapter
    return answer


def ask(handle, device):
    message = (c_uint8 * 16)(0x40 | device, GIVE_DEVICE_POWER_STATUS)
    return call(transmit, handle, Request(length=2, bytes=message, reply=REPORT_POWER_STATUS))


camera = call(open_, False).handle
chart = call(open_, False).handle
call(configure, Settings(0x1000, 0x0010, 5, 4, 0x00A0B0, 3, (c_uint8 * 14)(*b"TUG")))
for name, handle, device in (("camera", camera, 0), ("chart", chart, 5)):
    print(f"{name}: handle {handle}, transmit to {device}, number {ask(handle, device).sequence}")
for ts in (3_000_000_000, 7_000_000_000):
    print("wire:", call(bus_start).message.bytes[0] % 16, "status", TX_STATUS_OK)
    call(bus_result, TX_STATUS_OK, Counts(), ts)
for name, handle in (("chart", chart), ("camera", camera)):
    answer = call(receive, handle)
    print(f"{name}: errno {answer.error}, number {answer.entry.sequence}, tx_status {answer.entry.tx_status}, tx_ts {answer.entry.tx_ts}")
    print(f"{name}: errno {call(receive, handle).error}")
print(f"picture: {active_address(adapter):04x}")
call(received, Message(4, (c_uint8 * 16)(0x5F, ACTIVE_SOURCE, 0x21, 0x00)), 7_000_000_000)
picture = active_address(adapter)
print(f"picture: {picture:04x}, through port {route(0x0000, picture).port} of 0000 and port {route(0x2000, picture).port} of 2000")
