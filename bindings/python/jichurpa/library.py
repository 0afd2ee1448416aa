"""The functions of libjichurpa over ctypes, as jichurpa.h declares them, and how the library is found.

Nothing here is for users of the module: a wrong pointer would end the process. Use `Device`, `Image` and `DumpReader`.
"""

from __future__ import annotations

import ctypes
import ctypes.util
import functools
import os
from ctypes import POINTER, c_char, c_char_p, c_size_t, c_uint8, c_uint16, c_uint32, c_uint64, c_void_p
from pathlib import Path

from .enums import ABI, NAME_BYTES
from .errors import LibraryNotFound

VARIABLE = "JICHURPA_LIBRARY"
FILE = "libjichurpa.so"

NameBytes = c_char * NAME_BYTES


class Name(ctypes.Structure):
    _fields_ = [("bytes", NameBytes)]


class Object(ctypes.Structure):
    _fields_ = [("context", NameBytes), ("name", NameBytes)]


class RawAddress(ctypes.Structure):
    _fields_ = [("ip", c_uint32), ("port", c_uint16), ("reserved", c_uint16)]


class RawOutcome(ctypes.Structure):
    _fields_ = [
        ("answer", c_uint32),
        ("cause", c_uint32),
        ("detail", c_uint32),
        ("number", c_uint32),
        ("local_key", c_uint32),
        ("remote_key", c_uint32),
        ("count", c_uint64),
        ("sent", c_uint64),
    ]


class RawDatagram(ctypes.Structure):
    _fields_ = [
        ("to", RawAddress),
        ("number", c_uint64),
        ("length", c_uint64),
        ("has_number", c_uint32),
        ("reserved", c_uint32),
    ]


class QpOptions(ctypes.Structure):
    _fields_ = [
        ("domain", NameBytes),
        ("send_cq", NameBytes),
        ("recv_cq", NameBytes),
        ("send_depth", c_uint32),
        ("recv_depth", c_uint32),
    ]


class RawTerms(ctypes.Structure):
    _fields_ = [
        ("mtu", c_uint32),
        ("own_start", c_uint32),
        ("peer_start", c_uint32),
        ("retry", c_uint8),
        ("rnr", c_uint8),
        ("reads", c_uint8),
        ("reserved", c_uint8),
    ]


class RawRequest(ctypes.Structure):
    _fields_ = [
        ("id", c_uint64),
        ("local", c_uint64),
        ("remote", c_uint64),
        ("swap_add", c_uint64),
        ("compare", c_uint64),
        ("kind", c_uint32),
        ("length", c_uint32),
        ("local_key", c_uint32),
        ("remote_key", c_uint32),
        ("imm", c_uint32),
        ("flags", c_uint32),
    ]


class RawReceive(ctypes.Structure):
    _fields_ = [("id", c_uint64), ("local", c_uint64), ("local_key", c_uint32), ("length", c_uint32)]


class RawCompletion(ctypes.Structure):
    _fields_ = [
        ("id", c_uint64),
        ("qp", c_uint32),
        ("kind", c_uint32),
        ("status", c_uint32),
        ("length", c_uint32),
        ("imm", c_uint32),
        ("flags", c_uint32),
    ]


class RawEnd(ctypes.Structure):
    _fields_ = [
        ("name", Object),
        ("una", c_uint64),
        ("next", c_uint64),
        ("last", c_uint64),
        ("number", c_uint32),
        ("peer", c_uint32),
        ("state", c_uint32),
        ("untold", c_uint32),
        ("moves", c_uint32),
        ("rnr", c_uint32),
        ("rnr_wait", c_uint32),
        ("may_send", c_uint32),
        ("in_flight", c_uint32),
        ("reserved", c_uint32),
    ]


class RawFault(ctypes.Structure):
    _fields_ = [("place", c_uint64), ("why", c_uint32), ("reserved", c_uint32)]


class Handle(ctypes.Structure):
    """What a handle holds; zeros where it holds nothing."""

    _fields_ = [("at", c_void_p), ("there", c_uint64)]


class DeviceHandle(Handle):
    pass


class ImageHandle(Handle):
    pass


class ReaderHandle(Handle):
    pass


# The structs of the header that have a struct here.
STRUCTS: dict[str, type[ctypes.Structure]] = {
    "jichurpa_name": Name,
    "jichurpa_object": Object,
    "jichurpa_address": RawAddress,
    "jichurpa_outcome": RawOutcome,
    "jichurpa_datagram": RawDatagram,
    "jichurpa_qp_options": QpOptions,
    "jichurpa_terms": RawTerms,
    "jichurpa_request": RawRequest,
    "jichurpa_receive": RawReceive,
    "jichurpa_completion": RawCompletion,
    "jichurpa_end": RawEnd,
    "jichurpa_fault": RawFault,
    "jichurpa_device": DeviceHandle,
    "jichurpa_image": ImageHandle,
    "jichurpa_reader": ReaderHandle,
}

_DEVICE = POINTER(DeviceHandle)
_IMAGE = POINTER(ImageHandle)
_READER = POINTER(ReaderHandle)
_NAME = POINTER(Name)
_OBJECT = POINTER(Object)
_ADDRESS = POINTER(RawAddress)
_OUTCOME = POINTER(RawOutcome)
_END = POINTER(RawEnd)
_FAULT = POINTER(RawFault)
_U64 = POINTER(c_uint64)

# The arguments of each function but jichurpa_abi. Bytes that are only read are c_char_p, bytes that are written c_void_p.
PROTOTYPES: dict[str, list[type]] = {
    "jichurpa_device_make": [c_uint32, _ADDRESS, _DEVICE],
    "jichurpa_device_free": [_DEVICE],
    "jichurpa_device_id": [_DEVICE, POINTER(c_uint32)],
    "jichurpa_device_address": [_DEVICE, _ADDRESS],
    "jichurpa_make_context": [_DEVICE, _NAME, _OUTCOME],
    "jichurpa_make_domain": [_DEVICE, _OBJECT, _OUTCOME],
    "jichurpa_make_region": [_DEVICE, _OBJECT, _NAME, c_uint64, c_uint32, c_uint32, _OUTCOME],
    "jichurpa_make_cq": [_DEVICE, _OBJECT, c_uint32, _OUTCOME],
    "jichurpa_make_qp": [_DEVICE, _OBJECT, POINTER(QpOptions), _OUTCOME],
    "jichurpa_connect": [_DEVICE, _OBJECT, c_uint32, _ADDRESS, POINTER(RawTerms), _OUTCOME],
    "jichurpa_drop_region": [_DEVICE, _OBJECT, _OUTCOME],
    "jichurpa_store": [_DEVICE, _OBJECT, c_uint64, c_char_p, c_size_t, _OUTCOME],
    "jichurpa_load": [_DEVICE, _OBJECT, c_uint64, c_void_p, c_size_t, _OUTCOME],
    "jichurpa_post_send": [_DEVICE, _OBJECT, POINTER(RawRequest), _OUTCOME],
    "jichurpa_post_recv": [_DEVICE, _OBJECT, POINTER(RawReceive), _OUTCOME],
    "jichurpa_poll": [_DEVICE, _OBJECT, POINTER(RawCompletion), c_size_t, _OUTCOME],
    "jichurpa_transmit": [_DEVICE, _OBJECT, _OUTCOME],
    "jichurpa_arrive": [_DEVICE, _ADDRESS, c_char_p, c_size_t, _OUTCOME],
    "jichurpa_expire": [_DEVICE, _OBJECT, _OUTCOME],
    "jichurpa_rnr_over": [_DEVICE, _OBJECT, _OUTCOME],
    "jichurpa_stop": [_DEVICE, _NAME, c_uint32, _IMAGE, _OUTCOME],
    "jichurpa_restore": [_DEVICE, _IMAGE, _OUTCOME],
    "jichurpa_release": [_DEVICE, _NAME, _OUTCOME],
    "jichurpa_next_sent": [_DEVICE, POINTER(RawDatagram), c_void_p, c_size_t],
    "jichurpa_context_at": [_DEVICE, c_size_t, _NAME],
    "jichurpa_end_at": [_DEVICE, _NAME, c_size_t, _END],
    "jichurpa_end_named": [_DEVICE, _OBJECT, _END],
    "jichurpa_end_numbered": [_DEVICE, c_uint32, _END],
    "jichurpa_marks": [_DEVICE, c_uint32, _U64, _U64],
    "jichurpa_image_length": [_IMAGE, _U64],
    "jichurpa_image_read": [_IMAGE, c_uint64, c_void_p, c_size_t, _U64],
    "jichurpa_image_name": [_IMAGE, _NAME],
    "jichurpa_image_end": [_IMAGE, c_size_t, _END],
    "jichurpa_image_decode": [c_char_p, c_size_t, _IMAGE, _FAULT],
    "jichurpa_image_free": [_IMAGE],
    "jichurpa_reader_make": [_READER],
    "jichurpa_reader_feed": [_READER, c_char_p, c_size_t, _FAULT],
    "jichurpa_reader_finish": [_READER, _IMAGE, _FAULT],
    "jichurpa_reader_free": [_READER],
}


def path_of_library() -> str:
    """Where the library is: what JICHURPA_LIBRARY names, else beside this module, else where the system looks.

    Raises LibraryNotFound where it is in none of these places.
    """
    named = os.environ.get(VARIABLE)
    if named:
        return named
    beside = Path(__file__).resolve().parent / FILE
    if beside.exists():
        return str(beside)
    found = ctypes.util.find_library("jichurpa")
    if found is None:
        raise LibraryNotFound(f"{FILE} is not found: set {VARIABLE} to its path, or put it beside {__file__}")
    return found


def load(path: str) -> ctypes.CDLL:
    """The library of that path, with the types of its functions. Raises LibraryNotFound."""
    try:
        loaded = ctypes.CDLL(path)
        loaded.jichurpa_abi.argtypes = []
        loaded.jichurpa_abi.restype = c_uint32
        for name, arguments in PROTOTYPES.items():
            function = getattr(loaded, name)
            function.argtypes = arguments
            function.restype = c_uint32
    except (OSError, AttributeError) as fault:
        raise LibraryNotFound(f"{path} cannot be used: {fault}") from fault
    version = loaded.jichurpa_abi()
    if version != ABI:
        raise LibraryNotFound(f"{path} has version {version} of the interface, and this module needs {ABI}")
    return loaded


@functools.lru_cache(maxsize=None)
def library() -> ctypes.CDLL:
    """The library, loaded at the first call. Raises LibraryNotFound."""
    return load(path_of_library())
