//! The C interface, as `jichurpa.h` declares it. The tests below compare both.

use std::ffi::c_void;

/// The version of the interface that this file was written against: `JICHURPA_ABI`.
pub const ABI: u32 = 1;

pub const NAME_BYTES: usize = 16;
pub const MAX_DATAGRAM: usize = 4132;
pub const MAX_CAPACITY: usize = 16384;

/// Declares constants, and a list of them for the tests.
macro_rules! constants {
    ($($name:ident = $number:literal,)*) => {
        $(pub const $name: u32 = $number;)*

        #[cfg(test)]
        pub(crate) const NUMBERS: &[(&str, u32)] = &[$((stringify!($name), $number),)*];
    };
}

/// `jichurpa_result`.
pub type Code = u32;

/// The results that a call may have.
pub mod result {
    constants! {
        OK = 0,
        NO_MEMORY = 1,
        INVALID = 2,
        BAD_DUMP = 3,
        NONE = 4,
        TOO_SMALL = 5,
    }
}

pub use result::{BAD_DUMP, INVALID, NO_MEMORY, NONE, OK, TOO_SMALL};

/// `jichurpa_answer`.
pub mod answer {
    constants! {
        DONE = 1,
        STOPPED = 2,
        REGION = 3,
        QP = 4,
        BYTES = 5,
        POLLED = 6,
        SENT = 7,
        IDLE = 8,
        WINDOW_FULL = 9,
        READS_FULL = 10,
        FENCED = 11,
        WAITING = 12,
        TOOK = 13,
        EXPIRED = 14,
        SPENT = 15,
        NOT_COUNTED = 16,
        OVER = 17,
        NOT_WAITING = 18,
        REFUSED = 19,
    }
}

#[repr(C)]
#[derive(Clone, Copy, Default, Debug, PartialEq, Eq, PartialOrd, Ord, Hash)]
pub struct Name {
    pub bytes: [u8; NAME_BYTES],
}

#[repr(C)]
#[derive(Clone, Copy, Default, Debug, PartialEq, Eq, PartialOrd, Ord, Hash)]
pub struct Object {
    pub context: Name,
    pub name: Name,
}

#[repr(C)]
#[derive(Clone, Copy, Default, Debug, PartialEq, Eq)]
pub struct Address {
    pub ip: u32,
    pub port: u16,
    pub reserved: u16,
}

#[repr(C)]
#[derive(Clone, Copy, Default, Debug)]
pub struct Outcome {
    pub answer: u32,
    pub cause: u32,
    pub detail: u32,
    pub number: u32,
    pub local_key: u32,
    pub remote_key: u32,
    pub count: u64,
    pub sent: u64,
}

#[repr(C)]
#[derive(Clone, Copy, Default, Debug)]
pub struct Datagram {
    pub to: Address,
    pub number: u64,
    pub length: u64,
    pub has_number: u32,
    pub reserved: u32,
}

#[repr(C)]
#[derive(Clone, Copy, Default, Debug)]
pub struct QpOptions {
    pub domain: Name,
    pub send_cq: Name,
    pub recv_cq: Name,
    pub send_depth: u32,
    pub recv_depth: u32,
}

#[repr(C)]
#[derive(Clone, Copy, Default, Debug)]
pub struct Terms {
    pub mtu: u32,
    pub own_start: u32,
    pub peer_start: u32,
    pub retry: u8,
    pub rnr: u8,
    pub reads: u8,
    pub reserved: u8,
}

#[repr(C)]
#[derive(Clone, Copy, Default, Debug, PartialEq, Eq)]
pub struct Request {
    pub id: u64,
    pub local: u64,
    pub remote: u64,
    pub swap_add: u64,
    pub compare: u64,
    pub kind: u32,
    pub length: u32,
    pub local_key: u32,
    pub remote_key: u32,
    pub imm: u32,
    pub flags: u32,
}

#[repr(C)]
#[derive(Clone, Copy, Default, Debug)]
pub struct Receive {
    pub id: u64,
    pub local: u64,
    pub local_key: u32,
    pub length: u32,
}

#[repr(C)]
#[derive(Clone, Copy, Default, Debug)]
pub struct Completion {
    pub id: u64,
    pub qp: u32,
    pub kind: u32,
    pub status: u32,
    pub length: u32,
    pub imm: u32,
    pub flags: u32,
}

#[repr(C)]
#[derive(Clone, Copy, Default, Debug)]
pub struct End {
    pub name: Object,
    pub una: u64,
    pub next: u64,
    pub last: u64,
    pub number: u32,
    pub peer: u32,
    pub state: u32,
    pub untold: u32,
    pub moves: u32,
    pub rnr: u32,
    pub rnr_wait: u32,
    pub may_send: u32,
    pub in_flight: u32,
    pub reserved: u32,
}

#[repr(C)]
#[derive(Clone, Copy, Default, Debug)]
pub struct Fault {
    pub place: u64,
    pub why: u32,
    pub reserved: u32,
}

/// Declares a handle, which begins as one that holds nothing.
macro_rules! handle {
    ($name:ident) => {
        #[repr(C)]
        #[derive(Debug)]
        pub struct $name {
            pub at: *mut c_void,
            pub there: u64,
        }

        impl $name {
            /// `JICHURPA_NOTHING`.
            pub const NOTHING: $name = $name { at: std::ptr::null_mut(), there: 0 };
        }
    };
}

handle!(Device);
handle!(Image);
handle!(Reader);

unsafe extern "C" {
    pub fn jichurpa_abi() -> u32;

    pub fn jichurpa_device_make(id: u32, address: *const Address, device: *mut Device) -> Code;
    pub fn jichurpa_device_free(device: *mut Device) -> Code;
    pub fn jichurpa_device_id(device: *mut Device, id: *mut u32) -> Code;
    pub fn jichurpa_device_address(device: *mut Device, address: *mut Address) -> Code;

    pub fn jichurpa_make_context(device: *mut Device, context: *const Name, outcome: *mut Outcome) -> Code;
    pub fn jichurpa_make_domain(device: *mut Device, domain: *const Object, outcome: *mut Outcome) -> Code;
    pub fn jichurpa_make_region(
        device: *mut Device,
        region: *const Object,
        domain: *const Name,
        base: u64,
        length: u32,
        rights: u32,
        outcome: *mut Outcome,
    ) -> Code;
    pub fn jichurpa_make_cq(
        device: *mut Device,
        cq: *const Object,
        capacity: u32,
        outcome: *mut Outcome,
    ) -> Code;
    pub fn jichurpa_make_qp(
        device: *mut Device,
        qp: *const Object,
        options: *const QpOptions,
        outcome: *mut Outcome,
    ) -> Code;
    pub fn jichurpa_connect(
        device: *mut Device,
        qp: *const Object,
        peer: u32,
        partner: *const Address,
        terms: *const Terms,
        outcome: *mut Outcome,
    ) -> Code;
    pub fn jichurpa_drop_region(device: *mut Device, region: *const Object, outcome: *mut Outcome) -> Code;
    pub fn jichurpa_store(
        device: *mut Device,
        region: *const Object,
        at: u64,
        bytes: *const u8,
        count: usize,
        outcome: *mut Outcome,
    ) -> Code;
    pub fn jichurpa_load(
        device: *mut Device,
        region: *const Object,
        at: u64,
        bytes: *mut u8,
        count: usize,
        outcome: *mut Outcome,
    ) -> Code;
    pub fn jichurpa_post_send(
        device: *mut Device,
        qp: *const Object,
        request: *const Request,
        outcome: *mut Outcome,
    ) -> Code;
    pub fn jichurpa_post_recv(
        device: *mut Device,
        qp: *const Object,
        receive: *const Receive,
        outcome: *mut Outcome,
    ) -> Code;
    pub fn jichurpa_poll(
        device: *mut Device,
        cq: *const Object,
        completions: *mut Completion,
        room: usize,
        outcome: *mut Outcome,
    ) -> Code;
    pub fn jichurpa_transmit(device: *mut Device, qp: *const Object, outcome: *mut Outcome) -> Code;
    pub fn jichurpa_arrive(
        device: *mut Device,
        from: *const Address,
        bytes: *const u8,
        count: usize,
        outcome: *mut Outcome,
    ) -> Code;
    pub fn jichurpa_expire(device: *mut Device, qp: *const Object, outcome: *mut Outcome) -> Code;
    pub fn jichurpa_rnr_over(device: *mut Device, qp: *const Object, outcome: *mut Outcome) -> Code;
    pub fn jichurpa_stop(
        device: *mut Device,
        context: *const Name,
        alone: u32,
        image: *mut Image,
        outcome: *mut Outcome,
    ) -> Code;
    pub fn jichurpa_restore(device: *mut Device, image: *mut Image, outcome: *mut Outcome) -> Code;
    pub fn jichurpa_release(device: *mut Device, context: *const Name, outcome: *mut Outcome) -> Code;

    pub fn jichurpa_next_sent(
        device: *mut Device,
        datagram: *mut Datagram,
        bytes: *mut u8,
        room: usize,
    ) -> Code;

    pub fn jichurpa_context_at(device: *mut Device, i: usize, context: *mut Name) -> Code;
    pub fn jichurpa_end_at(device: *mut Device, context: *const Name, i: usize, end: *mut End) -> Code;
    pub fn jichurpa_end_named(device: *mut Device, qp: *const Object, end: *mut End) -> Code;
    pub fn jichurpa_end_numbered(device: *mut Device, number: u32, end: *mut End) -> Code;
    pub fn jichurpa_marks(device: *mut Device, number: u32, expected: *mut u64, top: *mut u64) -> Code;

    pub fn jichurpa_image_length(image: *mut Image, length: *mut u64) -> Code;
    pub fn jichurpa_image_read(
        image: *mut Image,
        place: u64,
        bytes: *mut u8,
        room: usize,
        count: *mut u64,
    ) -> Code;
    pub fn jichurpa_image_name(image: *mut Image, context: *mut Name) -> Code;
    pub fn jichurpa_image_end(image: *mut Image, i: usize, end: *mut End) -> Code;
    pub fn jichurpa_image_decode(
        bytes: *const u8,
        count: usize,
        image: *mut Image,
        fault: *mut Fault,
    ) -> Code;
    pub fn jichurpa_image_free(image: *mut Image) -> Code;

    pub fn jichurpa_reader_make(reader: *mut Reader) -> Code;
    pub fn jichurpa_reader_feed(
        reader: *mut Reader,
        bytes: *const u8,
        count: usize,
        fault: *mut Fault,
    ) -> Code;
    pub fn jichurpa_reader_finish(reader: *mut Reader, image: *mut Image, fault: *mut Fault) -> Code;
    pub fn jichurpa_reader_free(reader: *mut Reader) -> Code;
}

#[cfg(test)]
#[path = "ffi_tests.rs"]
mod tests;
