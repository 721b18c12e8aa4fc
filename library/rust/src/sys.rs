//! The declarations of `mold.h` that this crate uses, and the layout that the library was compiled for.
//!
//! `mold.h` states what each call does, and the duties of the caller. A comment `SAFETY` in this crate states only
//! what a reference does not already guarantee. References are valid, aligned and initialized for the length that goes
//! with them, which is below 2^63. A reference that a call writes through overlaps no other reference.

use std::mem::{offset_of, size_of};
use std::os::raw::c_void;

/// A handle of any kind: the library has five types of this layout.
#[repr(C)]
pub(crate) struct Handle {
    pub at: *mut c_void,
    pub live: bool,
}

#[repr(C)]
pub(crate) struct Bytes {
    pub at: *const u8,
    pub length: usize,
}

#[repr(C)]
#[derive(Default)]
pub(crate) struct Packet {
    pub sequence: u64,
    pub detail: u64,
    pub kind: u32,
    pub count: u16,
    pub session: [u8; 10],
}

#[repr(C)]
#[derive(Default)]
pub(crate) struct Request {
    pub sequence: u64,
    pub count: u16,
    pub session: [u8; 10],
}

#[repr(C)]
pub(crate) struct Packer {
    pub buffer: *mut u8,
    pub limit: usize,
    pub used: usize,
    pub count: u16,
    pub open: bool,
}

#[repr(C)]
#[derive(Clone, Copy, Default)]
pub(crate) struct Range {
    pub first: u64,
    pub last: u64,
}

#[repr(C)]
#[derive(Default)]
pub(crate) struct Taken {
    pub detail: u64,
    pub delivered: u32,
    pub kept: u32,
    pub dropped: u32,
    pub unused: u32,
}

#[repr(C)]
#[derive(Default)]
pub(crate) struct Delivery {
    pub detail: u64,
    pub offset: usize,
    pub own: u32,
    pub stored: u32,
    pub kept: u32,
    pub dropped: u32,
}

#[repr(C)]
#[derive(Default)]
pub(crate) struct Report {
    pub datagrams: u64,
    pub refused: u64,
    pub front: u64,
}

#[repr(C)]
#[derive(Default)]
pub(crate) struct RepairOptions {
    pub size: u64,
    pub next: u64,
    pub patience: u64,
    pub timeout: u64,
    pub ceiling: u64,
    pub settle: u64,
    pub interval: u64,
    pub window: u32,
    pub bucket: u32,
    pub places: u32,
    pub servers: u32,
    pub give_up: u32,
    pub audit: u32,
    pub store: u64,
}

#[repr(C)]
#[derive(Default)]
pub(crate) struct LineStats {
    pub datagrams: u64,
    pub first: u64,
    pub again: u64,
    pub refused: u64,
    pub late: u64,
}

#[repr(C)]
#[derive(Default)]
pub(crate) struct RepairStats {
    pub next: u64,
    pub known: u64,
    pub gap_first: u64,
    pub gap_last: u64,
    pub missing: u64,
    pub stored: u64,
    pub patience: u64,
    pub requests: u64,
    pub answers: u64,
    pub useless: u64,
    pub lost: u64,
    pub contradictions: u64,
    pub contradiction: u64,
    pub a: LineStats,
    pub b: LineStats,
}

#[repr(C)]
#[derive(Clone, Debug, Default)]
pub(crate) struct Plan {
    pub from: u64,
    pub to: u64,
    pub left: u16,
    pub session: [u8; 10],
}

#[repr(C)]
#[derive(Default)]
pub(crate) struct Verdict {
    pub messages: u64,
    pub end: u64,
    pub ranges: u64,
    pub whole: u32,
    pub unused: u32,
}

extern "C" {
    pub(crate) fn mold_library_version() -> u32;
    pub(crate) fn mold_terminated_text(code: u32, text: *mut Bytes);
    pub(crate) fn mold_free(handle: *mut c_void);

    pub(crate) fn mold_decode(bytes: *const u8, length: usize, packet: *mut Packet) -> u32;
    pub(crate) fn mold_request_decode(bytes: *const u8, length: usize, request: *mut Request) -> u32;
    pub(crate) fn mold_request_encode(request: *const Request, bytes: *mut [u8; 20]);
    pub(crate) fn mold_packer_start(packer: *mut Packer, session: *const [u8; 10], sequence: u64) -> u32;
    pub(crate) fn mold_packer_fits(packer: *const Packer, length: usize) -> bool;
    pub(crate) fn mold_packer_add(packer: *mut Packer, message: *const u8, length: usize) -> u32;
    pub(crate) fn mold_packer_end(packer: *mut Packer, session: *const [u8; 10], sequence: u64) -> u32;

    pub(crate) fn mold_listener_new(listener: *mut Handle, session: *const [u8; 10], next: u64, window: u32) -> u32;
    pub(crate) fn mold_listener_bounded(
        listener: *mut Handle,
        session: *const [u8; 10],
        next: u64,
        window: u32,
        store: u64,
    ) -> u32;
    pub(crate) fn mold_listener_take(
        listener: *mut Handle,
        line: u32,
        bytes: *const u8,
        length: usize,
        taken: *mut Taken,
    ) -> u32;
    pub(crate) fn mold_listener_hear(
        listener: *mut Handle,
        line: u32,
        bytes: *const u8,
        length: usize,
        delivery: *mut Delivery,
    ) -> u32;
    pub(crate) fn mold_listener_count(listener: *const Handle) -> usize;
    pub(crate) fn mold_listener_first(listener: *const Handle) -> u64;
    pub(crate) fn mold_listener_message(listener: *const Handle, i: usize, message: *mut Bytes) -> u32;
    pub(crate) fn mold_listener_wanted(listener: *const Handle, request: *mut [u8; 20]) -> bool;
    pub(crate) fn mold_listener_ranges(listener: *const Handle, from: u64, ranges: *mut Range, room: usize) -> usize;
    pub(crate) fn mold_listener_skip(listener: *mut Handle, to: u64) -> u32;
    pub(crate) fn mold_listener_next(listener: *const Handle) -> u64;
    pub(crate) fn mold_listener_known(listener: *const Handle) -> u64;
    pub(crate) fn mold_listener_finished(listener: *const Handle) -> bool;
    pub(crate) fn mold_listener_report(listener: *const Handle, line: u32, report: *mut Report) -> u32;
    pub(crate) fn mold_listener_clear(listener: *mut Handle) -> u32;

    pub(crate) fn mold_repair_options_default(options: *mut RepairOptions);
    pub(crate) fn mold_repairer_new(
        repairer: *mut Handle,
        session: *const [u8; 10],
        options: *const RepairOptions,
    ) -> u32;
    pub(crate) fn mold_repairer_take(
        repairer: *mut Handle,
        now: u64,
        origin: u32,
        bytes: *const u8,
        length: usize,
        taken: *mut Taken,
    ) -> u32;
    pub(crate) fn mold_repairer_poll(repairer: *mut Handle, now: u64, request: *mut [u8; 20], server: *mut u32) -> u32;
    pub(crate) fn mold_repairer_deadline(repairer: *mut Handle, now: u64, deadline: *mut u64) -> u32;
    pub(crate) fn mold_repairer_lost(repairer: *mut Handle, now: u64, lost: *mut Range) -> u32;
    pub(crate) fn mold_repairer_stats(repairer: *const Handle, stats: *mut RepairStats) -> u32;

    pub(crate) fn mold_publisher_new(publisher: *mut Handle, session: *const [u8; 10], limit: usize) -> u32;
    pub(crate) fn mold_publisher_publish(
        publisher: *mut Handle,
        message: *const u8,
        length: usize,
        number: *mut u64,
    ) -> u32;
    pub(crate) fn mold_publisher_is_full(publisher: *const Handle) -> bool;
    pub(crate) fn mold_publisher_datagram(
        publisher: *mut Handle,
        buffer: *mut u8,
        room: usize,
        size: *mut usize,
    ) -> u32;
    pub(crate) fn mold_publisher_heartbeat(
        publisher: *const Handle,
        buffer: *mut u8,
        room: usize,
        size: *mut usize,
    ) -> u32;
    pub(crate) fn mold_publisher_close(publisher: *mut Handle, number: *mut u64) -> u32;
    pub(crate) fn mold_publisher_end(publisher: *const Handle, buffer: *mut u8, room: usize, size: *mut usize) -> u32;
    pub(crate) fn mold_publisher_save(publisher: *const Handle, buffer: *mut u8, room: usize, size: *mut usize) -> u32;
    pub(crate) fn mold_journal_head(publisher: *const Handle, buffer: *mut u8, room: usize, size: *mut usize) -> u32;
    pub(crate) fn mold_journal_records(
        publisher: *const Handle,
        from: u64,
        buffer: *mut u8,
        room: usize,
        size: *mut usize,
    ) -> u32;
    pub(crate) fn mold_publisher_resume(
        publisher: *mut Handle,
        limit: usize,
        journal: *const u8,
        length: usize,
        number: *mut u64,
    ) -> u32;

    pub(crate) fn mold_server_from_publisher(publisher: *mut Handle, burst: u16) -> u32;
    pub(crate) fn mold_server_new(
        server: *mut Handle,
        limit: usize,
        burst: u16,
        journal: *const u8,
        length: usize,
        number: *mut u64,
    ) -> u32;
    pub(crate) fn mold_server_answer(
        server: *const Handle,
        request: *const u8,
        length: usize,
        buffer: *mut u8,
        room: usize,
        number: *mut u64,
    ) -> u32;
    pub(crate) fn mold_server_plan(
        server: *const Handle,
        request: *const u8,
        length: usize,
        plan: *mut Plan,
        number: *mut u64,
    ) -> u32;
    pub(crate) fn mold_server_datagram(
        server: *const Handle,
        plan: *mut Plan,
        buffer: *mut u8,
        room: usize,
        size: *mut usize,
    ) -> u32;

    pub(crate) fn mold_checker_new(checker: *mut Handle) -> u32;
    pub(crate) fn mold_checker_take(checker: *mut Handle, bytes: *const u8, length: usize, number: *mut u64) -> u32;
    pub(crate) fn mold_checker_verdict(checker: *const Handle, verdict: *mut Verdict) -> u32;
    pub(crate) fn mold_checker_ranges(
        checker: *const Handle,
        ranges: *mut Range,
        room: usize,
        count: *mut usize,
    ) -> u32;
}

/// Asserts the size of a struct and the offsets of its fields, as `mold.h` does.
macro_rules! assert_layout {
    ($type:ty, $size:literal, $($field:ident $offset:literal),+) => {
        const _: () = assert!(size_of::<$type>() == $size $(&& offset_of!($type, $field) == $offset)+);
    };
}

const _: () = assert!(size_of::<usize>() == 8 && size_of::<*const u8>() == 8 && size_of::<bool>() == 1);
assert_layout!(Handle, 16, at 0, live 8);
assert_layout!(Bytes, 16, at 0, length 8);
assert_layout!(Packet, 32, sequence 0, detail 8, kind 16, count 20, session 22);
assert_layout!(Request, 24, sequence 0, count 8, session 10);
assert_layout!(Packer, 32, buffer 0, limit 8, used 16, count 24, open 26);
assert_layout!(Range, 16, first 0, last 8);
assert_layout!(Taken, 24, detail 0, delivered 8, kept 12, dropped 16, unused 20);
assert_layout!(Delivery, 32, detail 0, offset 8, own 16, stored 20, kept 24, dropped 28);
assert_layout!(Report, 24, datagrams 0, refused 8, front 16);
assert_layout!(RepairOptions, 88, size 0, next 8, patience 16, timeout 24, ceiling 32, settle 40, interval 48);
assert_layout!(RepairOptions, 88, window 56, bucket 60, places 64, servers 68, give_up 72, audit 76, store 80);
assert_layout!(LineStats, 40, datagrams 0, first 8, again 16, refused 24, late 32);
assert_layout!(RepairStats, 184, next 0, known 8, gap_first 16, gap_last 24, missing 32, stored 40, patience 48);
assert_layout!(RepairStats, 184, requests 56, answers 64, useless 72, lost 80, contradictions 88, contradiction 96);
assert_layout!(RepairStats, 184, a 104, b 144);
assert_layout!(Plan, 32, from 0, to 8, left 16, session 18);
assert_layout!(Verdict, 32, messages 0, end 8, ranges 16, whole 24, unused 28);
