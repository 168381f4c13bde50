//! The library's entries, structs and numbers as include/m2ua.h has them, with that file's names without
//! `m2ua_` and `M2UA_`. tools/check/header-check compares them with the proved sources. The one module with
//! `unsafe`: each call lends whole slices, and the entries promise an answer to every value.
#![allow(unsafe_code)]
use std::mem::{offset_of, size_of};

pub const ABI: u32 = 5;

// Limits.
pub const MAX_ASPS: usize = 16;
pub const MAX_ASES: usize = 16;
pub const MAX_LINKS: usize = 128;
pub const PAIRS: usize = 256;
pub const MAX_MESSAGE: usize = 2048;
pub const MAX_DATA: usize = 273;
pub const MAX_PLAN: usize = 1240;
pub const ORDER_WORDS: usize = 4;
pub const MAX_ORDERS: usize = 386;
pub const LIST_WORDS: usize = 1544;
pub const HELD_MOST: usize = 8;
pub const UNITS: usize = 128;
pub const HOLD_PLACE: usize = 273;
pub const HOLD_BYTES: usize = 34944;
pub const ROOM_BYTES: usize = 790528;
pub const STACK: usize = 32768;

// The largest sequence number (0x307): of a high-speed link, which is the largest that reads, and of a plain
// one (Rule 5.23).
pub const MAX_SEQUENCE: u32 = 4095;
pub const MAX_SEQUENCE_PLAIN: u32 = 127;

// Where messages come from: SCTP port and payload protocol identifier of M2UA.
pub const PORT: u16 = 2904;
pub const PPID: u32 = 2;

// The addressee of an order that is not an ASP.
pub const LINK_SIDE: u32 = 255;

// Refusals (Rule 6.7). Those of the reader and the writer are the Error codes below.
pub const OK: u32 = 0;
pub const REFUSED_LIST: u32 = 101;
pub const REFUSED_PLACE: u32 = 102;
pub const REFUSED_BUFFER: u32 = 103;
pub const REFUSED_ORDER: u32 = 104;
pub const REFUSED_STATE: u32 = 105;
pub const REFUSED_HOLD: u32 = 106;
pub const REFUSED_LAYOUT: u32 = 201;
pub const REFUSED_ROW: u32 = 202;

// Error codes (RFC 3331, 3.3.3.1): the reader's verdicts (Rule 2.9), and the value of an Error order
// (Rule 8.4). The gateway gives those with a star.
pub const ERROR_INVALID_VERSION: u32 = 1;
pub const ERROR_INVALID_INTERFACE_ID: u32 = 2;
pub const ERROR_UNSUPPORTED_CLASS: u32 = 3;
pub const ERROR_UNSUPPORTED_TYPE: u32 = 4;
pub const ERROR_UNSUPPORTED_MODE: u32 = 5;
pub const ERROR_UNEXPECTED_MESSAGE: u32 = 6;
pub const ERROR_PROTOCOL: u32 = 7;
pub const ERROR_UNSUPPORTED_ID_TYPE: u32 = 8;
pub const ERROR_INVALID_STREAM: u32 = 9;
pub const ERROR_MANAGEMENT_BLOCKING: u32 = 13;
pub const ERROR_ASP_ID_REQUIRED: u32 = 14;
pub const ERROR_INVALID_ASP_ID: u32 = 15;
pub const ERROR_ASP_ACTIVE_FOR_ID: u32 = 16;
pub const ERROR_INVALID_VALUE: u32 = 17;
pub const ERROR_PARAMETER_FIELD: u32 = 18;
pub const ERROR_UNEXPECTED_PARAMETER: u32 = 19;
pub const ERROR_MISSING_PARAMETER: u32 = 22;

// Message classes.
pub const CLASS_MGMT: u8 = 0;
pub const CLASS_ASPSM: u8 = 3;
pub const CLASS_ASPTM: u8 = 4;
pub const CLASS_MAUP: u8 = 6;

// Message types, class by class (Rule 2.10).
pub const TYPE_ERROR: u8 = 0;
pub const TYPE_NOTIFY: u8 = 1;
pub const TYPE_UP: u8 = 1;
pub const TYPE_DOWN: u8 = 2;
pub const TYPE_BEAT: u8 = 3;
pub const TYPE_UP_ACK: u8 = 4;
pub const TYPE_DOWN_ACK: u8 = 5;
pub const TYPE_BEAT_ACK: u8 = 6;
pub const TYPE_ACTIVE: u8 = 1;
pub const TYPE_INACTIVE: u8 = 2;
pub const TYPE_ACTIVE_ACK: u8 = 3;
pub const TYPE_INACTIVE_ACK: u8 = 4;
pub const TYPE_DATA: u8 = 1;
pub const TYPE_ESTABLISH_REQUEST: u8 = 2;
pub const TYPE_ESTABLISH_CONFIRM: u8 = 3;
pub const TYPE_RELEASE_REQUEST: u8 = 4;
pub const TYPE_RELEASE_CONFIRM: u8 = 5;
pub const TYPE_RELEASE_INDICATION: u8 = 6;
pub const TYPE_STATE_REQUEST: u8 = 7;
pub const TYPE_STATE_CONFIRM: u8 = 8;
pub const TYPE_STATE_INDICATION: u8 = 9;
pub const TYPE_RETRIEVAL_REQUEST: u8 = 10;
pub const TYPE_RETRIEVAL_CONFIRM: u8 = 11;
pub const TYPE_RETRIEVAL_INDICATION: u8 = 12;
pub const TYPE_RETRIEVAL_COMPLETE: u8 = 13;
pub const TYPE_CONGESTION_INDICATION: u8 = 14;
pub const TYPE_DATA_ACK: u8 = 15;

// The second word of an order (Rule 8.1): class * 256 + type. Orders to ASPs, orders to the link side, or
// both.
pub const ORDER_ERROR: u32 = 0;
pub const ORDER_NOTIFY: u32 = 1;
pub const ORDER_UP_ACK: u32 = 772;
pub const ORDER_DOWN_ACK: u32 = 773;
pub const ORDER_BEAT_ACK: u32 = 774;
pub const ORDER_ACTIVE_ACK: u32 = 1027;
pub const ORDER_INACTIVE_ACK: u32 = 1028;
pub const ORDER_DATA: u32 = 1537;
pub const ORDER_ESTABLISH_REQUEST: u32 = 1538;
pub const ORDER_ESTABLISH_CONFIRM: u32 = 1539;
pub const ORDER_RELEASE_REQUEST: u32 = 1540;
pub const ORDER_RELEASE_CONFIRM: u32 = 1541;
pub const ORDER_RELEASE_INDICATION: u32 = 1542;
pub const ORDER_STATE_REQUEST: u32 = 1543;
pub const ORDER_STATE_CONFIRM: u32 = 1544;
pub const ORDER_STATE_INDICATION: u32 = 1545;
pub const ORDER_RETRIEVAL_REQUEST: u32 = 1546;
pub const ORDER_RETRIEVAL_CONFIRM: u32 = 1547;
pub const ORDER_RETRIEVAL_INDICATION: u32 = 1548;
pub const ORDER_RETRIEVAL_COMPLETE: u32 = 1549;
pub const ORDER_CONGESTION_INDICATION: u32 = 1550;
pub const ORDER_DATA_ACK: u32 = 1551;

// The value of a Notify order (Rule 8.5): status type * 65536 + status information.
pub const STATUS_AS_INACTIVE: u32 = 65538;
pub const STATUS_AS_ACTIVE: u32 = 65539;
pub const STATUS_AS_PENDING: u32 = 65540;
pub const STATUS_OTHER_ACTIVE: u32 = 131074;

// Parameter tags (Rules 2.10, 2.15, 2.16).
pub const TAG_INTERFACE_ID: u16 = 0x1;
pub const TAG_TEXT_ID: u16 = 0x3;
pub const TAG_INFO: u16 = 0x4;
pub const TAG_DIAGNOSTIC: u16 = 0x7;
pub const TAG_INTERFACE_ID_RANGE: u16 = 0x8;
pub const TAG_HEARTBEAT: u16 = 0x9;
pub const TAG_TRAFFIC_MODE: u16 = 0xb;
pub const TAG_ERROR_CODE: u16 = 0xc;
pub const TAG_STATUS: u16 = 0xd;
pub const TAG_ASP_ID: u16 = 0x11;
pub const TAG_CORRELATION_ID: u16 = 0x13;
pub const TAG_DATA_1: u16 = 0x300;
pub const TAG_DATA_2: u16 = 0x301;
pub const TAG_STATE: u16 = 0x302;
pub const TAG_STATE_EVENT: u16 = 0x303;
pub const TAG_CONGESTION: u16 = 0x304;
pub const TAG_DISCARD: u16 = 0x305;
pub const TAG_RETRIEVAL_ACTION: u16 = 0x306;
pub const TAG_SEQUENCE: u16 = 0x307;
pub const TAG_RETRIEVAL_RESULT: u16 = 0x308;

// State of an AS (Rule 5.2): active if a member is active; else pending while it waits; else inactive if a
// member is up; else down.
pub const AS_DOWN: u32 = 0;
pub const AS_INACTIVE: u32 = 2;
pub const AS_ACTIVE: u32 = 3;
pub const AS_PENDING: u32 = 4;

// State of a link (Rule 5.1).
pub const LINK_IDLE: u32 = 0;
pub const LINK_STARTING: u32 = 1;
pub const LINK_IN_SERVICE: u32 = 2;
pub const LINK_STOPPING: u32 = 3;

// Traffic modes.
pub const MODE_OVERRIDE: u32 = 1;
pub const MODE_LOADSHARE: u32 = 2;
pub const MODE_BROADCAST: u32 = 3;

// Values of 0x302, 0x303 and 0x306 (RFC 3331, 3.3.1.5 to 3.3.1.9).
pub const STATE_LPO_SET: u32 = 0;
pub const STATE_LPO_CLEAR: u32 = 1;
pub const STATE_EMERGENCY_SET: u32 = 2;
pub const STATE_EMERGENCY_CLEAR: u32 = 3;
pub const STATE_FLUSH_BUFFERS: u32 = 4;
pub const STATE_CONTINUE: u32 = 5;
pub const STATE_CLEAR_RTB: u32 = 6;
pub const STATE_AUDIT: u32 = 7;
pub const STATE_CONGESTION_CLEAR: u32 = 8;
pub const STATE_CONGESTION_ACCEPT: u32 = 9;
pub const STATE_CONGESTION_DISCARD: u32 = 10;
pub const EVENT_RPO_ENTER: u32 = 1;
pub const EVENT_RPO_EXIT: u32 = 2;
pub const EVENT_LPO_ENTER: u32 = 3;
pub const EVENT_LPO_EXIT: u32 = 4;
pub const RETRIEVE_BSN: u32 = 1;
pub const RETRIEVE_MESSAGES: u32 = 2;

// The kinds of event (Rule 6.1), and what `index` names.
pub const MESSAGE: u32 = 0;
pub const LOST: u32 = 1;
pub const RECOVERY: u32 = 2;
pub const LINK_UP: u32 = 3;
pub const LINK_DOWN: u32 = 4;
pub const LINK_MESSAGE: u32 = 5;

/// What reading a message gives (Rule 2.18).
#[repr(C)]
#[derive(Clone, Copy, Debug, PartialEq, Eq)]
pub struct Reading {
    pub code: u32,
    pub class: u32,
    pub msgtype: u32,
    pub ids: u32,
    pub id: u32,
    pub mode: u32,
    pub identified: u32,
    pub aspid: u32,
    pub correlated: u32,
    pub correlation: u32,
    pub state: u32,
    pub retrieval: u32,
    pub sequenced: u32,
    pub sequence: u32,
}

/// What a write did (Rule 3.5).
#[repr(C)]
#[derive(Clone, Copy, Debug, PartialEq, Eq)]
pub struct Written {
    pub code: u32,
    pub length: usize,
}

/// The units held for ASes that wait (Rule 5.21).
#[repr(C)]
#[derive(Clone, Copy, Debug, PartialEq, Eq)]
pub struct Units {
    pub count: [u8; 16],
    pub tag: [u16; 128],
    pub length: [u16; 128],
    pub marked: [u16; 128],
    pub id: [u32; 128],
    pub correlation: [u32; 128],
}

/// The gateway's state (Rule 5.1).
#[repr(C)]
#[derive(Clone, Copy, Debug, PartialEq, Eq)]
pub struct Gateway {
    pub asps: u8,
    pub ases: u8,
    pub links: u8,
    pub spare: u8,
    pub aspid: [u32; 16],
    pub up: [u8; 16],
    pub member: [u8; 256],
    pub active: [u8; 256],
    pub mode: [u8; 16],
    pub waiting: [u8; 16],
    pub iid: [u32; 128],
    pub owner: [u8; 128],
    pub state: [u8; 128],
    pub highspeed: [u8; 128],
    pub wholelists: [u8; 16],
    pub held: Units,
}

/// What loading a plan gives (Rules 4.6, 4.7).
#[repr(C)]
#[derive(Clone, Copy, Debug, PartialEq, Eq)]
pub struct Loaded {
    pub code: u32,
    pub gateway: Gateway,
}

/// What an event hands back beside the state (Rule 6.2).
#[repr(C)]
#[derive(Clone, Copy, Debug, PartialEq, Eq)]
pub struct Done {
    pub refusal: u32,
    pub count: usize,
}

/// What an event with all its messages hands back beside the state (Rule 8.19).
#[repr(C)]
#[derive(Clone, Copy, Debug, PartialEq, Eq)]
pub struct Handled {
    pub refusal: u32,
    pub count: usize,
    pub length: usize,
}

/// What writing several orders did (Rule 8.16).
#[repr(C)]
#[derive(Clone, Copy, Debug, PartialEq, Eq)]
pub struct Batch {
    pub code: u32,
    pub count: usize,
    pub length: usize,
}

/// Where the protocol data of a message lies (Rule 1.7).
#[repr(C)]
#[derive(Clone, Copy, Debug, PartialEq, Eq)]
pub struct DataAt {
    pub start: usize,
    pub length: usize,
}

/// Where a parameter's value lies (Rule 1.8).
#[repr(C)]
#[derive(Clone, Copy, Debug, PartialEq, Eq)]
pub struct ParamAt {
    pub found: u32,
    pub start: usize,
    pub length: usize,
}

/// What a question about a state answers (Rules 5.17, 5.18).
#[repr(C)]
#[derive(Clone, Copy, Debug, PartialEq, Eq)]
pub struct Answer {
    pub code: u32,
    pub value: u32,
}

/// The recovery times to start and to stop (Rule 5.19).
#[repr(C)]
#[derive(Clone, Copy, Debug, PartialEq, Eq)]
pub struct Waits {
    pub began: [u8; 16],
    pub ended: [u8; 16],
}

extern "C" {
    pub fn m2ua_abi() -> u32;
    pub fn m2ua_data(msg: *const u8, len: usize) -> DataAt;
    pub fn m2ua_parameter(msg: *const u8, len: usize, tag: u16) -> ParamAt;
    pub fn m2ua_waits_at(before: *const u8, after: *const u8) -> Waits;
    pub fn m2ua_read(msg: *const u8, len: usize) -> Reading;
    pub fn m2ua_write(
        class: u8,
        msgtype: u8,
        tags: *const u16,
        tag_count: usize,
        lens: *const u32,
        len_count: usize,
        values: *const u8,
        value_bytes: usize,
        out: *mut u8,
        out_bytes: usize,
    ) -> Written;
    pub fn m2ua_load(file: *const u8, len: usize) -> Loaded;
}

/// An entry that takes the state as its columns, lent for reading or to an event: the one place that lists
/// them.
macro_rules! entry {
    (read $name:ident($($p:ident: $t:ty),*) -> $result:ty) => {
        extern "C" {
            pub fn $name(
                asps: u8,
                ases: u8,
                links: u8,
                spare: u8,
                aspid: *const u32,
                up: *const u8,
                member: *const u8,
                active: *const u8,
                mode: *const u8,
                waiting: *const u8,
                iid: *const u32,
                owner: *const u8,
                state: *const u8,
                highspeed: *const u8,
                wholelists: *const u8,
                count: *const u8,
                tag: *const u16,
                len: *const u16,
                marked: *const u16,
                id: *const u32,
                correlation: *const u32,
                $($p: $t),*
            ) -> $result;
        }
    };
    (written $name:ident($($p:ident: $t:ty),*) -> $result:ty) => {
        extern "C" {
            pub fn $name(
                asps: u8,
                ases: u8,
                links: u8,
                spare: u8,
                aspid: *const u32,
                up: *mut u8,
                member: *const u8,
                active: *mut u8,
                mode: *const u8,
                waiting: *mut u8,
                iid: *const u32,
                owner: *const u8,
                state: *mut u8,
                highspeed: *const u8,
                wholelists: *const u8,
                count: *mut u8,
                tag: *mut u16,
                len: *mut u16,
                marked: *mut u16,
                id: *mut u32,
                correlation: *mut u32,
                $($p: $t),*
            ) -> $result;
        }
    };
}

entry!(read m2ua_is_sound_at() -> u32);
entry!(read m2ua_as_state_at(r#as: usize) -> Answer);
entry!(read m2ua_link_place_at(wanted: u32) -> Answer);
entry!(read m2ua_order_at(kind: u32, index: usize, msg: *const u8, msg_bytes: usize, hold: *const u8, hold_bytes: usize, place: usize, out: *mut u8, out_bytes: usize) -> Written);
entry!(read m2ua_orders_at(kind: u32, index: usize, msg: *const u8, msg_bytes: usize, hold: *const u8, hold_bytes: usize, place: usize, lens: *mut u32, len_count: usize, out: *mut u8, out_bytes: usize) -> Batch);
entry!(written m2ua_event_at(kind: u32, index: usize, msg: *const u8, msg_bytes: usize, hold: *mut u8, hold_bytes: usize, words: *mut u32, word_count: usize) -> Done);
entry!(written m2ua_handle_at(kind: u32, index: usize, msg: *const u8, msg_bytes: usize, hold: *mut u8, hold_bytes: usize, words: *mut u32, lens: *mut u32, out: *mut u8, out_bytes: usize) -> Handled);

/// A call of such an entry with the columns of a `&Gateway`, or of a `&mut Gateway`.
macro_rules! call {
    ($name:ident, $g:ident, $as_ptr:ident, $($argument:expr),*) => {
        // SAFETY: each column is that of one state, lent whole; each pointer and length are those of one
        // slice; what is `&mut` overlaps nothing. Any bytes are a state, and every entry answers every value.
        unsafe {
            $name(
                $g.asps,
                $g.ases,
                $g.links,
                $g.spare,
                $g.aspid.as_ptr(),
                $g.up.$as_ptr(),
                $g.member.as_ptr(),
                $g.active.$as_ptr(),
                $g.mode.as_ptr(),
                $g.waiting.$as_ptr(),
                $g.iid.as_ptr(),
                $g.owner.as_ptr(),
                $g.state.$as_ptr(),
                $g.highspeed.as_ptr(),
                $g.wholelists.as_ptr(),
                $g.held.count.$as_ptr(),
                $g.held.tag.$as_ptr(),
                $g.held.length.$as_ptr(),
                $g.held.marked.$as_ptr(),
                $g.held.id.$as_ptr(),
                $g.held.correlation.$as_ptr(),
                $($argument),*
            )
        }
    };
}

// The calls, over whole slices: a slice's pointer is never null, is aligned, and no two slices that are lent
// here overlap, since one is `&mut`.

#[inline(always)]
pub fn read(msg: &[u8]) -> Reading {
    // SAFETY: pointer and length are those of one slice; any bytes are answered.
    unsafe { m2ua_read(msg.as_ptr(), msg.len()) }
}

#[inline(always)]
pub fn write(
    class: u8,
    msgtype: u8,
    tags: &[u16],
    lens: &[u32],
    values: &[u8],
    out: &mut [u8],
) -> Written {
    // SAFETY: each pointer and length are those of one slice; any numbers are answered.
    unsafe {
        m2ua_write(
            class,
            msgtype,
            tags.as_ptr(),
            tags.len(),
            lens.as_ptr(),
            lens.len(),
            values.as_ptr(),
            values.len(),
            out.as_mut_ptr(),
            out.len(),
        )
    }
}

pub fn abi() -> u32 {
    // SAFETY: it has no arguments.
    unsafe { m2ua_abi() }
}

#[inline(always)]
pub fn data(msg: &[u8]) -> DataAt {
    // SAFETY: as in `read`.
    unsafe { m2ua_data(msg.as_ptr(), msg.len()) }
}

#[inline(always)]
pub fn parameter(msg: &[u8], tag: u16) -> ParamAt {
    // SAFETY: as in `read`.
    unsafe { m2ua_parameter(msg.as_ptr(), msg.len(), tag) }
}

#[inline(always)]
pub fn as_state(g: &Gateway, r#as: usize) -> Answer {
    call!(m2ua_as_state_at, g, as_ptr, r#as)
}

#[inline(always)]
pub fn link_place(g: &Gateway, id: u32) -> Answer {
    call!(m2ua_link_place_at, g, as_ptr, id)
}

/// Of the columns `waiting` of two states.
#[inline(always)]
pub fn waits(before: &[u8; MAX_ASES], after: &[u8; MAX_ASES]) -> Waits {
    // SAFETY: both columns are lent whole; any bytes are answered.
    unsafe { m2ua_waits_at(before.as_ptr(), after.as_ptr()) }
}

#[inline(always)]
pub fn load(file: &[u8]) -> Loaded {
    // SAFETY: as in `read`.
    unsafe { m2ua_load(file.as_ptr(), file.len()) }
}

#[inline(always)]
pub fn is_sound(g: &Gateway) -> bool {
    call!(m2ua_is_sound_at, g, as_ptr,) == 1
}

/// An event on the state where it lies: a hold and a list of any length are answered.
#[inline(always)]
pub fn event(
    g: &mut Gateway,
    kind: u32,
    index: usize,
    msg: &[u8],
    hold: &mut [u8],
    words: &mut [u32],
) -> Done {
    call!(
        m2ua_event_at,
        g,
        as_mut_ptr,
        kind,
        index,
        msg.as_ptr(),
        msg.len(),
        hold.as_mut_ptr(),
        hold.len(),
        words.as_mut_ptr(),
        words.len()
    )
}

/// An event on the state where it lies, with the messages of all its orders.
#[allow(clippy::too_many_arguments)]
#[inline(always)]
pub fn handle(
    g: &mut Gateway,
    kind: u32,
    index: usize,
    msg: &[u8],
    hold: &mut [u8],
    words: &mut [u32; LIST_WORDS],
    lens: &mut [u32; MAX_ORDERS],
    out: &mut [u8],
) -> Handled {
    call!(
        m2ua_handle_at,
        g,
        as_mut_ptr,
        kind,
        index,
        msg.as_ptr(),
        msg.len(),
        hold.as_mut_ptr(),
        hold.len(),
        words.as_mut_ptr(),
        lens.as_mut_ptr(),
        out.as_mut_ptr(),
        out.len()
    )
}

/// One order of an event that is not kept, as bytes.
#[inline(always)]
pub fn order(
    g: &Gateway,
    kind: u32,
    index: usize,
    msg: &[u8],
    hold: &[u8],
    place: usize,
    out: &mut [u8],
) -> Written {
    call!(
        m2ua_order_at,
        g,
        as_ptr,
        kind,
        index,
        msg.as_ptr(),
        msg.len(),
        hold.as_ptr(),
        hold.len(),
        place,
        out.as_mut_ptr(),
        out.len()
    )
}

/// As many of its orders, from a place on, as go in.
#[allow(clippy::too_many_arguments)]
#[inline(always)]
pub fn orders(
    g: &Gateway,
    kind: u32,
    index: usize,
    msg: &[u8],
    hold: &[u8],
    place: usize,
    lens: &mut [u32],
    out: &mut [u8],
) -> Batch {
    call!(
        m2ua_orders_at,
        g,
        as_ptr,
        kind,
        index,
        msg.as_ptr(),
        msg.len(),
        hold.as_ptr(),
        hold.len(),
        place,
        lens.as_mut_ptr(),
        lens.len(),
        out.as_mut_ptr(),
        out.len()
    )
}

// The structs as the library was compiled for. tools/check/header-check writes these lines anew (--write).
const _: () = assert!(size_of::<Answer>() == 8);
const _: () = assert!(offset_of!(Answer, code) == 0);
const _: () = assert!(offset_of!(Answer, value) == 4);
const _: () = assert!(size_of::<Batch>() == 24);
const _: () = assert!(offset_of!(Batch, code) == 0);
const _: () = assert!(offset_of!(Batch, count) == 8);
const _: () = assert!(offset_of!(Batch, length) == 16);
const _: () = assert!(size_of::<DataAt>() == 16);
const _: () = assert!(offset_of!(DataAt, start) == 0);
const _: () = assert!(offset_of!(DataAt, length) == 8);
const _: () = assert!(size_of::<Done>() == 16);
const _: () = assert!(offset_of!(Done, refusal) == 0);
const _: () = assert!(offset_of!(Done, count) == 8);
const _: () = assert!(size_of::<Gateway>() == 3348);
const _: () = assert!(offset_of!(Gateway, asps) == 0);
const _: () = assert!(offset_of!(Gateway, ases) == 1);
const _: () = assert!(offset_of!(Gateway, links) == 2);
const _: () = assert!(offset_of!(Gateway, spare) == 3);
const _: () = assert!(offset_of!(Gateway, aspid) == 4);
const _: () = assert!(offset_of!(Gateway, up) == 68);
const _: () = assert!(offset_of!(Gateway, member) == 84);
const _: () = assert!(offset_of!(Gateway, active) == 340);
const _: () = assert!(offset_of!(Gateway, mode) == 596);
const _: () = assert!(offset_of!(Gateway, waiting) == 612);
const _: () = assert!(offset_of!(Gateway, iid) == 628);
const _: () = assert!(offset_of!(Gateway, owner) == 1140);
const _: () = assert!(offset_of!(Gateway, state) == 1268);
const _: () = assert!(offset_of!(Gateway, highspeed) == 1396);
const _: () = assert!(offset_of!(Gateway, wholelists) == 1524);
const _: () = assert!(offset_of!(Gateway, held) == 1540);
const _: () = assert!(size_of::<Handled>() == 24);
const _: () = assert!(offset_of!(Handled, refusal) == 0);
const _: () = assert!(offset_of!(Handled, count) == 8);
const _: () = assert!(offset_of!(Handled, length) == 16);
const _: () = assert!(size_of::<Loaded>() == 3352);
const _: () = assert!(offset_of!(Loaded, code) == 0);
const _: () = assert!(offset_of!(Loaded, gateway) == 4);
const _: () = assert!(size_of::<ParamAt>() == 24);
const _: () = assert!(offset_of!(ParamAt, found) == 0);
const _: () = assert!(offset_of!(ParamAt, start) == 8);
const _: () = assert!(offset_of!(ParamAt, length) == 16);
const _: () = assert!(size_of::<Reading>() == 56);
const _: () = assert!(offset_of!(Reading, code) == 0);
const _: () = assert!(offset_of!(Reading, class) == 4);
const _: () = assert!(offset_of!(Reading, msgtype) == 8);
const _: () = assert!(offset_of!(Reading, ids) == 12);
const _: () = assert!(offset_of!(Reading, id) == 16);
const _: () = assert!(offset_of!(Reading, mode) == 20);
const _: () = assert!(offset_of!(Reading, identified) == 24);
const _: () = assert!(offset_of!(Reading, aspid) == 28);
const _: () = assert!(offset_of!(Reading, correlated) == 32);
const _: () = assert!(offset_of!(Reading, correlation) == 36);
const _: () = assert!(offset_of!(Reading, state) == 40);
const _: () = assert!(offset_of!(Reading, retrieval) == 44);
const _: () = assert!(offset_of!(Reading, sequenced) == 48);
const _: () = assert!(offset_of!(Reading, sequence) == 52);
const _: () = assert!(size_of::<Units>() == 1808);
const _: () = assert!(offset_of!(Units, count) == 0);
const _: () = assert!(offset_of!(Units, tag) == 16);
const _: () = assert!(offset_of!(Units, length) == 272);
const _: () = assert!(offset_of!(Units, marked) == 528);
const _: () = assert!(offset_of!(Units, id) == 784);
const _: () = assert!(offset_of!(Units, correlation) == 1296);
const _: () = assert!(size_of::<Waits>() == 32);
const _: () = assert!(offset_of!(Waits, began) == 0);
const _: () = assert!(offset_of!(Waits, ended) == 16);
const _: () = assert!(size_of::<Written>() == 16);
const _: () = assert!(offset_of!(Written, code) == 0);
const _: () = assert!(offset_of!(Written, length) == 8);
