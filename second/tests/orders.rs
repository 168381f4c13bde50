//! Orders as bytes: every kind of order against bytes worked out by hand, the
//! batch form, and what generated lines of the kind `bytes` hold.

use second::bytes::Batch;
use second::generate::{generate, Kind, Rng};
use second::script::Session;
use second::{load, Event, Gateway, Params, HOLD_BYTES};
use std::collections::BTreeMap;

/// ASPs 7 and 8 in AS 0 (override, links 100 and 101) and AS 1 (load-share, no
/// links); ASPs 8 and 9 in AS 2 (broadcast, link 0x12345678).
const PLAN: &str = "00000018 00000003 00000030 00000003 0000003c 00000003 \
    00000007 00030000 00000008 00070000 00000009 00040000 \
    00000001 00000002 00000003 \
    00000064 00000000 00000065 00000000 12345678 00000002";

const UP: &str = "01000301 00000008";

fn unhex(hex: &str) -> Vec<u8> {
    let hex = hex.replace([' ', '-'], "");
    (0..hex.len() / 2)
        .map(|i| u8::from_str_radix(&hex[2 * i..2 * i + 2], 16).unwrap())
        .collect()
}

/// Runs commands, each with its message, after the plan. `bytes` come without
/// their buffer: a message must be written into a buffer of its length and
/// into longer ones, and not into shorter ones.
fn check(lines: &[(&str, &str, &str)]) {
    let mut session = Session::new();
    let mut ask = |line: &str| {
        let mut out = Vec::new();
        session.line(line.as_bytes(), &mut out);
        String::from_utf8(out).unwrap().trim_end().to_string()
    };
    assert_eq!(ask(&format!("plan {}", PLAN.replace(' ', ""))), "0");
    for (command, message, expected) in lines {
        let line = match *message {
            "" => command.to_string(),
            message => format!("{command} {}", message.replace(' ', "")),
        };
        let Some(rest) = line.strip_prefix("bytes ") else {
            assert_eq!(ask(&line), *expected, "{line}");
            continue;
        };
        let (place, event) = rest.split_once(' ').unwrap();
        let mut bytes = |room: usize| ask(&format!("bytes {place} {room} {event}"));
        if expected.len() < 16 {
            assert_eq!(bytes(0), *expected, "{line}");
            assert_eq!(bytes(8192), *expected, "{line}");
            continue;
        }
        let expected = expected.replace(' ', "");
        let length = expected.len() / 2;
        for room in [length, length + 1, 8192, u32::MAX as usize] {
            assert_eq!(bytes(room), format!("0 {expected}"), "{line}");
        }
        for room in [0, 7, length - 1] {
            assert_eq!(bytes(room), "103", "{line}");
        }
    }
}

#[test]
fn up_down_beat() {
    let notify = "01000001 0000001c 000d0008 00010002 0001000c 00000064 00000065";
    check(&[
        ("bytes 0 msg 0 0", UP, "01000304 00000008"),
        ("bytes 1 msg 0 0", UP, notify),
        // AS 1 has no links.
        ("bytes 2 msg 0 0", UP, "01000001 00000010 000d0008 00010002"),
        ("bytes 3 msg 0 0", UP, "104"),
        ("bytes 4294967295 msg 0 0", UP, "104"),
        ("bytes 3 msg 3 0", UP, "102"),
        (
            "bytes 1 msg 2 0",
            UP,
            "01000001 00000018 000d0008 00010002 00010008 12345678",
        ),
        // Neither the identifier nor the text of an Up is repeated.
        (
            "bytes 0 msg 0 0",
            "01000301 00000018 00110008 00000007 00040005 61ffffff",
            "01000304 00000008",
        ),
        (
            "bytes 0 msg 0 0",
            "01000302 00000010 00040005 61ffffff",
            "01000305 00000008",
        ),
        ("bytes 1 msg 0 0", "01000302 00000008", "104"),
        // Spare and padding of a Beat go out as zero.
        ("bytes 0 msg 1 0", "01ff0303 00000008", "01000306 00000008"),
        (
            "bytes 0 msg 1 0",
            "01ff0303 0000000c 00090004",
            "01000306 0000000c 00090004",
        ),
        (
            "bytes 0 msg 1 0",
            "01ff0303 00000014 00090009 11223344 55ffffff",
            "01000306 00000014 00090009 11223344 55000000",
        ),
        ("bytes 0 msg 1 0", "01000306 00000008", "104"),
    ]);
}

#[test]
fn active_inactive() {
    let both = "N 3 (0,772,0,0) (0,1,0,65538) (0,1,1,65538)";
    let of_100 = "01000401 00000010 00010008 00000064";
    let of_101 = "01000401 00000018 000b0008 00000001 00010008 00000065";
    check(&[
        ("msg 0 1544", UP, both),
        ("msg 1 1544", UP, "N 2 (1,772,0,0) (1,1,2,65538)"),
        ("bytes 0 msg 0 0", "01000401 00000008", "01000403 00000008"),
        // The mode comes first, then the identifiers as they came; the text
        // does not come.
        (
            "bytes 0 msg 0 0",
            "01550401 00000038 00040007 686921ee 0008000c 00000064 00000065 \
             00010008 00000065 000b0008 00000001 0001000c 00000064 00000064",
            "01000403 00000030 000b0008 00000001 0008000c 00000064 00000065 \
             00010008 00000065 0001000c 00000064 00000064",
        ),
        (
            "bytes 2 msg 0 0",
            of_100,
            "01000001 0000001c 000d0008 00010003 0001000c 00000064 00000065",
        ),
        (
            "msg 0 1544",
            of_100,
            "N 3 (0,1027,0,0) (0,1,0,65539) (1,1,0,65539)",
        ),
        // ASP 1 takes over.
        (
            "bytes 0 msg 1 0",
            of_101,
            "01000403 00000018 000b0008 00000001 00010008 00000065",
        ),
        (
            "bytes 1 msg 1 0",
            of_101,
            "01000001 0000001c 000d0008 00020002 0001000c 00000064 00000065",
        ),
        ("msg 1 1544", of_101, "N 2 (1,1027,0,0) (0,1,0,131074)"),
        ("bytes 0 msg 1 0", "01000402 00000008", "01000404 00000008"),
        (
            "bytes 0 msg 1 0",
            "01aa0402 00000024 00010008 00000065 00040006 6161ffff 0008000c 00000064 00000065",
            "01000404 0000001c 00010008 00000065 0008000c 00000064 00000065",
        ),
        (
            "bytes 1 msg 1 0",
            "01000402 00000010 00010008 00000064",
            "01000001 0000001c 000d0008 00010004 0001000c 00000064 00000065",
        ),
        // The association lost, and the recovery time over.
        (
            "bytes 0 lost 1 0",
            "",
            "01000001 0000001c 000d0008 00010004 0001000c 00000064 00000065",
        ),
        ("bytes 1 lost 1 0", "", "104"),
        ("lost 1 1544", "", "N 1 (0,1,0,65540)"),
        (
            "bytes 0 recovery 0 0",
            "",
            "01000001 0000001c 000d0008 00010002 0001000c 00000064 00000065",
        ),
        ("bytes 0 recovery 1 0", "", "104"),
        ("bytes 0 recovery 3 0", "", "102"),
    ]);
}

#[test]
fn errors() {
    for (code, message) in [
        (1, "02000301 00000008"),
        (3, "01000101 00000008"),
        (4, "01000307 00000008"),
        (5, "01000401 00000010 000b0008 00000004"),
        (6, "01000401 00000008"),
        (6, "01000304 00000008"),
        (7, "-"),
        (7, "01000301 0000000c"),
        (8, "01000401 0000000c 00030004"),
        (15, "01000301 00000010 00110008 00000008"),
        (17, "01000401 00000014 0008000c 00000065 00000064"),
        (18, "01000401 00000010 000b0007 00000100"),
        (19, "01000301 0000000c 00090004"),
        (22, "01000601 00000010 00010008 00000064"),
    ] {
        let error = format!("01000000 00000010 000c0008 {code:08x}");
        check(&[("bytes 0 msg 0 0", message, &error)]);
    }
    let all = "N 4 (1,772,0,0) (1,1,0,65538) (1,1,1,65538) (1,1,2,65538)";
    check(&[
        ("msg 1 1544", UP, all),
        // Of another mode than AS 0.
        (
            "bytes 0 msg 1 0",
            "01000401 00000018 000b0008 00000002 00010008 00000064",
            "01000000 00000010 000c0008 00000005",
        ),
        // Code 2 says the first identifier that is bad; before it the Ack says
        // the good ones.
        (
            "bytes 1 msg 1 0",
            "01000401 00000018 00010008 00000064 00010008 0000c0de",
            "01000000 00000018 000c0008 00000002 00010008 0000c0de",
        ),
        (
            "bytes 0 msg 1 0",
            "01000401 00000018 00010008 00000064 00010008 0000c0de",
            "01000403 00000010 00010008 00000064",
        ),
        (
            "bytes 1 msg 1 0",
            "01000401 00000014 0008000c 00000064 00000066",
            "01000000 00000018 000c0008 00000002 00010008 00000066",
        ),
        (
            "bytes 0 msg 1 0",
            "01000401 00000014 0008000c 00000064 00000066",
            "01000403 00000014 0001000c 00000064 00000065",
        ),
        (
            "bytes 0 msg 1 0",
            "01000401 00000014 0008000c 00000066 00000067",
            "01000000 00000018 000c0008 00000002 00010008 00000066",
        ),
        // An Error is not answered.
        ("bytes 0 msg 1 0", "00000000", "104"),
        ("bytes 0 msg 3 0", "00000000", "102"),
    ]);
}

#[test]
fn links() {
    let establish = "01000602 00000010 00010008 00000065";
    let release = "01000604 00000010 00010008 00000065";
    let confirm = "01000603 00000010 00010008 00000065";
    let released = "01000605 00000010 00010008 00000065";
    check(&[
        (
            "msg 0 1544",
            UP,
            "N 3 (0,772,0,0) (0,1,0,65538) (0,1,1,65538)",
        ),
        (
            "msg 0 1544",
            "01000401 00000008",
            "N 3 (0,1027,0,0) (0,1,0,65539) (0,1,1,65539)",
        ),
        ("bytes 0 msg 0 0", release, released),
        // To the link side.
        ("bytes 0 msg 0 0", establish, "104"),
        ("msg 0 1544", establish, "N 1 (255,1538,101,0)"),
        ("bytes 0 up 1 0", "", confirm),
        ("bytes 1 up 1 0", "", "104"),
        ("bytes 0 up 3 0", "", "102"),
        (
            "bytes 0 down 1 0",
            "",
            "01000606 00000010 00010008 00000065",
        ),
        ("up 1 1544", "", "N 1 (0,1539,101,0)"),
        ("bytes 0 msg 0 0", establish, confirm),
        // Data: first to the link side, then its Ack.
        (
            "bytes 0 msg 0 0",
            "01000601 00000020 00010008 00000065 03000005 61ffffff 00130008 89abcdef",
            "104",
        ),
        (
            "bytes 1 msg 0 0",
            "01000601 00000020 00010008 00000065 03000005 61ffffff 00130008 89abcdef",
            "0100060f 00000018 00010008 00000065 00130008 89abcdef",
        ),
        ("msg 0 1544", release, "N 1 (255,1540,101,0)"),
        ("bytes 0 down 1 0", "", released),
    ]);
}

#[test]
fn link_side() {
    check(&[
        (
            "msg 1 1544",
            UP,
            "N 4 (1,772,0,0) (1,1,0,65538) (1,1,1,65538) (1,1,2,65538)",
        ),
        ("msg 2 1544", UP, "N 1 (2,772,0,0)"),
        (
            "msg 1 1544",
            "01000401 00000010 00010008 12345678",
            "N 3 (1,1027,0,0) (1,1,2,65539) (2,1,2,65539)",
        ),
        ("msg 2 1544", "01000401 00000008", "N 1 (2,1027,0,0)"),
        // Both are active and both get it, with spare and padding zero.
        (
            "bytes 0 linkmsg 0",
            "01ff0601 00000020 00010008 12345678 00130008 00000009 03000005 61ffffff",
            "01000601 00000020 00010008 12345678 00130008 00000009 03000005 61000000",
        ),
        (
            "bytes 1 linkmsg 0",
            "01ff0601 0000001c 00010008 12345678 03010009 61626364 65010203",
            "01000601 0000001c 00010008 12345678 03010009 61626364 65000000",
        ),
        (
            "bytes 2 linkmsg 0",
            "01ff0601 00000018 00010008 12345678 03000005 61ffffff",
            "104",
        ),
        (
            "bytes 0 linkmsg 0",
            "01010608 00000018 00010008 12345678 03020008 0000000a",
            "01000608 00000018 00010008 12345678 03020008 0000000a",
        ),
        (
            "bytes 0 linkmsg 0",
            "01010609 00000018 00010008 12345678 03030008 00000004",
            "01000609 00000018 00010008 12345678 03030008 00000004",
        ),
        (
            "bytes 0 linkmsg 0",
            "0101060b 00000028 00010008 12345678 03080008 00000000 03070008 0000007f \
             03060008 00000001",
            "0100060b 00000028 00010008 12345678 03080008 00000000 03070008 0000007f \
             03060008 00000001",
        ),
        (
            "bytes 1 linkmsg 0",
            "0101060c 00000018 00010008 12345678 03000006 6162ffff",
            "0100060c 00000018 00010008 12345678 03000006 61620000",
        ),
        (
            "bytes 0 linkmsg 0",
            "0101060d 00000010 00010008 12345678",
            "0100060d 00000010 00010008 12345678",
        ),
        (
            "bytes 0 linkmsg 0",
            "0101060d 00000018 00010008 12345678 03010007 616263ff",
            "0100060d 00000018 00010008 12345678 03010007 61626300",
        ),
        (
            "bytes 0 linkmsg 0",
            "0101060e 00000020 00010008 12345678 03050008 00000003 03040008 00000001",
            "0100060e 00000020 00010008 12345678 03050008 00000003 03040008 00000001",
        ),
        // Nobody is active; not a message of the link side; no such link.
        (
            "bytes 0 linkmsg 0",
            "0100060d 00000010 00010008 00000064",
            "104",
        ),
        (
            "bytes 0 linkmsg 0",
            "01000603 00000010 00010008 12345678",
            "102",
        ),
        (
            "bytes 0 linkmsg 0",
            "0100060d 00000010 00010008 12345679",
            "102",
        ),
        ("bytes 0 linkmsg 0", "-", "102"),
    ]);
}

// ---- the batch form

/// What all bytes and lengths are before a call.
const STALE: u8 = 0x55;
const UNSET: u32 = 0xdead_beef;

fn fresh() -> Gateway {
    let loaded = load(&unhex(PLAN));
    assert_eq!(loaded.code, 0);
    loaded.gateway
}

/// A hold that nothing was put in.
static EMPTY: [u8; HOLD_BYTES] = [0; HOLD_BYTES];

/// The state after messages of ASPs.
fn after(messages: &[(u32, &str)]) -> Gateway {
    messages.iter().fold(fresh(), |gateway, (asp, message)| {
        let next = gateway.message(*asp, &unhex(message), &mut EMPTY.clone(), &mut [0; 1544]);
        assert_eq!(next.code, 0);
        next.gateway
    })
}

/// Tries a batch from a place on with so many lengths and bytes: refused, or
/// these lengths and these bytes. All else must stay.
fn batch(
    (gateway, event): (&Gateway, Event),
    at: (u32, usize, usize),
    expected: Result<(&[u32], &str), u32>,
) {
    batch_lent(&EMPTY, (gateway, event), at, expected);
}

/// The same, lent a hold.
fn batch_lent(
    hold: &[u8],
    (gateway, event): (&Gateway, Event),
    (place, slots, room): (u32, usize, usize),
    expected: Result<(&[u32], &str), u32>,
) {
    let (mut lens, mut out) = (vec![UNSET; slots], vec![STALE; room]);
    let got = gateway.orders_bytes(event, hold, place, &mut lens, &mut out);
    let (code, written, bytes) = match expected {
        Ok((written, bytes)) => (0, written, unhex(bytes)),
        Err(code) => (code, &[][..], vec![]),
    };
    let (count, length) = (written.len() as u32, bytes.len() as u32);
    let expected = Batch {
        code,
        count,
        length,
    };
    assert_eq!(got, expected);
    assert_eq!(&lens[..written.len()], written);
    assert!(lens[written.len()..].iter().all(|len| *len == UNSET));
    assert_eq!(out[..bytes.len()], bytes[..]);
    assert!(out[bytes.len()..].iter().all(|byte| *byte == STALE));
}

const UP_ACK: &str = "01000304 00000008";
const WITH_LINKS: &str = "01000001 0000001c 000d0008 00010002 0001000c 00000064 00000065";
const WITHOUT: &str = "01000001 00000010 000d0008 00010002";

#[test]
fn batch_of_an_up() {
    let message = unhex(UP);
    let message = &message[..];
    let gateway = &fresh();
    let up = (gateway, Event::Message { asp: 0, message });
    let two = [UP_ACK, WITH_LINKS].concat();
    let all = [UP_ACK, WITH_LINKS, WITHOUT].concat();
    let late = [WITH_LINKS, WITHOUT].concat();
    batch(up, (0, 3, 52), Ok((&[8, 28, 16], &all)));
    batch(up, (0, 9, 99), Ok((&[8, 28, 16], &all)));
    // The last one, and the last two, do not go in.
    batch(up, (0, 3, 51), Ok((&[8, 28], &two)));
    batch(up, (0, 2, 99), Ok((&[8, 28], &two)));
    batch(up, (0, 2, 36), Ok((&[8, 28], &two)));
    batch(up, (0, 3, 35), Ok((&[8], UP_ACK)));
    batch(up, (0, 1, 8), Ok((&[8], UP_ACK)));
    // None goes in.
    batch(up, (0, 3, 7), Err(103));
    batch(up, (0, 3, 0), Err(103));
    batch(up, (0, 0, 99), Err(103));
    // From a later place: none is passed over, though the next would go in.
    batch(up, (1, 3, 44), Ok((&[28, 16], &late)));
    batch(up, (1, 3, 43), Ok((&[28], WITH_LINKS)));
    batch(up, (1, 3, 27), Err(103));
    batch(up, (2, 1, 16), Ok((&[16], WITHOUT)));
    batch(up, (2, 1, 15), Err(103));
    // Beyond the orders, before a buffer that is short.
    batch(up, (3, 0, 0), Err(104));
    batch(up, (u32::MAX, 9, 99), Err(104));
    // Before it an event that is refused, and before that a state.
    batch(
        (gateway, Event::Message { asp: 3, message }),
        (3, 0, 0),
        Err(102),
    );
    batch((gateway, Event::LinkUp { link: 3 }), (0, 9, 99), Err(102));
    let unsound = Gateway::ZERO;
    batch((&unsound, Event::Lost { asp: 99 }), (3, 0, 0), Err(105));
}

#[test]
fn batch_with_the_link_side() {
    let establish = "01000602 00000010 00010008 00000065";
    let started = after(&[(0, UP), (0, "01000401 00000008"), (0, establish)]);
    let gateway = &started
        .link_up(1, &mut EMPTY.clone(), &mut [0; 1544])
        .gateway;
    let message = unhex("01000601 00000020 00010008 00000065 03000005 61000000 00130008 89abcdef");
    let message = &message[..];
    let data = (gateway, Event::Message { asp: 0, message });
    let ack = "0100060f 00000018 00010008 00000065 00130008 89abcdef";
    batch(data, (0, 2, 24), Ok((&[0, 24], ack)));
    batch(data, (0, 3, 30), Ok((&[0, 24], ack)));
    // The order to the link side needs a length, but no byte.
    batch(data, (0, 2, 23), Ok((&[0], "")));
    batch(data, (0, 1, 0), Ok((&[0], "")));
    batch(data, (0, 0, 99), Err(103));
    batch(data, (1, 1, 24), Ok((&[24], ack)));
    batch(data, (1, 1, 23), Err(103));
    batch(data, (2, 1, 99), Err(104));
    // No order at all.
    batch((gateway, Event::LinkUp { link: 1 }), (0, 9, 99), Err(104));
    batch(
        (gateway, Event::Recovery { server: 0 }),
        (0, 9, 99),
        Err(104),
    );
}

/// AS 0 gets three units in pending, AS 2 none and is down: two of one link that
/// differ in their bytes alone, then one with a correlation id.
fn three_held() -> (Gateway, Vec<u8>) {
    let active = "01000401 00000008";
    let state = after(&[(0, UP), (0, active), (0, "01000402 00000008")]);
    let mut hold = vec![STALE; HOLD_BYTES];
    let units = [
        "01ff0601 00000018 00010008 00000065 03000005 61ffffff",
        "01000601 00000018 00010008 00000065 03000005 62000000",
        "01000601 00000024 00010008 00000064 00130008 00000000 03010009 31323334 35010203",
    ];
    let state = units.iter().fold(state, |gateway, message| {
        let next = gateway.link_message(&unhex(message), &mut hold, &mut [0; 1544]);
        assert_eq!((next.code, next.count), (0, 0));
        next.gateway
    });
    (state, hold)
}

#[test]
fn batch_of_held_units() {
    let (gateway, hold) = three_held();
    let message = unhex("01000401 00000008");
    let message = &message[..];
    let active = (&gateway, Event::Message { asp: 0, message });
    let ack = "01000403 00000008";
    let units = [
        "01000601 00000018 00010008 00000065 03000005 61000000",
        "01000601 00000018 00010008 00000065 03000005 62000000",
        "01000601 00000024 00010008 00000064 03010009 31323334 35000000 00130008 00000000",
    ];
    let notify = "01000001 0000001c 000d0008 00010003 0001000c 00000064 00000065";
    let without = "01000001 00000010 000d0008 00010003";
    let all = [ack, units[0], units[1], units[2], notify, without].concat();
    let lens = [8, 24, 24, 36, 28, 16];
    batch_lent(&hold, active, (0, 6, 136), Ok((&lens, &all)));
    batch_lent(&hold, active, (0, 9, 999), Ok((&lens, &all)));
    // Each place first, and one byte too few for the next.
    let all = [units[1], units[2]].concat();
    batch_lent(&hold, active, (2, 9, 87), Ok((&[24, 36], &all)));
    batch_lent(&hold, active, (2, 9, 59), Ok((&[24], units[1])));
    batch_lent(&hold, active, (3, 1, 36), Ok((&[36], units[2])));
    batch_lent(&hold, active, (3, 1, 35), Err(103));
    batch_lent(&hold, active, (1, 1, 24), Ok((&[24], units[0])));
    batch_lent(&hold, active, (6, 9, 99), Err(104));
    // Before that a hold of another length, and before it a bad event.
    batch_lent(&hold[1..], active, (6, 0, 0), Err(106));
    batch_lent(&[], active, (0, 9, 99), Err(106));
    let bad = (&gateway, Event::Message { asp: 3, message });
    batch_lent(&[], bad, (0, 9, 99), Err(102));
    let unsound = (&Gateway::ZERO, Event::Lost { asp: 0 });
    batch_lent(&[], unsound, (0, 9, 99), Err(105));
    // The fourth unit gives no order, and is not put in this hold.
    let data = unhex("01000601 00000018 00010008 00000064 03000005 63000000");
    let fourth = (&gateway, Event::LinkMessage { message: &data });
    batch_lent(&hold, fourth, (0, 9, 99), Err(104));
}

/// The batch form, told by the single form: place by place until one does not
/// go in.
fn told(
    (gateway, hold): (&Gateway, &[u8]),
    event: Event,
    place: u32,
    lens: &mut [u32],
    out: &mut [u8],
) -> Batch {
    let refused = |code| Batch {
        code,
        count: 0,
        length: 0,
    };
    let mut list = [0; 1544];
    let next = gateway.event(event, &mut hold.to_vec(), &mut list);
    if next.code != 0 {
        return refused(next.code);
    }
    if place >= next.count {
        return refused(104);
    }
    let (mut count, mut length) = (0, 0);
    while place + count < next.count && (count as usize) < lens.len() {
        let at = place + count;
        let written = gateway.order_bytes(event, hold, at, &mut out[length as usize..]);
        match written.code {
            0 => {}
            104 => assert_eq!(list[4 * at as usize], 255),
            code => {
                assert_eq!(code, 103);
                break;
            }
        }
        lens[count as usize] = written.length;
        length += written.length;
        count += 1;
    }
    match count {
        0 => refused(103),
        _ => Batch {
            code: 0,
            count,
            length,
        },
    }
}

/// The event of a line; nothing for other lines and damaged ones.
fn event_of<'a>(words: &[&str], message: &'a mut Vec<u8>) -> Option<Event<'a>> {
    let number = |place: usize| words.get(place)?.parse::<u32>().ok();
    match (words[0], words.len()) {
        ("msg", 4) => *message = unhex(words[3]),
        ("linkmsg", 3) => *message = unhex(words[2]),
        ("lost" | "recovery" | "up" | "down", 3) => {}
        _ => return None,
    }
    let index = number(1)?;
    Some(match words[0] {
        "msg" => Event::Message {
            asp: index,
            message,
        },
        "linkmsg" => Event::LinkMessage { message },
        "lost" => Event::Lost { asp: index },
        "recovery" => Event::Recovery { server: index },
        "up" => Event::LinkUp { link: index },
        _ => Event::LinkDown { link: index },
    })
}

#[test]
fn generated_batches() {
    let mut rng = Rng::new(7);
    let mut codes = BTreeMap::new();
    let mut most = 0;
    for (seed, kind) in [(5, Kind::Event), (6, Kind::Bytes), (7, Kind::Partly)] {
        let mut session = Session::new();
        generate(seed, 10_000, kind, &mut |line| {
            let (gateway, hold) = (*session.gateway(), session.hold().to_vec());
            let mut result = Vec::new();
            session.line(line, &mut result);
            let text = String::from_utf8(line.to_vec()).unwrap();
            let words: Vec<&str> = text.split(' ').collect();
            let mut message = Vec::new();
            if result == b"?\n" {
                return Ok(());
            }
            let Some(event) = event_of(&words, &mut message) else {
                return Ok(());
            };
            let next = gateway.event(event, &mut hold.clone(), &mut [0; 1544]);
            let count = next.count as u64;
            let mut place = rng.below(count + 1 + count / 8) as u32;
            let mut slots = rng.pick(&[0, 1, 2, 3, 17, 258, 386, 400]);
            let mut room = rng.pick(&[0, 8, 16, 24, 52, 64, 1000, 20_000]) + rng.below(40) as usize;
            // Many orders are rare: often all of them.
            if count > 100 && rng.one_in(2) {
                (place, slots, room) = (rng.below(9) as u32, 386, 40_000);
            }
            let (mut lens, mut out) = (vec![UNSET; slots], vec![STALE; room]);
            let (mut told_lens, mut told_out) = (lens.clone(), out.clone());
            let got = gateway.orders_bytes(event, &hold, place, &mut lens, &mut out);
            let lent = (&gateway, &hold[..]);
            let expected = told(lent, event, place, &mut told_lens, &mut told_out);
            assert_eq!(got, expected, "{text}");
            assert_eq!((lens, out), (told_lens, told_out), "{text}");
            *codes.entry(got.code).or_insert(0) += 1;
            most = most.max(got.count);
            Ok(())
        })
        .unwrap();
    }
    println!("batches: results {codes:?}, most orders in one {most}");
    let codes: Vec<u32> = codes.into_keys().collect();
    assert_eq!(codes, [0, 102, 103, 104, 105, 106]);
    assert!(most > 100);
}

// ---- what generated lines hold

/// What an order is, for the tally.
fn kind_of(message: &[u8], event: &str) -> String {
    let word = |at: usize| u32::from_be_bytes(message[at..at + 4].try_into().unwrap());
    let tags: Vec<u16> = Params::new(message).map(|param| param.tag).collect();
    let (has_mode, has_ids) = (tags.contains(&0xb), tags.contains(&1) || tags.contains(&8));
    match (message[2], message[3]) {
        (6, kind) if event == "linkmsg" => format!("link side 6.{kind}"),
        (6, 1) => format!("held unit, correlation id {}", tags.contains(&0x13)),
        (0, 0) => format!(
            "Error {}{}",
            word(12),
            if has_ids { ", identifier" } else { "" }
        ),
        (0, 1) => format!(
            "Notify {:#x}{}",
            word(12),
            if has_ids { ", links" } else { "" }
        ),
        (4, kind) => format!("Ack 4.{kind}, mode {has_mode}, ids {has_ids}"),
        (3, 6) if tags.is_empty() => "Beat Ack without data".into(),
        (3, 6) if message.len() == 12 => "Beat Ack of empty data".into(),
        (3, 6) => "Beat Ack with data".into(),
        (class, kind) => format!("{class}.{kind}"),
    }
}

/// Whether the reader passes something over in this message that is not zero:
/// the spare byte, padding.
fn litter(message: &[u8]) -> (bool, bool) {
    let mut at = 8;
    let mut padding = false;
    for param in Params::new(message) {
        let end = at + param.len as usize;
        at = (end + 3) & !3;
        padding |= message[end..at].iter().any(|byte| *byte != 0);
    }
    (message.get(1).is_some_and(|spare| *spare != 0), padding)
}

/// The stored script's part has every kind of order, written and one byte
/// short, and every refusal.
#[test]
fn tally_of_bytes_lines() {
    let mut tally: BTreeMap<String, u32> = BTreeMap::new();
    let mut add = |what: String| *tally.entry(what).or_insert(0) += 1;
    let mut session = Session::new();
    generate(3, 8000, Kind::Bytes, &mut |line| {
        let (gateway, hold) = (*session.gateway(), session.hold().to_vec());
        let mut result = Vec::new();
        session.line(line, &mut result);
        let result = String::from_utf8(result).unwrap();
        let result = result.trim_end();
        let text = String::from_utf8(line.to_vec()).unwrap();
        let words: Vec<&str> = text.split(' ').collect();
        if words[0] != "bytes" {
            return Ok(());
        }
        if result == "?" {
            add("malformed".into());
            return Ok(());
        }
        let (place, room): (u32, usize) = (words[1].parse().unwrap(), words[2].parse().unwrap());
        let mut message = Vec::new();
        let event = event_of(&words[3..], &mut message).unwrap();
        let (code, hex) = result.split_once(' ').unwrap_or((result, ""));
        let mut whole = [0; 2048];
        let length = gateway.order_bytes(event, &hold, place, &mut whole).length as usize;
        match code {
            "0" => {
                add(kind_of(&unhex(hex), words[3]));
                add(match room - length {
                    0 => "buffer exact".into(),
                    1 => "buffer one longer".into(),
                    _ => "buffer longer".into(),
                });
                let (spare, padding) = litter(&message);
                if words[3] == "linkmsg" {
                    add(format!("passed on: spare {spare}, padding {padding}"));
                }
                if place > 0 {
                    add("place not 0".into());
                }
            }
            "103" => {
                add(format!("103 {}", kind_of(&whole[..length], words[3])));
                add(match room {
                    0 => "103, buffer of 0".into(),
                    _ if room + 1 == length => "103, one short".into(),
                    _ => "103, shorter".into(),
                });
            }
            "104" => {
                let mut list = [0; 1544];
                let count = gateway.event(event, &mut hold.clone(), &mut list).count;
                add(match place {
                    _ if place < count => "104, to the link side".into(),
                    _ if place == count => "104, the first beyond".into(),
                    _ => "104, far beyond".into(),
                });
            }
            _ => add(format!("{code} of {}", words[3])),
        }
        Ok(())
    })
    .unwrap();
    for (what, count) in &tally {
        println!("{count:6} {what}");
    }
    let mut expected: Vec<String> = Vec::new();
    for code in [1, 3, 4, 5, 6, 7, 8, 15, 17, 18, 19, 22] {
        expected.push(format!("Error {code}"));
    }
    for kind in [1, 8, 9, 11, 12, 13, 14] {
        expected.push(format!("link side 6.{kind}"));
    }
    for (mode, ids) in [(false, false), (false, true), (true, false), (true, true)] {
        expected.push(format!("Ack 4.3, mode {mode}, ids {ids}"));
    }
    for value in [0x10002, 0x10003, 0x10004, 0x20002] {
        expected.push(format!("Notify {value:#x}"));
        expected.push(format!("Notify {value:#x}, links"));
    }
    for event in ["msg", "lost", "recovery", "up", "down", "linkmsg"] {
        expected.push(format!("102 of {event}"));
    }
    expected.extend(
        [
            "Error 2, identifier",
            "3.4",
            "3.5",
            "Beat Ack without data",
            "Beat Ack of empty data",
            "Beat Ack with data",
            "Ack 4.4, mode false, ids false",
            "Ack 4.4, mode false, ids true",
            "6.3",
            "6.5",
            "6.6",
            "6.15",
            "held unit, correlation id false",
            "held unit, correlation id true",
            "103 held unit, correlation id true",
            "106 of msg",
            "106 of linkmsg",
            "buffer exact",
            "buffer one longer",
            "buffer longer",
            "103, one short",
            "103, shorter",
            "103, buffer of 0",
            "104, to the link side",
            "104, the first beyond",
            "104, far beyond",
            "105 of msg",
            "place not 0",
            "passed on: spare true, padding true",
            "malformed",
        ]
        .map(String::from),
    );
    for what in expected {
        assert!(tally.contains_key(&what), "no line with: {what}");
    }
}
