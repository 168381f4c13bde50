//! The six events: the samples (Rule 11.4), rule by rule, and a plain model
//! that generated histories are compared with.

use second::events::{bits, Event};
use second::generate::{generate, Kind};
use second::script::{run, Session};
use second::{is_sound, load, read, Gateway, Params, HOLD_BYTES};
use std::collections::{BTreeMap, BTreeSet};

const M: &str = "010004010000001c000b0008000000010008000c0000006400000073";
const UP: &str = "0100030100000008";
const DOWN: &str = "0100030200000008";
const ACTIVE: &str = "0100040100000008";
const INACTIVE: &str = "0100040200000008";

fn hex(bytes: &[u8]) -> String {
    bytes.iter().map(|byte| format!("{byte:02x}")).collect()
}

fn unhex(hex: &str) -> Vec<u8> {
    if hex == "-" {
        return Vec::new();
    }
    (0..hex.len() / 2)
        .map(|i| u8::from_str_radix(&hex[2 * i..2 * i + 2], 16).unwrap())
        .collect()
}

/// The command that loads a plan of these rows.
fn plan(asps: &[(u32, u16)], modes: &[u32], links: &[(u32, u32)]) -> String {
    let ases_at = 24 + 8 * asps.len() as u32;
    let links_at = ases_at + 4 * modes.len() as u32;
    let mut words = vec![24, asps.len() as u32, ases_at, modes.len() as u32];
    words.extend([links_at, links.len() as u32]);
    for (id, mask) in asps {
        words.extend([*id, (*mask as u32) << 16]);
    }
    words.extend(modes);
    for (id, owner) in links {
        words.extend([*id, *owner]);
    }
    let bytes: Vec<u8> = words.iter().flat_map(|word| word.to_be_bytes()).collect();
    format!("plan {}", hex(&bytes))
}

fn plan_s() -> String {
    let mut links: Vec<(u32, u32)> = (100..=115).map(|id| (id, 0)).collect();
    links.push((200, 1));
    plan(&[(7, 1), (8, 1), (9, 2)], &[1, 2], &links)
}

/// A message of these parameters, in hex.
fn message(class: u8, kind: u8, params: &[(u16, &[u32])]) -> String {
    let mut out = vec![1, 0, class, kind, 0, 0, 0, 0];
    for (tag, words) in params {
        out.extend_from_slice(&tag.to_be_bytes());
        out.extend_from_slice(&(4 * words.len() as u16 + 4).to_be_bytes());
        for word in *words {
            out.extend_from_slice(&word.to_be_bytes());
        }
    }
    let len = out.len() as u32;
    out[4..8].copy_from_slice(&len.to_be_bytes());
    hex(&out)
}

/// Runs lines after a plan; each must give its result.
fn check(plan: &str, lines: &[(&str, &str)]) {
    let mut session = Session::new();
    let mut out = Vec::new();
    session.line(plan.as_bytes(), &mut out);
    assert_eq!(out, b"0\n");
    for (place, (line, expected)) in lines.iter().enumerate() {
        out.clear();
        session.line(line.as_bytes(), &mut out);
        let result = String::from_utf8(out.clone()).unwrap();
        assert_eq!(result.trim_end_matches('\n'), *expected, "{place}: {line}");
    }
}

fn msg(p: u32, hex: &str) -> String {
    format!("msg {p} 1544 {hex}")
}

#[test]
fn samples() {
    let stop116 = "010004010000001c000b0008000000010008000c0000006400000074";
    check(
        &plan_s(),
        &[
            (&msg(0, UP), "N 2 (0,772,0,0) (0,1,0,65538)"),
            (&format!("msg 0 1543 {M}"), "R 101"),
            (
                &msg(0, stop116),
                "N 3 (0,1027,0,0) (0,0,116,2) (0,1,0,65539)",
            ),
            (&msg(0, M), "N 1 (0,1027,0,0)"),
            (&msg(1, UP), "N 1 (1,772,0,0)"),
            (&msg(1, ACTIVE), "N 2 (1,1027,0,0) (0,1,0,131074)"),
            (&msg(1, DOWN), "N 2 (1,773,0,0) (0,1,0,65540)"),
            (
                "state",
                "up=100 active= waiting=10 links=00000000000000000 held=",
            ),
            ("recovery 0 1544", "N 1 (0,1,0,65538)"),
            ("recovery 0 1544", "N 0"),
        ],
    );
}

#[test]
fn refusals_in_order() {
    // The state of zeros is not sound: 105 before all else.
    let script = format!("msg 99 0 {M}\nlost 0 0\nrecovery 0 1544\nup 0 1544\ndown 0 1544\nlinkmsg 0 -\nbytes 0 0 lost 0 0\nreach lost 0 1544\n");
    assert_eq!(
        run(script.as_bytes()),
        b"R 105\nR 105\nR 105\nR 105\nR 105\nR 105\n105\n-\n"
    );
    check(
        &plan_s(),
        &[
            (&format!("msg 3 0 {UP}"), "R 102"),
            ("msg 4294967295 1544 -", "R 102"),
            ("lost 3 0", "R 102"),
            ("recovery 2 0", "R 102"),
            ("up 17 0", "R 102"),
            ("down 17 0", "R 102"),
            ("linkmsg 0 -", "R 102"),
            (&format!("linkmsg 1544 {M}"), "R 102"),
            ("linkmsg 1544 01000000000000100000000000000000", "R 102"),
            ("msg 2 1543 -", "R 101"),
            ("msg 2 1544 -", "N 1 (2,0,0,7)"),
            ("lost 2 1543", "R 101"),
            ("recovery 1 1543", "R 101"),
            ("up 16 1543", "R 101"),
            ("down 16 1543", "R 101"),
            ("up 16 4294967295", "N 0"),
            ("reach up 16 1543", "-"),
            ("reach up 16 1544", "1"),
        ],
    );
}

#[test]
fn errors_are_not_answered() {
    check(
        &plan_s(),
        &[
            (&msg(0, "00000000"), "N 0"),
            (&msg(0, "000000"), "N 1 (0,0,0,7)"),
            (&msg(0, "ffff0000ffffffffff"), "N 0"),
            (&msg(0, &"00".repeat(3000)), "N 0"),
            (&msg(0, "0100000000000008"), "N 0"),
            (&msg(0, "0100000100000008"), "N 1 (0,0,0,22)"),
            (&msg(0, "0200030100000008"), "N 1 (0,0,0,1)"),
        ],
    );
}

#[test]
fn up_and_down() {
    let right = message(3, 1, &[(0x11, &[7])]);
    let wrong = message(3, 1, &[(0x11, &[8])]);
    check(
        &plan_s(),
        &[
            (&msg(0, &wrong), "N 1 (0,0,0,15)"),
            (&msg(0, DOWN), "N 1 (0,773,0,0)"),
            (&msg(0, &right), "N 2 (0,772,0,0) (0,1,0,65538)"),
            (&msg(0, &right), "N 1 (0,772,0,0)"),
            (&msg(0, ACTIVE), "N 2 (0,1027,0,0) (0,1,0,65539)"),
            (&msg(0, ACTIVE), "N 1 (0,1027,0,0)"),
            (&msg(0, &wrong), "N 1 (0,0,0,15)"),
            (&msg(0, UP), "N 3 (0,772,0,0) (0,0,0,6) (0,1,0,65540)"),
            // Pending stays pending when the last one drops.
            ("lost 0 1544", "N 0"),
            (
                "state",
                "up=000 active= waiting=10 links=00000000000000000 held=",
            ),
            (&msg(0, UP), "N 1 (0,772,0,0)"),
            (&msg(0, ACTIVE), "N 2 (0,1027,0,0) (0,1,0,65539)"),
            ("lost 0 1544", "N 0"),
            ("recovery 0 1544", "N 0"),
            (
                "state",
                "up=000 active= waiting=00 links=00000000000000000 held=",
            ),
        ],
    );
}

#[test]
fn beat_and_others() {
    let beat = "010003030000001000090005aa000000";
    let mut lines = vec![
        (msg(2, beat), "N 1 (2,774,0,0)".to_string()),
        (msg(2, "0100030600000008"), "N 0".to_string()),
    ];
    let state = (0x302, &[0u32][..]);
    let others = [
        message(0, 1, &[(0xd, &[0])]),
        message(3, 4, &[]),
        message(3, 5, &[]),
        message(4, 3, &[]),
        message(4, 4, &[]),
        message(6, 3, &[(1, &[999])]),
        message(6, 5, &[(1, &[999])]),
        message(6, 6, &[(1, &[999])]),
        message(6, 8, &[(1, &[999]), state]),
        message(6, 9, &[(1, &[999]), (0x303, &[1])]),
        message(6, 11, &[(1, &[999]), (0x306, &[2]), (0x308, &[0])]),
        message(6, 12, &[(1, &[999]), (0x300, &[0])]),
        message(6, 13, &[(1, &[999])]),
        message(6, 14, &[(1, &[999]), (0x304, &[0])]),
    ];
    for other in &others {
        lines.push((msg(2, other), "N 1 (2,0,0,6)".to_string()));
    }
    let lines: Vec<(&str, &str)> = lines.iter().map(|l| (&l.0[..], &l.1[..])).collect();
    check(&plan_s(), &lines);
}

#[test]
fn active_and_inactive() {
    // ASP 3 is in no AS; AS 1 has no links; AS 2 only the last link of the
    // range.
    let plan = plan(
        &[(1, 0b111), (2, 0b101), (3, 0b101), (4, 0)],
        &[1, 2, 3],
        &[(10, 0), (11, 0), (12, 2), (20, 2)],
    );
    let all = message(4, 1, &[(8, &[10, 12])]);
    let mixed = message(4, 1, &[(1, &[20, 10]), (8, &[12, 12, 13, 20])]);
    let load = message(4, 1, &[(0xb, &[2])]);
    let wrong = message(4, 1, &[(1, &[10, 12]), (0xb, &[3])]);
    let second = message(4, 1, &[(1, &[12, 20])]);
    let every = message(4, 1, &[(8, &[0, 0xffff_ffff])]);
    let last = message(4, 1, &[(8, &[20, 0xffff_ffff])]);
    let off = message(4, 2, &[(1, &[12])]);
    check(
        &plan,
        &[
            (&msg(0, ACTIVE), "N 1 (0,0,0,6)"),
            (&msg(3, UP), "N 1 (3,772,0,0)"),
            (&msg(3, ACTIVE), "N 1 (3,0,0,6)"),
            (&msg(3, &all), "N 1 (3,0,10,2)"),
            (
                &msg(0, UP),
                "N 4 (0,772,0,0) (0,1,0,65538) (0,1,1,65538) (0,1,2,65538)",
            ),
            (
                &msg(0, &mixed),
                "N 4 (0,1027,0,0) (0,0,13,2) (0,1,0,65539) (0,1,2,65539)",
            ),
            (&msg(0, &every), "N 2 (0,1027,0,0) (0,0,0,2)"),
            (&msg(0, &last), "N 2 (0,1027,0,0) (0,0,21,2)"),
            (
                &msg(0, UP),
                "N 4 (0,772,0,0) (0,0,0,6) (0,1,0,65540) (0,1,2,65540)",
            ),
            ("recovery 0 1544", "N 1 (0,1,0,65538)"),
            ("recovery 2 1544", "N 1 (0,1,2,65538)"),
            (&msg(0, &load), "N 1 (0,0,0,5)"),
            (&msg(0, &wrong), "N 1 (0,0,0,5)"),
            (&msg(1, UP), "N 1 (1,772,0,0)"),
            (
                &msg(0, &all),
                "N 5 (0,1027,0,0) (0,1,0,65539) (1,1,0,65539) (0,1,2,65539) (1,1,2,65539)",
            ),
            (
                "state",
                "up=1101 active=0:0,0:2 waiting=000 links=0000 held=",
            ),
            (&msg(1, &second), "N 1 (1,1027,0,0)"),
            (&msg(1, ACTIVE), "N 2 (1,1027,0,0) (0,1,0,131074)"),
            (
                "state",
                "up=1101 active=0:2,1:0,1:2 waiting=000 links=0000 held=",
            ),
            (&msg(0, &off), "N 1 (0,1028,0,0)"),
            (&msg(0, INACTIVE), "N 1 (0,1028,0,0)"),
            (
                &msg(1, INACTIVE),
                "N 5 (1,1028,0,0) (0,1,0,65540) (1,1,0,65540) (0,1,2,65540) (1,1,2,65540)",
            ),
            ("state", "up=1101 active= waiting=101 links=0000 held="),
            ("reach msg 0 1544 0100040100000008", "0,1,2"),
            (&format!("reach {}", msg(0, &every)), "0,2"),
            (&format!("reach {}", msg(3, &every)), "-"),
            (&format!("reach {}", msg(1, &last)), "2"),
        ],
    );
}

#[test]
fn links() {
    let plan = plan(
        &[(1, 1), (2, 1), (3, 2)],
        &[2, 1],
        &[(10, 0), (11, 0), (20, 1)],
    );
    let m = |kind: u8, id: u32| message(6, kind, &[(1, &[id])]);
    let data = message(6, 1, &[(1, &[10]), (0x300, &[7])]);
    let corr = message(6, 1, &[(1, &[10]), (0x300, &[7]), (0x13, &[77])]);
    let state = message(6, 7, &[(1, &[10]), (0x302, &[9])]);
    let fetch = message(6, 10, &[(1, &[10]), (0x306, &[2]), (0x307, &[1])]);
    let ack = message(6, 15, &[(1, &[10]), (0x13, &[1])]);
    let ind = |id: u32| {
        format!(
            "linkmsg 1544 {}",
            message(6, 9, &[(1, &[id]), (0x303, &[1])])
        )
    };
    check(
        &plan,
        &[
            (&msg(0, &m(2, 10)), "N 1 (0,0,0,6)"),
            (&msg(0, UP), "N 2 (0,772,0,0) (0,1,0,65538)"),
            (&msg(0, &m(2, 99)), "N 1 (0,0,99,2)"),
            (&msg(0, &m(2, 20)), "N 1 (0,0,20,2)"),
            (&msg(0, &m(2, 10)), "N 1 (0,0,0,6)"),
            (&ind(10), "N 0"),
            (&ind(12), "R 102"),
            (&msg(0, ACTIVE), "N 2 (0,1027,0,0) (0,1,0,65539)"),
            (&msg(0, &ack), "N 0"),
            (&msg(0, &data), "N 1 (0,0,0,6)"),
            (&msg(0, &m(4, 10)), "N 1 (0,1541,10,0)"),
            ("up 0 1544", "N 0"),
            ("down 0 1544", "N 0"),
            (&msg(0, &m(2, 10)), "N 1 (255,1538,10,0)"),
            (&msg(0, &m(2, 10)), "N 0"),
            (&msg(0, &data), "N 1 (0,0,0,6)"),
            ("up 0 1544", "N 1 (0,1539,10,0)"),
            (&msg(0, &m(2, 10)), "N 1 (0,1539,10,0)"),
            (&msg(0, &data), "N 1 (255,1537,10,0)"),
            (&msg(0, &corr), "N 2 (255,1537,10,0) (0,1551,10,77)"),
            (&msg(0, &state), "N 1 (255,1543,10,9)"),
            (&msg(0, &fetch), "N 1 (255,1546,10,2)"),
            (&msg(1, UP), "N 1 (1,772,0,0)"),
            (&msg(1, ACTIVE), "N 1 (1,1027,0,0)"),
            // Load-share: 10 mod 2 is 0, 11 mod 2 is 1.
            (&ind(10), "N 1 (0,1545,10,0)"),
            (&ind(11), "N 1 (1,1545,11,0)"),
            (&msg(1, &m(4, 10)), "N 1 (255,1540,10,0)"),
            (&msg(1, &m(4, 10)), "N 0"),
            (&msg(1, &m(2, 10)), "N 1 (255,1538,10,0)"),
            (&msg(1, &m(4, 10)), "N 1 (255,1540,10,0)"),
            ("state", "up=110 active=0:0,1:0 waiting=00 links=300 held="),
            ("down 0 1544", "N 1 (0,1541,10,0)"),
            (&msg(1, &m(2, 11)), "N 1 (255,1538,11,0)"),
            ("down 1 1544", "N 1 (1,1542,11,0)"),
            ("state", "up=110 active=0:0,1:0 waiting=00 links=000 held="),
            (&format!("reach {}", msg(0, &m(3, 20))), "1"),
            (&format!("reach {}", msg(0, &m(3, 21))), "-"),
            (&format!("reach {}", ind(20)), "1"),
            (&format!("reach {}", ind(21)), "-"),
        ],
    );
}

#[test]
fn orders_as_bytes() {
    let bytes = |place: u32, room: u32, event: &str| format!("bytes {place} {room} {event}");
    let stop116 = message(4, 1, &[(8, &[100, 116])]);
    let beat = "01ff03030000001000090005aabbccdd";
    let notify = message(
        0,
        1,
        &[(0xd, &[65539]), (1, &(100..=115).collect::<Vec<u32>>())],
    );
    let late = message(
        4,
        1,
        &[(8, &[100, 101]), (1, &[103]), (0xb, &[1]), (8, &[110, 110])],
    );
    let ack = message(
        4,
        3,
        &[(0xb, &[1]), (8, &[100, 101]), (1, &[103]), (8, &[110, 110])],
    );
    check(
        &plan_s(),
        &[
            (&bytes(0, 8, &msg(0, UP)), "0 0100030400000008"),
            (&bytes(0, 7, &msg(0, UP)), "103"),
            (&bytes(2, 0, &msg(0, UP)), "104"),
            (&bytes(2, 0, "msg 3 0 -"), "102"),
            (
                &bytes(0, 99, "msg 0 0 -"),
                "0 0100000000000010000c000800000007",
            ),
            (
                &bytes(0, 99, &msg(0, beat)),
                "0 010003060000001000090005aa000000",
            ),
            (
                &bytes(0, 99, "msg 0 0 010003030000000c00090004"),
                "0 010003060000000c00090004",
            ),
            (
                &bytes(0, 99, "msg 0 0 0100030300000008"),
                "0 0100030600000008",
            ),
            (&msg(0, UP), "N 2 (0,772,0,0) (0,1,0,65538)"),
            (
                &bytes(1, 24, &msg(0, &stop116)),
                "0 0100000000000018000c0008000000020001000800000074",
            ),
            (&bytes(1, 99, &msg(0, M)), &format!("0 {notify}")),
            (&bytes(0, 99, &msg(0, &late)), &format!("0 {ack}")),
            (&msg(0, &late), "N 2 (0,1027,0,0) (0,1,0,65539)"),
            (
                &bytes(
                    0,
                    99,
                    "linkmsg 0 015506090000001800010008000000640303000800000001",
                ),
                "0 010006090000001800010008000000640303000800000001",
            ),
            (
                &bytes(
                    0,
                    99,
                    "linkmsg 0 0155060c0000001800010008000000640300000511ffffff",
                ),
                "0 0100060c0000001800010008000000640300000511000000",
            ),
            (
                &bytes(0, 99, &msg(0, &message(6, 2, &[(1, &[100])]))),
                "104",
            ),
            (
                &msg(0, &message(6, 2, &[(1, &[100])])),
                "N 1 (255,1538,100,0)",
            ),
            (
                &bytes(0, 16, "up 0 0"),
                "0 01000603000000100001000800000064",
            ),
            (
                &bytes(0, 16, "down 0 0"),
                "0 01000606000000100001000800000064",
            ),
            ("up 0 1544", "N 1 (0,1539,100,0)"),
            (
                &bytes(
                    1,
                    24,
                    &msg(
                        0,
                        &message(6, 1, &[(1, &[100]), (0x301, &[5]), (0x13, &[9])]),
                    ),
                ),
                "0 0100060f0000001800010008000000640013000800000009",
            ),
        ],
    );
}

#[test]
fn most_orders() {
    let asps: Vec<(u32, u16)> = (0..16).map(|p| (p, 0xffff)).collect();
    let mut lines = vec![plan(&asps, &[2; 16], &[])];
    lines.extend((0..16).map(|p| msg(p, UP)));
    lines.push(msg(5, ACTIVE));
    lines.push(format!("msg 5 1543 {UP}"));
    lines.push(format!("bytes 257 99 {}", msg(5, UP)));
    lines.push(msg(5, UP));
    let out = String::from_utf8(run(lines.join("\n").as_bytes())).unwrap();
    let results: Vec<&str> = out.lines().collect();
    assert!(results[17].starts_with("N 257 "));
    assert_eq!(results[18], "R 101");
    assert_eq!(results[19], "0 0100000100000010000d000800010004");
    assert!(results[20].starts_with("N 258 (5,772,0,0) (5,0,0,6) (0,1,0,65540) (1,1,0,65540)"));
    assert!(results[20].ends_with("(15,1,15,65540)"));
}

/// The command of a link's Data, with a correlation id or without.
fn data(id: u32, unit: &[u8], correlation: Option<u32>) -> String {
    let mut out = vec![1, 0, 6, 1, 0, 0, 0, 0, 0, 1, 0, 8];
    out.extend_from_slice(&id.to_be_bytes());
    if let Some(number) = correlation {
        out.extend_from_slice(&[0, 0x13, 0, 8]);
        out.extend_from_slice(&number.to_be_bytes());
    }
    out.extend_from_slice(&[3, 0]);
    out.extend_from_slice(&(unit.len() as u16 + 4).to_be_bytes());
    out.extend_from_slice(unit);
    out.resize((out.len() + 3) & !3, 0);
    let len = out.len() as u32;
    out[4..8].copy_from_slice(&len.to_be_bytes());
    format!("linkmsg 1544 {}", hex(&out))
}

/// A place of the hold that has these bytes first and then all of another.
fn place(first: &str, then: &str) -> String {
    format!("{first}{}", then.repeat(273 - first.len() / 2))
}

/// Plan S with ASP 0 up and active, then inactive: AS 0 is pending.
fn pending(then: &[(&str, &str)]) {
    let mut lines = vec![
        (msg(0, UP), "N 2 (0,772,0,0) (0,1,0,65538)"),
        (msg(0, M), "N 2 (0,1027,0,0) (0,1,0,65539)"),
        (msg(0, INACTIVE), "N 2 (0,1028,0,0) (0,1,0,65540)"),
    ];
    lines.extend(then.iter().map(|line| (line.0.to_string(), line.1)));
    let lines: Vec<(&str, &str)> = lines.iter().map(|line| (&line.0[..], line.1)).collect();
    check(&plan_s(), &lines);
}

#[test]
fn held_and_sent_out() {
    let links = "links=00000000000000000";
    let two = "held=0:768:7:100:-,0:768:5:115:9";
    let first = "01000601 00000018 00010008 00000064 03000007 aabbcc00".replace(' ', "");
    let second =
        "01000601 00000020 00010008 00000073 03000005 dd000000 00130008 00000009".replace(' ', "");
    let notify = "01000001 00000054 000d0008 00010003 00010044".replace(' ', "");
    let active = msg(0, ACTIVE);
    pending(&[
        ("paint 238", "0"),
        (&data(100, &[0xaa, 0xbb, 0xcc], None), "N 0"),
        (&data(115, &[0xdd], Some(9)), "N 0"),
        ("state", &format!("up=100 active= waiting=10 {links} {two}")),
        ("held 0 0", &place("aabbcc", "ee")),
        ("held 0 1", &place("dd", "ee")),
        ("held 0 2", &place("", "ee")),
        (&format!("bytes 1 24 {active}"), &format!("0 {first}")),
        (&format!("bytes 1 23 {active}"), "103"),
        (&format!("bytes 2 32 {active}"), &format!("0 {second}")),
        (&format!("bytes 2 31 {active}"), "103"),
        (
            &format!("bytes 3 84 {active}"),
            &format!(
                "0 {notify}{}",
                (100..=115)
                    .map(|id| format!("{id:08x}"))
                    .collect::<String>()
            ),
        ),
        (&format!("bytes 4 99 {active}"), "104"),
        (
            &active,
            "N 4 (0,1027,0,0) (0,1537,100,0) (0,1537,115,0) (0,1,0,65539)",
        ),
        (
            "state",
            &format!("up=100 active=0:0 waiting=00 {links} held="),
        ),
        // What was sent out lies in the hold still.
        ("held 0 0", &place("aabbcc", "ee")),
        (&active, "N 1 (0,1027,0,0)"),
    ]);
}

#[test]
fn held_in_pending_only() {
    let unit = data(100, &[1], None);
    let indication = message(6, 12, &[(1, &[100]), (0x300, &[7])]);
    let complete = message(6, 13, &[(1, &[100]), (0x301, &[7])]);
    check(
        &plan_s(),
        &[
            // Down, then inactive.
            (&unit, "N 0"),
            (&msg(0, UP), "N 2 (0,772,0,0) (0,1,0,65538)"),
            (&unit, "N 0"),
            (&msg(0, ACTIVE), "N 2 (0,1027,0,0) (0,1,0,65539)"),
            (&unit, "N 1 (0,1537,100,0)"),
            (
                "state",
                "up=100 active=0:0 waiting=00 links=00000000000000000 held=",
            ),
            ("lost 0 1544", "N 0"),
            // Other messages with data are not held.
            (&format!("linkmsg 1544 {indication}"), "N 0"),
            (&format!("linkmsg 1544 {complete}"), "N 0"),
            (&unit, "N 0"),
            (
                "state",
                "up=000 active= waiting=10 links=00000000000000000 held=0:768:5:100:-",
            ),
            // Nothing of ASPs that come and go touches it.
            (&msg(0, UP), "N 1 (0,772,0,0)"),
            (&msg(0, INACTIVE), "N 1 (0,1028,0,0)"),
            (&msg(1, UP), "N 1 (1,772,0,0)"),
            (&msg(0, DOWN), "N 1 (0,773,0,0)"),
            (&msg(1, DOWN), "N 1 (1,773,0,0)"),
            (
                "state",
                "up=000 active= waiting=10 links=00000000000000000 held=0:768:5:100:-",
            ),
            // It goes to the ASP that becomes active.
            (&msg(1, UP), "N 1 (1,772,0,0)"),
            (
                &msg(1, ACTIVE),
                "N 3 (1,1027,0,0) (1,1537,100,0) (1,1,0,65539)",
            ),
        ],
    );
}

#[test]
fn held_until_recovery() {
    let up = "up=100 active= waiting=00 links=00000000000000000 held=";
    pending(&[
        (&data(100, &[1, 2], Some(0)), "N 0"),
        (
            "state",
            "up=100 active= waiting=10 links=00000000000000000 held=0:768:6:100:0",
        ),
        ("recovery 0 1543", "R 101"),
        ("recovery 0 1544", "N 1 (0,1,0,65538)"),
        ("state", up),
        ("held 0 0", &place("0102", "00")),
        (&msg(0, ACTIVE), "N 2 (0,1027,0,0) (0,1,0,65539)"),
    ]);
}

#[test]
fn the_ninth_is_turned_away() {
    let units: Vec<String> = (1..=9)
        .map(|n| data(100 + n, &[n as u8; 273], None))
        .collect();
    let mut lines: Vec<(&str, &str)> = units.iter().map(|unit| (&unit[..], "N 0")).collect();
    let held: Vec<String> = (101..=108).map(|id| format!("0:768:277:{id}:-")).collect();
    let state = format!(
        "up=100 active= waiting=10 links=00000000000000000 held={}",
        held.join(",")
    );
    let last = place("", "08");
    let next = place("", "00");
    let sent: Vec<String> = (101..=108).map(|id| format!("(0,1537,{id},0)")).collect();
    let active = format!("N 10 (0,1027,0,0) {} (0,1,0,65539)", sent.join(" "));
    let back = msg(0, ACTIVE);
    lines.extend([
        ("state", &state[..]),
        ("held 0 7", &last),
        // The first place of AS 1.
        ("held 1 0", &next),
        (&back, &active),
    ]);
    pending(&lines);
}

#[test]
fn holds_of_another_length() {
    let unit = data(100, &[1], None);
    let bytes = format!("bytes 9 0 {}", msg(0, UP));
    let reach = format!("reach {}", msg(0, UP));
    let mut lines = vec![("hold 34944", "0"), (&reach[..], "0"), (&bytes, "104")];
    for length in ["hold 34943", "hold 34945", "hold 0", "hold 4294967295"] {
        lines.extend([
            (length, "0"),
            // After 102, before 101, 103 and 104.
            ("lost 3 0", "R 102"),
            ("lost 2 0", "R 106"),
            ("lost 2 1544", "R 106"),
            ("recovery 0 1543", "R 106"),
            ("up 0 1544", "R 106"),
            ("down 17 1544", "R 102"),
            ("msg 0 1544 -", "R 106"),
            ("linkmsg 1544 -", "R 102"),
            (&unit, "R 106"),
            (&bytes, "106"),
            ("bytes 0 0 lost 3 0", "102"),
            (&reach, "-"),
        ]);
    }
    lines.extend([
        ("hold 34944", "0"),
        ("lost 2 1543", "R 101"),
        (&bytes, "104"),
        (
            "state",
            "up=100 active= waiting=10 links=00000000000000000 held=",
        ),
    ]);
    pending(&lines);
    let zeros = "hold 0\nlost 0 0\nbytes 0 0 lost 0 0\nreach lost 0 1544\n";
    assert_eq!(run(zeros.as_bytes()), b"0\nR 105\n105\n-\n");
}

#[test]
fn commands_of_the_hold() {
    let zeros = place("", "00");
    let sevens = place("", "07");
    check(
        &plan_s(),
        &[
            ("held 0 0", &zeros),
            ("held 15 7", &zeros),
            ("paint 7", "0"),
            // Another one is lent, and this one is still there.
            ("hold 5", "0"),
            ("held 15 7", &sevens),
            ("paint 255", "0"),
            ("hold 34944", "0"),
            ("held 0 0", &place("", "ff")),
            (&plan_s(), "0"),
            ("held 0 0", &place("", "ff")),
            ("paint 256", "?"),
            ("paint", "?"),
            ("paint 1 1", "?"),
            ("held 16 0", "?"),
            ("held 0 8", "?"),
            ("held 0", "?"),
            ("held 0 0 0", "?"),
            ("hold", "?"),
            ("hold 1 1", "?"),
            ("hold 4294967296", "?"),
            ("lost 0 1544", "N 0"),
        ],
    );
}

/// Eight units in each of 16 ASes: Ack, 128 units and 256 Notifies.
#[test]
fn most_orders_of_a_full_hold() {
    let asps: Vec<(u32, u16)> = (0..16).map(|p| (p, 0xffff)).collect();
    let links: Vec<(u32, u32)> = (0..16).map(|a| (500 + a, a)).collect();
    let mut lines = vec![plan(&asps, &[2; 16], &links)];
    lines.extend((0..16).map(|p| msg(p, UP)));
    lines.push(msg(5, ACTIVE));
    lines.push(msg(5, INACTIVE));
    for k in 0..9u8 {
        lines.extend((0..16).map(|a| data(500 + a, &[k, a as u8], None)));
    }
    let setup = lines.len();
    lines.push(format!("msg 6 1543 {ACTIVE}"));
    // The last unit of AS 15, the first Notify of AS 0, the last one.
    for place in [1 + 24 * 15 + 7, 1 + 8, 384, 385] {
        lines.push(format!("bytes {place} 99 {}", msg(6, ACTIVE)));
    }
    lines.push(msg(6, ACTIVE));
    lines.push("state".into());
    let out = String::from_utf8(run(lines.join("\n").as_bytes())).unwrap();
    let results: Vec<&str> = out.lines().skip(setup).collect();
    let notify = |a: u32| format!("0 0100000100000018000d00080001000300010008{:08x}", 500 + a);
    assert_eq!(results[0], "R 101");
    assert_eq!(
        results[1],
        "0 0100060100000018000100080000020303000006070f0000"
    );
    assert_eq!(results[2], notify(0));
    assert_eq!(results[3], notify(15));
    assert_eq!(results[4], "104");
    assert!(results[5].starts_with("N 385 (6,1027,0,0) (6,1537,500,0) (6,1537,500,0)"));
    assert!(results[5].contains(" (6,1537,500,0) (0,1,0,65539) (1,1,0,65539)"));
    assert!(results[5].contains(" (15,1,0,65539) (6,1537,501,0)"));
    assert!(results[5].ends_with("(15,1,15,65539)"));
    assert!(results[6].ends_with(" held="));
}

#[test]
fn words_after_the_orders_stay() {
    let mut session = Session::new();
    session.line(plan_s().as_bytes(), &mut Vec::new());
    let gateway = *session.gateway();
    let mut hold = [0x77; HOLD_BYTES];
    let mut list = [0xabab_abab; 1550];
    let next = gateway.message(0, &unhex(UP), &mut hold, &mut list);
    assert_eq!((next.code, next.count), (0, 2));
    assert_eq!(list[..8], [0, 772, 0, 0, 0, 1, 0, 65538]);
    assert!(list[8..].iter().all(|word| *word == 0xabab_abab));
    let mut list = [0xabab_abab; 1543];
    let next = gateway.message(0, &unhex(UP), &mut hold, &mut list);
    assert_eq!((next.code, next.count, next.gateway), (101, 0, gateway));
    let next = gateway.message(0, &unhex(UP), &mut hold[1..], &mut list);
    assert_eq!((next.code, next.count, next.gateway), (106, 0, gateway));
    assert!(list.iter().all(|word| *word == 0xabab_abab));
    assert!(hold.iter().all(|byte| *byte == 0x77));
    let mut buffer = [0x55; 40];
    let event = Event::Lost { asp: 9 };
    assert_eq!(gateway.order_bytes(event, &hold, 0, &mut buffer).code, 102);
    assert_eq!(buffer, [0x55; 40]);
    let message = unhex(UP);
    let event = Event::Message {
        asp: 0,
        message: &message,
    };
    assert_eq!(gateway.order_bytes(event, &hold, 0, &mut buffer).length, 8);
    assert_eq!(buffer[8..], [0x55; 32]);
}

/// The rules once more, with sets and lists, slow and plain.
mod plain {
    use super::*;

    type Orders = Vec<[u32; 4]>;

    fn state(g: &Gateway, a: usize) -> u32 {
        let members: Vec<usize> = (0..16).filter(|p| g.member[16 * a + p] == 1).collect();
        if members.iter().any(|p| g.active[16 * a + p] == 1) {
            3
        } else if g.waiting[a] == 1 {
            4
        } else if members.iter().any(|p| g.up[*p] == 1) {
            2
        } else {
            1
        }
    }

    fn recipients(g: &Gateway, link: usize) -> Vec<usize> {
        let a = g.owner[link] as usize;
        let active: Vec<usize> = (0..16).filter(|p| g.active[16 * a + p] == 1).collect();
        if g.mode[a] == 2 && !active.is_empty() {
            return vec![active[g.link_id[link] as usize % active.len()]];
        }
        active
    }

    fn find(g: &Gateway, id: u64) -> Option<usize> {
        (0..g.links as usize).find(|i| g.link_id[*i] as u64 == id)
    }

    /// Ranges as start and stop.
    fn ranges(m: &[u8]) -> Vec<(u64, u64)> {
        let mut all = Vec::new();
        for param in Params::new(m) {
            let words: Vec<u64> = param
                .value
                .chunks_exact(4)
                .map(|w| u32::from_be_bytes(w.try_into().unwrap()) as u64)
                .collect();
            match param.tag {
                1 => all.extend(words.iter().map(|id| (*id, *id))),
                8 => all.extend(words.chunks(2).map(|pair| (pair[0], pair[1]))),
                _ => {}
            }
        }
        all
    }

    /// What p names: the links of the good ones, and the first bad one.
    fn named(g: &Gateway, p: usize, m: &[u8]) -> (Vec<usize>, Option<u64>) {
        let ranges = ranges(m);
        let served = |link: &usize| g.member[16 * g.owner[*link] as usize + p] == 1;
        let is_named = |link: &usize| {
            let id = g.link_id[*link] as u64;
            ranges
                .iter()
                .any(|(start, stop)| *start <= id && id <= *stop)
        };
        let good = (0..g.links as usize).filter(served).filter(is_named);
        // No walk is long: a range has a bad one, or it has few.
        let mut all = ranges.iter().flat_map(|(start, stop)| *start..=*stop);
        let bad = all.find(|id| !find(g, *id).is_some_and(|link| served(&link)));
        (good.collect(), bad)
    }

    /// State changes of all ASes, with what else is told there.
    fn notify(before: &Gateway, g: &mut Gateway, taken: &[(usize, usize)], orders: &mut Orders) {
        for a in 0..g.ases as usize {
            let (old, new) = (state(before, a), state(g, a));
            // Units go out first: the one that is active now is the only one.
            if let (4, 3, Some(p)) = (old, new, (0..16).find(|p| g.active[16 * a + p] == 1)) {
                send_out(g, a, p, orders);
            }
            for p in 0..16 {
                let told = g.member[16 * a + p] == 1 && g.up[p] == 1;
                if old != new && new != 1 && told {
                    orders.push([p as u32, 1, a as u32, 65536 + new]);
                }
                if taken.contains(&(a, p)) {
                    orders.push([p as u32, 1, a as u32, 131074]);
                }
            }
        }
    }

    fn deactivate(g: &mut Gateway, a: usize, p: usize) {
        if g.active[16 * a + p] == 1 {
            g.active[16 * a + p] = 0;
            if (0..16).all(|q| g.active[16 * a + q] == 0) {
                g.waiting[a] = 1;
            }
        }
    }

    fn link_side_place(g: &Gateway, m: &[u8]) -> Option<usize> {
        let r = read(m);
        if r.code != 0 || r.class != 6 || ![1, 8, 9, 11, 12, 13, 14].contains(&r.kind) {
            return None;
        }
        find(g, r.id as u64).filter(|link| !too_high(g, *link, m))
    }

    /// Whether a message has a sequence number that its link cannot have.
    fn too_high(g: &Gateway, link: usize, m: &[u8]) -> bool {
        let most = [127, 4095][g.highspeed[link] as usize];
        let mut numbers = Params::new(m).filter(|param| param.tag == 0x307);
        numbers.any(|n| u32::from_be_bytes(n.value.try_into().unwrap()) > most)
    }

    /// What AS a holds goes out to p.
    fn send_out(g: &mut Gateway, a: usize, p: usize, orders: &mut Orders) {
        for k in 0..g.held[a] as usize {
            orders.push([p as u32, 0x601, g.held_id[8 * a + k], 0]);
        }
        forget(g, a);
    }

    fn forget(g: &mut Gateway, a: usize) {
        g.held[a] = 0;
        for i in 8 * a..8 * a + 8 {
            (g.held_tag[i], g.held_len[i], g.held_marked[i]) = (0, 0, 0);
            (g.held_id[i], g.held_correlation[i]) = (0, 0);
        }
    }

    /// Data of the link side for a pending AS.
    fn hold_it(g: &mut Gateway, hold: &mut [u8], a: usize, m: &[u8]) {
        let k = g.held[a] as usize;
        if k == 8 {
            return;
        }
        let i = 8 * a + k;
        g.held[a] += 1;
        for param in Params::new(m) {
            let word = || u32::from_be_bytes(param.value[..4].try_into().unwrap());
            match param.tag {
                1 => g.held_id[i] = word(),
                0x13 => (g.held_marked[i], g.held_correlation[i]) = (1, word()),
                _ => {
                    (g.held_tag[i], g.held_len[i]) = (param.tag, param.len);
                    for (j, byte) in param.value.iter().enumerate() {
                        hold[2184 * a + 273 * k + j] = *byte;
                    }
                }
            }
        }
    }

    type Given = (Orders, Gateway, Vec<u8>);

    pub fn event(before: &Gateway, lent: &[u8], event: Event, words: usize) -> Result<Given, u32> {
        if !is_sound(before) {
            return Err(105);
        }
        let inside = match event {
            Event::Message { asp, .. } | Event::Lost { asp } => asp < before.asps as u32,
            Event::Recovery { server } => server < before.ases as u32,
            Event::LinkUp { link } | Event::LinkDown { link } => link < before.links as u32,
            Event::LinkMessage { message } => link_side_place(before, message).is_some(),
        };
        if !inside {
            return Err(102);
        }
        if lent.len() != 34944 {
            return Err(106);
        }
        if words < 1544 {
            return Err(101);
        }
        let mut g = *before;
        let mut hold = lent.to_vec();
        let mut orders = Vec::new();
        match event {
            Event::Message { asp, message } => {
                on_message(&mut g, asp as usize, message, &mut orders)
            }
            Event::Lost { asp } => {
                let p = asp as usize;
                (0..16).for_each(|a| deactivate(&mut g, a, p));
                g.up[p] = 0;
                notify(before, &mut g, &[], &mut orders);
            }
            Event::Recovery { server } => {
                g.waiting[server as usize] = 0;
                forget(&mut g, server as usize);
                notify(before, &mut g, &[], &mut orders);
            }
            Event::LinkUp { link } | Event::LinkDown { link } => {
                let link = link as usize;
                let (kind, next) = match (event, g.state[link]) {
                    (Event::LinkUp { .. }, 1) => (0x603, 2),
                    (Event::LinkUp { .. }, old) => (0, old),
                    (_, 0) => (0, 0),
                    (_, 3) => (0x605, 0),
                    _ => (0x606, 0),
                };
                g.state[link] = next;
                if kind != 0 {
                    for p in recipients(&g, link) {
                        orders.push([p as u32, kind, g.link_id[link], 0]);
                    }
                }
            }
            Event::LinkMessage { message } => {
                let link = link_side_place(&g, message).unwrap();
                let a = g.owner[link] as usize;
                if message[3] == 1 && state(&g, a) == 4 {
                    hold_it(&mut g, &mut hold, a, message);
                }
                for p in recipients(&g, link) {
                    orders.push([p as u32, 0x600 + message[3] as u32, g.link_id[link], 0]);
                }
            }
        }
        Ok((orders, g, hold))
    }

    fn on_message(g: &mut Gateway, p: usize, m: &[u8], orders: &mut Orders) {
        let before = *g;
        let to = p as u32;
        if m.len() >= 4 && m[2] == 0 && m[3] == 0 {
            return;
        }
        let r = read(m);
        if r.code != 0 {
            return orders.push([to, 0, 0, r.code]);
        }
        let mine: Vec<usize> = (0..16).filter(|a| g.member[16 * a + p] == 1).collect();
        match (r.class, r.kind) {
            (3, 1) => {
                if r.has_asp_id == 1 && r.asp_id != g.asp_id[p] {
                    return orders.push([to, 0, 0, 15]);
                }
                orders.push([to, 0x304, 0, 0]);
                if mine.iter().any(|a| g.active[16 * a + p] == 1) {
                    orders.push([to, 0, 0, 6]);
                }
                mine.iter().for_each(|a| deactivate(g, *a, p));
                g.up[p] = 1;
                notify(&before, g, &[], orders);
            }
            (3, 2) => {
                orders.push([to, 0x305, 0, 0]);
                mine.iter().for_each(|a| deactivate(g, *a, p));
                g.up[p] = 0;
                notify(&before, g, &[], orders);
            }
            (3, 3) => orders.push([to, 0x306, 0, 0]),
            (3, 6) => {}
            (4, 1 | 2) => {
                if g.up[p] == 0 {
                    return orders.push([to, 0, 0, 6]);
                }
                let (good, bad) = named(g, p, m);
                let owners = good.iter().map(|link| g.owner[*link] as usize);
                let mut named: BTreeSet<usize> = owners.collect();
                let refused = bad.map(|id| [to, 0, id as u32, 2]);
                if let Some(error) = refused {
                    if named.is_empty() || g.wholelists[p] == 1 {
                        return orders.push(error);
                    }
                }
                if ranges(m).is_empty() {
                    named.extend(&mine);
                    if named.is_empty() {
                        return orders.push([to, 0, 0, 6]);
                    }
                }
                if r.mode != 0 && named.iter().any(|a| g.mode[*a] as u32 != r.mode) {
                    return orders.push([to, 0, 0, 5]);
                }
                orders.push([to, 0x402 + r.kind, 0, 0]);
                orders.extend(refused);
                let mut taken = Vec::new();
                for a in named {
                    if r.kind == 2 {
                        deactivate(g, a, p);
                        continue;
                    }
                    for q in 0..16 {
                        if g.mode[a] == 1 && q != p && g.active[16 * a + q] == 1 {
                            g.active[16 * a + q] = 0;
                            taken.push((a, q));
                        }
                    }
                    g.active[16 * a + p] = 1;
                    g.waiting[a] = 0;
                }
                notify(&before, g, &taken, orders);
            }
            (6, 1 | 2 | 4 | 7 | 10 | 15) => {
                if g.up[p] == 0 {
                    return orders.push([to, 0, 0, 6]);
                }
                let link = find(g, r.id as u64);
                let Some(link) = link.filter(|l| mine.contains(&(g.owner[*l] as usize))) else {
                    return orders.push([to, 0, r.id, 2]);
                };
                if g.active[16 * g.owner[link] as usize + p] == 0 {
                    return orders.push([to, 0, 0, 6]);
                }
                let there = |value: u32| [255, 0x600 + r.kind, r.id, value];
                match (r.kind, g.state[link]) {
                    (2, 2) => orders.push([to, 0x603, r.id, 0]),
                    (2, 0 | 3) => {
                        g.state[link] = 1;
                        orders.push(there(0));
                    }
                    (4, 0) => orders.push([to, 0x605, r.id, 0]),
                    (4, 1 | 2) => {
                        g.state[link] = 3;
                        orders.push(there(0));
                    }
                    (1, 2) => {
                        orders.push(there(0));
                        if r.has_correlation == 1 {
                            orders.push([to, 0x60f, r.id, r.correlation]);
                        }
                    }
                    (1, _) => orders.push([to, 0, 0, 6]),
                    (7, _) => orders.push(there(r.state)),
                    (10, _) if too_high(g, link, m) => orders.push([to, 0, 0, 17]),
                    (10, _) => orders.push(there(r.action)),
                    _ => {}
                }
            }
            _ => orders.push([to, 0, 0, 6]),
        }
    }

    pub fn reach(g: &Gateway, lent: &[u8], event: Event, words: usize) -> BTreeSet<usize> {
        let mut all = BTreeSet::new();
        if self::event(g, lent, event, words).is_err() {
            return all;
        }
        let mine = |p: u32| (0..16).filter(move |a| g.member[16 * a + p as usize] == 1);
        let owner = |link: usize| g.owner[link] as usize;
        match event {
            Event::Lost { asp } => all.extend(mine(asp)),
            Event::Recovery { server } => all.extend([server as usize]),
            Event::LinkUp { link } | Event::LinkDown { link } => all.extend([owner(link as usize)]),
            Event::LinkMessage { message } => {
                all.extend(link_side_place(g, message).map(owner));
            }
            Event::Message { asp, message } => {
                let r = read(message);
                if r.code != 0 {
                    return all;
                }
                match (r.class, r.kind) {
                    (3, 1 | 2) => all.extend(mine(asp)),
                    (4, 1 | 2) if ranges(message).is_empty() => all.extend(mine(asp)),
                    (4, 1 | 2) => {
                        let (good, _) = named(g, asp as usize, message);
                        all.extend(good.into_iter().map(owner));
                    }
                    (6, _) => all.extend(find(g, r.id as u64).map(owner)),
                    _ => {}
                }
            }
        }
        all
    }

    /// The units of the ASes that an event leaves with none, as tags and values:
    /// an Active sends them out in this sequence.
    fn units(g: &Gateway, after: &Gateway, hold: &[u8]) -> Vec<Vec<(u16, Vec<u8>)>> {
        let mut all = Vec::new();
        for i in (0..128).filter(|i| g.held_tag[*i] != 0 && after.held_tag[*i] == 0) {
            let unit = &hold[273 * i..273 * i + g.held_len[i] as usize - 4];
            let mut list = vec![(1, g.held_id[i].to_be_bytes().to_vec())];
            list.push((g.held_tag[i], unit.to_vec()));
            if g.held_marked[i] == 1 {
                list.push((0x13, g.held_correlation[i].to_be_bytes().to_vec()));
            }
            all.push(list);
        }
        all
    }

    /// The order as a list of tags and values, written by the writer.
    pub fn bytes(
        g: &Gateway,
        lent: &[u8],
        event: Event,
        place: u32,
        room: usize,
    ) -> Result<Vec<u8>, u32> {
        let (orders, after, _) = self::event(g, lent, event, 1544)?;
        let order = orders.get(place as usize).ok_or(104u32)?;
        let [addressee, code, subject, value] = *order;
        if addressee == 255 {
            return Err(104);
        }
        let received: Vec<(u16, Vec<u8>)> = match event {
            Event::Message { message, .. } | Event::LinkMessage { message } => Params::new(message)
                .map(|p| (p.tag, p.value.to_vec()))
                .collect(),
            _ => Vec::new(),
        };
        let word = |number: u32| number.to_be_bytes().to_vec();
        let only = |tags: &[u16]| {
            let kept = received.iter().filter(|item| tags.contains(&item.0));
            kept.cloned().collect::<Vec<_>>()
        };
        let list = match (event, code) {
            (Event::LinkMessage { .. }, _) => received.clone(),
            (_, 0) if value == 2 => vec![(0xc, word(2)), (1, word(subject))],
            (_, 0) => vec![(0xc, word(value))],
            (_, 1) => {
                let links = (0..g.links as usize).filter(|i| g.owner[*i] as u32 == subject);
                let ids: Vec<u8> = links.flat_map(|i| g.link_id[i].to_be_bytes()).collect();
                let mut list = vec![(0xd, word(value))];
                if !ids.is_empty() {
                    list.push((1, ids));
                }
                list
            }
            (_, 0x601) => {
                let earlier = orders[..place as usize].iter();
                let number = earlier.filter(|order| order[1] == 0x601).count();
                units(g, &after, lent).swap_remove(number)
            }
            (_, 0x306) => only(&[9]),
            (Event::Message { asp, message }, 0x403 | 0x404) => {
                let (good, bad) = named(g, asp as usize, message);
                let ids = good.iter().flat_map(|link| word(g.link_id[*link]));
                let good = vec![(1, ids.collect())];
                let named = bad.map_or(only(&[1, 8]), |_| good);
                [only(&[0xb]), named].concat()
            }
            (_, 0x603 | 0x605 | 0x606) => vec![(1, word(subject))],
            (_, 0x60f) => vec![(1, word(subject)), (0x13, word(value))],
            _ => Vec::new(),
        };
        let tags: Vec<u16> = list.iter().map(|item| item.0).collect();
        let lens: Vec<u32> = list.iter().map(|item| item.1.len() as u32).collect();
        let values: Vec<u8> = list.iter().flat_map(|item| item.1.clone()).collect();
        let mut out = vec![0; room];
        let written = second::write(code >> 8, code & 255, &tags, &lens, &values, &mut out);
        if written.code != 0 {
            return Err(written.code);
        }
        out.truncate(written.length as usize);
        Ok(out)
    }
}

/// The event of a line, if the line is one that was not damaged.
fn parse(words: &[&str], bytes: &mut Vec<u8>) -> Option<(Vec<u32>, &'static str)> {
    let number = |i: usize| words.get(i)?.parse::<u32>().ok();
    let (name, indexes, hex_at) = match words[0] {
        "msg" => ("msg", vec![number(1)?, number(2)?], Some(3)),
        "linkmsg" => ("linkmsg", vec![0, number(1)?], Some(2)),
        "lost" => ("lost", vec![number(1)?, number(2)?], None),
        "recovery" => ("recovery", vec![number(1)?, number(2)?], None),
        "up" => ("up", vec![number(1)?, number(2)?], None),
        "down" => ("down", vec![number(1)?, number(2)?], None),
        _ => return None,
    };
    if let Some(at) = hex_at {
        *bytes = unhex(words.get(at)?);
    }
    Some((indexes, name))
}

/// What generated histories do with units, and how many links are idle.
#[derive(Default, Debug)]
struct Tally {
    came: u64,
    sent: u64,
    discarded: u64,
    turned_away: u64,
    still_held: u64,
    /// Lengths of units that came in, and whether with a correlation id.
    lengths: BTreeSet<u16>,
    marks: BTreeSet<u16>,
    lines: u64,
    idle: f64,
}

impl Tally {
    fn line(&mut self, g: &Gateway) {
        if g.links > 0 {
            let states = &g.state[..g.links as usize];
            let idle = states.iter().filter(|state| **state == 0).count();
            self.lines += 1;
            self.idle += idle as f64 / states.len() as f64;
        }
    }

    /// An event that is not refused.
    fn event(&mut self, name: &str, before: &Gateway, after: &Gateway, message: &[u8]) {
        let held = |g: &Gateway| g.held.iter().map(|count| *count as u64).sum::<u64>();
        let (old, new) = (held(before), held(after));
        match name {
            "linkmsg" if message[3] == 1 => {
                let link = before.find_link(read(message).id).unwrap();
                let a = before.owner[link] as usize;
                if before.waiting[a] == 1 {
                    self.came += 1;
                    self.turned_away += (before.held[a] == 8) as u64;
                    self.lengths.extend(&after.held_len[8 * a..8 * a + 8]);
                    self.marks.extend(&after.held_marked[8 * a..8 * a + 8]);
                }
            }
            "recovery" => self.discarded += old - new,
            "msg" => self.sent += old - new,
            _ => assert_eq!(old, new),
        }
    }

    /// The units that a plan leaves behind.
    fn end(&mut self, g: &Gateway) {
        self.still_held += g.held.iter().map(|count| *count as u64).sum::<u64>();
    }
}

#[test]
fn generated_histories() {
    let mut tally = Tally::default();
    let mut errors = BTreeMap::new();
    let mut kinds = BTreeMap::new();
    let mut results = BTreeMap::new();
    let (mut compared, mut most, mut chars) = (0, 0, 0);
    let mut notified = BTreeSet::new();
    let mut states: BTreeSet<u8> = BTreeSet::new();
    let mut modes: BTreeSet<u8> = BTreeSet::new();
    let scripts = [
        (1, Kind::Event),
        (2, Kind::Event),
        (3, Kind::Bytes),
        (4, Kind::Bytes),
        (5, Kind::Ranges),
        (6, Kind::Partly),
        (7, Kind::Partly),
    ];
    for (seed, kind) in scripts {
        let mut session = Session::new();
        generate(seed, 10_000, kind, &mut |line| {
            chars += line.len() + 1;
            let (before, lent) = (*session.gateway(), session.hold().to_vec());
            let mut out = Vec::new();
            session.line(line, &mut out);
            let result = String::from_utf8(out).unwrap();
            let result = result.trim_end_matches('\n');
            let after = *session.gateway();
            let text = String::from_utf8(line.to_vec()).unwrap();
            let mut words: Vec<&str> = text.split(' ').collect();
            if result.is_empty() || result == "?" {
                assert_eq!(before, after);
                assert!(lent == session.hold());
                return Ok(());
            }
            let first = words[0];
            if first == "plan" {
                tally.end(&before);
            }
            // Of `ranges` and `partly` no link is brought into service.
            let serves = !matches!(kind, Kind::Ranges | Kind::Partly);
            if !["plan", "hold", "paint"].contains(&first) && serves {
                tally.line(&before);
            }
            let skip = match first {
                "reach" => 1,
                "bytes" => 3,
                _ => 0,
            };
            let numbers: Vec<u32> = words[1..].iter().take(2).flat_map(|w| w.parse()).collect();
            words.drain(..skip);
            let mut bytes = Vec::new();
            let Some((indexes, name)) = parse(&words, &mut bytes) else {
                return Ok(());
            };
            let (index, list) = (indexes[0], indexes[1].min(2048) as usize);
            let event = match name {
                "msg" => Event::Message {
                    asp: index,
                    message: &bytes,
                },
                "linkmsg" => Event::LinkMessage { message: &bytes },
                "lost" => Event::Lost { asp: index },
                "recovery" => Event::Recovery { server: index },
                "up" => Event::LinkUp { link: index },
                _ => Event::LinkDown { link: index },
            };
            compared += 1;
            if first == "reach" {
                let reached = plain::reach(&before, &lent, event, list);
                let reached: Vec<String> = reached.iter().map(|a| a.to_string()).collect();
                let expected = if reached.is_empty() {
                    "-".into()
                } else {
                    reached.join(",")
                };
                assert_eq!(result, expected, "{text}");
                assert_eq!(before, after);
                return Ok(());
            }
            if first == "bytes" {
                let room = numbers[1].min(8192) as usize;
                let expected = match plain::bytes(&before, &lent, event, numbers[0], room) {
                    Ok(bytes) => {
                        assert_eq!(read(&bytes).code, 0);
                        format!("0 {}", hex(&bytes))
                    }
                    Err(code) => code.to_string(),
                };
                let code = expected.split(' ').next().unwrap();
                *results.entry(code.to_string()).or_insert(0) += 1;
                assert_eq!(result, expected, "{text}");
                assert_eq!(before, after);
                return Ok(());
            }
            match plain::event(&before, &lent, event, list) {
                Err(code) => {
                    *results.entry(format!("R {code}")).or_insert(0) += 1;
                    assert_eq!(result, format!("R {code}"), "{text}");
                    assert_eq!(before, after);
                    assert!(lent == session.hold());
                }
                Ok((orders, next, hold)) => {
                    let mut expected = format!("N {}", orders.len());
                    for [a, c, s, v] in &orders {
                        expected += &format!(" ({a},{c},{s},{v})");
                        *kinds.entry((*a == 255, *c)).or_insert(0) += 1;
                        match c {
                            0 => *errors.entry(*v).or_insert(0) += 1,
                            1 => drop(notified.insert(*v)),
                            _ => {}
                        }
                    }
                    most = most.max(orders.len());
                    assert_eq!(result, expected, "{text}");
                    assert_eq!(after, next, "{text}");
                    assert!(hold == session.hold(), "{text}");
                    assert!(is_sound(&after));
                    tally.event(name, &before, &after, &bytes);
                    states.extend(&after.state[..after.links as usize]);
                    modes.extend(&after.mode[..after.ases as usize]);
                    // What is not reached is as it was.
                    let reached = before.reach(event, lent.len(), list);
                    for a in (0..16).filter(|a| !bits(reached).any(|b| b == *a)) {
                        let place = 2184 * a..2184 * a + 2184;
                        assert_eq!(lent[place.clone()], session.hold()[place]);
                        assert_eq!(before.held[a], after.held[a]);
                        for k in 0..8 {
                            assert_eq!(before.unit(a, k), after.unit(a, k));
                        }
                        assert_eq!(before.actives(a), after.actives(a));
                        assert_eq!(before.waiting[a], after.waiting[a]);
                        for link in (0..128).filter(|i| before.owner[*i] as usize == a) {
                            assert_eq!(before.state[link], after.state[link]);
                        }
                    }
                }
            }
            Ok(())
        })
        .unwrap();
        tally.end(session.gateway());
    }
    println!("{compared} compared, most orders {most}, {chars} characters");
    println!("errors {errors:?}\nkinds {kinds:?}\nresults {results:?}");
    let codes: Vec<u32> = errors.keys().copied().collect();
    assert_eq!(codes, [1, 2, 3, 4, 5, 6, 7, 8, 15, 17, 18, 19, 22]);
    let notified: Vec<u32> = notified.into_iter().collect();
    assert_eq!(notified, [65538, 65539, 65540, 131074]);
    let seen: Vec<&str> = results.keys().map(|key| &key[..]).collect();
    assert_eq!(
        seen,
        ["0", "102", "103", "104", "105", "106", "R 101", "R 102", "R 105", "R 106"]
    );
    assert_eq!((states.len(), modes.len(), most), (4, 3, 386));
    check_tally(&tally);
}

fn check_tally(tally: &Tally) {
    let Tally {
        came,
        sent,
        discarded,
        turned_away,
        still_held,
        ..
    } = *tally;
    let idle = tally.idle / tally.lines as f64;
    println!("{came} units came in pending: {sent} sent out, {discarded} discarded, {turned_away} turned away, {still_held} still held");
    println!("{:.1} % of the links are idle", 100.0 * idle);
    assert_eq!(came, sent + discarded + turned_away + still_held);
    assert!(sent > 500 && discarded > 100 && turned_away > 100 && still_held > 0);
    // Every length that a unit can have is rare; both ends must be there.
    assert!(tally.lengths.contains(&5) && tally.lengths.contains(&277));
    assert!(tally.lengths.len() > 100 && tally.marks.len() == 2);
    assert!(idle < 0.5);
}

/// Loads a generated plan: `load` and the script agree.
#[test]
fn plan_command() {
    let text = plan_s();
    let file = unhex(text.strip_prefix("plan ").unwrap());
    let mut session = Session::new();
    session.line(text.as_bytes(), &mut Vec::new());
    assert_eq!(load(&file).gateway, *session.gateway());
}
