//! Charts and captures of small scripts.
use m2ua_trace::{capture, chart, script, svg, trace};

const PLAN: &str = "plan 000000180000000100000020000000010000002400000001000000070001000000000001000000640000 0000";

fn source(lines: &str) -> String {
    format!("{}\n{lines}", PLAN.replace("0000 0000", "00000000"))
}

fn traced(lines: &str) -> trace::Trace {
    trace::run(&script::parse(&source(lines)).unwrap())
}

#[test]
fn a_chart() {
    let t = traced("msg 0 1544 0100030100000008\nmsg 0 1544 0100040100000008\nmsg 0 1544 01000602000000100001000800000064\nup 0 1544\nlost 0 1544\nrecovery 0 1544\nmsg 0 1543 -\nlost 1 1544\n");
    let expected = "
 link side  gateway    ASP 0     ASP 1
     |         |         |         |
     |         *         |         |  plan: 1 ASPs, 1 ASes, 1 links
     |         |         |         |
     |         |<--------|         |  ASP Up
     |         |-------->|         |  ASP Up Ack
     |         |-------->|         |  Notify, AS 0 inactive
     |         *         |         |  AS 0 is inactive
     |         |         |         |
     |         |<--------|         |  ASP Active
     |         |-------->|         |  ASP Active Ack
     |         |-------->|         |  Notify, AS 0 active
     |         *         |         |  AS 0 is active
     |         |         |         |
     |         |<--------|         |  Establish Request of link 100
     |<--------|         |         |  Establish Request of link 100
     |         |         |         |
     |-------->|         |         |  link 100 in service
     |         |-------->|         |  Establish Confirm of link 100
     |         |         |         |
     |         |.........X         |  association lost
     |         *         |         |  AS 0 is pending, T(r) starts
     |         |         |         |
     |         *         |         |  T(r) of AS 0 is over
     |         *         |         |  AS 0 is down
     |         |         |         |
     |         |<--------|         |  0 bytes that do not read: 7 (protocol error)
     |         *         |         |  refused: 101 (the lent list of words is too short)
     |         |         |         |
     |         |...................X  association lost
     |         *         |         |  refused: 102 (no such ASP, AS or link in the plan, or a message of the link side that does not fit)
";
    assert_eq!(format!("\n{}", chart::text(&t)), expected);
    let picture = svg::picture(&t);
    assert_eq!(picture.matches("<text").count(), 4 + t.steps.len());
    assert!(picture.starts_with("<svg ") && picture.ends_with("</svg>\n"));
}

#[test]
fn a_capture_has_each_message_of_an_association() {
    let t = traced("msg 0 1544 0100030100000008\nup 0 1544\nlost 0 1544\n");
    let file = capture::pcap(&t);
    assert_eq!(file[..4], [0xd4, 0xc3, 0xb2, 0xa1]);
    let (mut at, mut chunks) = (24, Vec::new());
    while at < file.len() {
        let length = u32::from_le_bytes(file[at + 8..at + 12].try_into().unwrap()) as usize;
        let packet = &file[at + 16..at + 16 + length];
        assert_eq!((packet[0], packet[9]), (0x45, 132));
        assert_eq!(
            usize::from(u16::from_be_bytes([packet[2], packet[3]])),
            length
        );
        let mut segment = packet[20..].to_vec();
        let sum = u32::from_le_bytes(segment[8..12].try_into().unwrap());
        segment[8..12].fill(0);
        assert_eq!(capture::crc32c(&segment), sum);
        chunks.push((packet[15], packet[19], packet[32]));
        at += 16 + length;
    }
    // last byte of source and destination, kind of chunk
    assert_eq!(chunks, [(1, 1, 0), (1, 1, 0), (1, 1, 0), (1, 1, 6)]);
    assert_eq!(capture::crc32c(b"123456789"), 0xe306_9283);
}

#[test]
fn units_that_wait() {
    let data = "010006010000001800010008000000640300000507000000";
    let fill = format!("linkmsg 1544 {data}\n").repeat(9);
    let (up, active, inactive) = ("0100030100000008", "0100040100000008", "0100040200000008");
    let script = format!(
        "msg 0 1544 {up}\nmsg 0 1544 {active}\nmsg 0 1544 {inactive}\nhold 1\nlinkmsg 1543 {data}\nlinkmsg 1543 00\nhold 34944\npaint 9\nlinkmsg 1543 {data}\n{fill}msg 0 1544 {active}\n\
         msg 0 1544 {inactive}\nlinkmsg 1544 {data}\nheld 0 0\nrecovery 0 1544\n"
    );
    let t = traced(&script);
    let labels: Vec<&str> = t.steps.iter().map(|s| s.label.as_str()).collect();
    let mut expected = vec![
        "plan: 1 ASPs, 1 ASes, 1 links",
        "ASP Up",
        "ASP Up Ack",
        "Notify, AS 0 inactive",
        "AS 0 is inactive",
        "ASP Active",
        "ASP Active Ack",
        "Notify, AS 0 active",
        "AS 0 is active",
        "ASP Inactive",
        "ASP Inactive Ack",
        "Notify, AS 0 pending",
        "AS 0 is pending, T(r) starts",
        "Data of link 100",
        "refused: 106 (the lent hold has another length)",
        "1 bytes that do not read: 7 (protocol error)",
        "refused: 102 (no such ASP, AS or link in the plan, or a message of the link side that does not fit)",
        "Data of link 100",
        "refused: 101 (the lent list of words is too short)",
    ];
    let kept: Vec<String> = (1..9)
        .map(|n| format!("AS 0 keeps the unit, {n} held"))
        .collect();
    for note in &kept {
        expected.extend(["Data of link 100", note]);
    }
    expected.extend(["Data of link 100", "AS 0 turns the unit away, 8 held"]);
    expected.extend(["ASP Active", "ASP Active Ack"]);
    expected.extend(["Data of link 100"; 8]);
    expected.extend(["Notify, AS 0 active", "AS 0 is active"]);
    expected.extend([
        "ASP Inactive",
        "ASP Inactive Ack",
        "Notify, AS 0 pending",
        "AS 0 is pending, T(r) starts",
        "Data of link 100",
        "AS 0 keeps the unit, 1 held",
        "T(r) of AS 0 is over",
        "Notify, AS 0 inactive",
        "AS 0 is inactive",
        "AS 0 discards what it held, 1",
    ]);
    assert_eq!(labels, expected);
}

#[test]
fn sequence_numbers_and_kinds_of_links() {
    // link 100 plain, link 200 high-speed
    let plan = "plan 00000018000000010000002000000001000000240000000200000007000100000000000100000064000000000000\
                00c800010000";
    let request = |id: &str, after: &str| {
        format!("0100060a0000002000010008000000{id}0306000800000002030700080000{after}")
    };
    let confirm = |id: &str, bsn: &str| {
        format!(
            "0100060b0000002800010008000000{id}03060008000000010308000800000000030700080000{bsn}"
        )
    };
    let script = format!(
        "{plan}\nmsg 0 1544 0100030100000008\nmsg 0 1544 0100040100000008\nmsg 0 1544 {}\nlinkmsg 1544 {}\nmsg 0 1544 {}\nmsg 0 1544 {}\nlinkmsg 1544 {}\nmsg 0 1544 {}\n",
        request("c8", "0fff"),
        confirm("c8", "0fff"),
        request("64", "007f"),
        request("64", "0080"),
        confirm("64", "0080"),
        request("c8", "1000")
    );
    let t = trace::run(&script::parse(&script).unwrap());
    let labels: Vec<&str> = t.steps.iter().skip(9).map(|s| s.label.as_str()).collect();
    assert_eq!(
        t.steps[0].label,
        "plan: 1 ASPs, 1 ASes, 2 links, 1 of them high-speed"
    );
    assert_eq!(
        labels,
        [
            "Data Retrieval Request of link 200, sequence number 4095",
            "Data Retrieval Request of link 200, action 2",
            "Data Retrieval Confirm of link 200, sequence number 4095",
            "Data Retrieval Confirm of link 200",
            "Data Retrieval Request of link 100, sequence number 127",
            "Data Retrieval Request of link 100, action 2",
            "Data Retrieval Request of link 100, sequence number 128",
            "Error 17 (invalid parameter value)",
            "Data Retrieval Confirm of link 100, sequence number 128",
            "refused: 102 (no such ASP, AS or link in the plan, or a message of the link side that does not fit)",
            "32 bytes that do not read: 17 (invalid parameter value)",
            "Error 17 (invalid parameter value)",
        ]
    );
}

#[test]
fn wrong_lines_are_named() {
    for (line, why) in [
        ("nonsense", "line 2: no command of docs/SCRIPT.md: nonsense"),
        ("lost x 1544", "line 2: 'x' is no number of 32 bits"),
        (
            "lost 4294967296 1",
            "line 2: '4294967296' is no number of 32 bits",
        ),
        (
            "msg 0 1544 0",
            "line 2: bytes are pairs of hex digits, or -",
        ),
        (
            "msg 0 1544 é1",
            "line 2: bytes are pairs of hex digits, or -",
        ),
        ("lost 0", "line 2: no command of docs/SCRIPT.md: lost 0"),
        ("hold", "line 2: no command of docs/SCRIPT.md: hold"),
        ("hold x", "line 2: 'x' is no number of 32 bits"),
        ("paint 256", "line 2: '256' is no byte"),
    ] {
        assert_eq!(script::parse(&source(line)).unwrap_err(), why);
    }
    assert_eq!(
        script::parse("# nothing\n\nstate\nread 00\nreach lost 0 1544\nheld 0 0\n").unwrap(),
        []
    );
}

#[test]
fn without_a_plan_every_event_is_refused() {
    let t = trace::run(&script::parse("plan 00\nlost 0 1544\n").unwrap());
    let labels: Vec<&str> = t.steps.iter().map(|s| s.label.as_str()).collect();
    assert_eq!(
        labels,
        [
            "plan refused: 201 (plan file: a count, an offset or the length is wrong)",
            "association lost",
            "refused: 105 (the state is not sound)"
        ]
    );
}

#[test]
fn lists_that_succeed_in_part() {
    // two ASPs, the second with whole lists; links 100 and 101
    let plan = "plan 000000180000000200000028000000010000002c00000002000000070001000000000008000100010000000200000064\
                000000000000006500000000";
    let list = "01000401000000140008000c0000006500000066";
    let script = format!(
        "{plan}\nmsg 0 1544 0100030100000008\nmsg 1 1544 0100030100000008\nmsg 0 1544 {list}\nmsg 1 1544 {list}\n"
    );
    let t = trace::run(&script::parse(&script).unwrap());
    assert_eq!(
        t.steps[0].label,
        "plan: 2 ASPs (1 with whole-lists), 1 ASes, 2 links"
    );
    let labels: Vec<&str> = t.steps.iter().skip(7).map(|s| s.label.as_str()).collect();
    assert_eq!(
        labels,
        [
            "ASP Active, with identifiers",
            "ASP Active Ack",
            "Error 2 (invalid interface identifier 102)",
            "Notify, AS 0 active",
            "Notify, AS 0 active",
            "AS 0 is active",
            "ASP Active, with identifiers",
            "Error 2 (invalid interface identifier 102)",
        ]
    );
}
