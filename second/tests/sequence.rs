//! Sequence numbers of plain and of high-speed links: the reader and the
//! writer, the plan's rows, soundness, the events.

use second::events::Event;
use second::script::Session;
use second::{is_sound, load, read, write, Gateway, Reading, HOLD_BYTES};

/// Numbers about each limit, with the reader's verdict.
const NUMBERS: [(u32, u32); 15] = [
    (0, 0),
    (1, 0),
    (126, 0),
    (127, 0),
    (128, 0),
    (129, 0),
    (255, 0),
    (256, 0),
    (4094, 0),
    (4095, 0),
    (4096, 17),
    (65_535, 17),
    (65_536, 17),
    (1 << 31, 17),
    (u32::MAX, 17),
];

/// A message of parameters of one number each.
fn message(kind: u8, params: &[(u16, u32)]) -> Vec<u8> {
    let mut out = vec![1, 0, 6, kind, 0, 0, 0, 8 + 8 * params.len() as u8];
    for (tag, number) in params {
        out.extend(tag.to_be_bytes());
        out.extend([0, 8]);
        out.extend(number.to_be_bytes());
    }
    out
}

/// A Retrieval Request that has the number.
fn request(id: u32, number: u32) -> Vec<u8> {
    message(10, &[(1, id), (0x306, 2), (0x307, number)])
}

/// A Retrieval Confirm that has it.
fn confirm(id: u32, number: u32) -> Vec<u8> {
    message(11, &[(1, id), (0x306, 1), (0x307, number), (0x308, 0)])
}

fn hex(bytes: &[u8]) -> String {
    bytes.iter().map(|byte| format!("{byte:02x}")).collect()
}

// ---- reading and writing

#[test]
fn what_reads() {
    for (number, code) in NUMBERS {
        for (m, action) in [(request(9, number), 2), (confirm(9, number), 1)] {
            let accepted = Reading {
                class: 6,
                kind: m[3] as u32,
                ids: 1,
                id: 9,
                action,
                has_sequence: 1,
                sequence: number,
                ..Reading::default()
            };
            let refused = Reading {
                code,
                ..Reading::default()
            };
            let expected = if code == 0 { accepted } else { refused };
            assert_eq!(read(&m), expected, "{number}");
        }
    }
    // Every number of 12 bits, and none of 13.
    for number in 0..=8191 {
        let fits = number <= 4095;
        assert_eq!(read(&request(1, number)).code == 0, fits, "{number}");
        assert_eq!(read(&confirm(1, number)).code == 0, fits, "{number}");
    }
}

#[test]
fn no_number() {
    let m = read(&message(10, &[(1, 9), (0x306, 1)]));
    assert_eq!((m.code, m.has_sequence, m.sequence), (0, 0, 0));
    let m = read(&message(11, &[(1, 9), (0x306, 2), (0x308, 0)]));
    assert_eq!((m.code, m.has_sequence, m.sequence), (0, 0, 0));
    // Where it should not be there, a number that reads is 19 and one that does
    // not is 17; where it is missing, 22.
    let with = |number| message(10, &[(1, 9), (0x306, 1), (0x307, number)]);
    assert_eq!(read(&with(4095)).code, 19);
    assert_eq!(read(&with(4096)).code, 17);
    assert_eq!(read(&message(10, &[(1, 9), (0x306, 2)])).code, 22);
}

#[test]
fn what_is_written() {
    for (number, code) in NUMBERS {
        for (m, action) in [(request(9, number), 2), (confirm(9, number), 1)] {
            let count = m.len() / 8 - 1;
            let tags = &[1, 0x306, 0x307, 0x308][..count];
            let values = [9, action, number, 0].map(u32::to_be_bytes).concat();
            let mut out = [0x55; 64];
            let written = write(
                6,
                m[3] as u32,
                tags,
                &[4; 4][..count],
                &values[..4 * count],
                &mut out,
            );
            let length = if code == 0 { m.len() } else { 0 };
            assert_eq!((written.code, written.length as usize), (code, length));
            assert_eq!(out[..length], m[..length]);
            assert!(out[length..].iter().all(|byte| *byte == 0x55));
        }
    }
}

// ---- the plan

/// A plan file: two ASes, AS 0 with ASPs 0 and 1, AS 1 with ASP 2; links of
/// these identifiers and second words.
fn plan(links: &[(u32, u32)]) -> Vec<u8> {
    let mut words = vec![24, 3, 48, 2, 56, links.len() as u32];
    words.extend([7, 1 << 16, 8, 1 << 16, 9, 2 << 16]);
    words.extend([3, 3]);
    words.extend(links.iter().flat_map(|(id, word)| [*id, *word]));
    words.iter().flat_map(|word| word.to_be_bytes()).collect()
}

#[test]
fn rows_of_links() {
    for (kind, fits) in [
        (0, true),
        (1, true),
        (2, false),
        (3, false),
        (255, false),
        (256, false),
        (257, false),
        (0x7fff, false),
        (0x8000, false),
        (0xffff, false),
    ] {
        for (owner, known) in [
            (0, true),
            (1, true),
            (2, false),
            (16, false),
            (255, false),
            (256, false),
            (0xffff, false),
        ] {
            let word = kind << 16 | owner;
            for at in 0..3 {
                let mut links = [(5, 0), (6, 1), (7, 0x1_0000)];
                links[at].1 = word;
                let loaded = load(&plan(&links));
                let good = fits && known;
                assert_eq!(loaded.code, if good { 0 } else { 202 }, "{word:#x}");
                assert_eq!(is_sound(&loaded.gateway), good);
                if !good {
                    assert_eq!(loaded.gateway, Gateway::ZERO);
                    continue;
                }
                let g = loaded.gateway;
                assert_eq!((g.owner[at], g.highspeed[at]), (owner as u8, kind as u8));
                assert_eq!(g.highspeed[3..], [0; 125]);
            }
        }
    }
    // The layout comes before the rows.
    let mut long = plan(&[(5, 0x2_0000)]);
    assert_eq!(load(&long).code, 202);
    long.push(0);
    assert_eq!(load(&long).code, 201);
}

#[test]
fn all_links_high_speed() {
    let links: Vec<(u32, u32)> = (0..128).map(|l| (l, 0x1_0000 + l % 2)).collect();
    let g = load(&plan(&links)).gateway;
    assert_eq!((g.links, g.highspeed), (128, [1; 128]));
    assert!(is_sound(&g));
}

#[test]
fn kinds_of_a_sound_state() {
    let state = both_kinds();
    let with = |link: usize, kind: u8| {
        let mut g = state;
        g.highspeed[link] = kind;
        is_sound(&g)
    };
    for kind in 0..=255 {
        for link in 0..128 {
            let most = if link < 3 { 1 } else { 0 };
            assert_eq!(with(link, kind), kind <= most, "{kind} at {link}");
        }
    }
    // Not sound comes first.
    let mut g = state;
    g.highspeed[3] = 1;
    let m = confirm(100, 4095);
    let next = g.link_message(&m, &mut [], &mut []);
    assert_eq!((next.code, next.gateway), (105, g));
}

// ---- events

/// Links 100 (plain) and 101 (high-speed) of AS 0, and 200 (high-speed) of AS 1.
fn both_kinds() -> Gateway {
    load(&plan(&[(100, 0), (101, 0x1_0000), (200, 0x1_0001)])).gateway
}

const UP: &[u8] = &[1, 0, 3, 1, 0, 0, 0, 8];
const ACTIVE: &[u8] = &[1, 0, 4, 1, 0, 0, 0, 8];
const INACTIVE: &[u8] = &[1, 0, 4, 2, 0, 0, 0, 8];

/// The state after messages of ASPs.
fn after(state: Gateway, messages: &[(u32, &[u8])]) -> Gateway {
    messages.iter().fold(state, |g, (p, m)| {
        let next = g.message(*p, m, &mut [0; HOLD_BYTES], &mut [0; 1544]);
        assert_eq!(next.code, 0);
        next.gateway
    })
}

/// The orders of an event that must leave state and hold as they are.
fn orders(state: &Gateway, event: Event) -> Result<Vec<[u32; 4]>, u32> {
    let (mut hold, mut list) = ([0x33; HOLD_BYTES], [0x44; 1544]);
    let next = state.event(event, &mut hold, &mut list);
    assert_eq!(next.gateway, *state);
    assert_eq!(hold, [0x33; HOLD_BYTES]);
    let (given, rest) = list.split_at(4 * next.count as usize);
    assert!(rest.iter().all(|word| *word == 0x44));
    match next.code {
        0 => Ok(given.as_chunks::<4>().0.to_vec()),
        code => {
            assert_eq!(next.count, 0);
            Err(code)
        }
    }
}

fn of(asp: u32, message: &[u8]) -> Event<'_> {
    Event::Message { asp, message }
}

#[test]
fn requests_of_an_active_asp() {
    let state = after(both_kinds(), &[(0, UP), (0, ACTIVE)]);
    for (number, code) in NUMBERS {
        for (id, most) in [(100, 127), (101, 4095)] {
            let m = request(id, number);
            let expected = if number <= most {
                [255, 0x60a, id, 2]
            } else {
                [0, 0, 0, 17]
            };
            assert_eq!(orders(&state, of(0, &m)), Ok(vec![expected]), "{number}");
            // The link's owner is reached, unless the message does not read.
            let reached = state.reach(of(0, &m), HOLD_BYTES, 1544);
            assert_eq!(reached, (code == 0) as u16);
        }
    }
    // A request without a number is the same on both.
    for id in [100, 101] {
        let m = message(10, &[(1, id), (0x306, 1)]);
        assert_eq!(orders(&state, of(0, &m)), Ok(vec![[255, 0x60a, id, 1]]));
    }
}

#[test]
fn in_every_state_of_the_link() {
    let mut state = after(both_kinds(), &[(0, UP), (0, ACTIVE)]);
    for link_state in 0..4 {
        state.state[..2].fill(link_state);
        let refused = request(100, 128);
        assert_eq!(orders(&state, of(0, &refused)), Ok(vec![[0, 0, 0, 17]]));
        let fine = request(101, 128);
        assert_eq!(orders(&state, of(0, &fine)), Ok(vec![[255, 0x60a, 101, 2]]));
    }
}

#[test]
fn the_number_is_the_last_check() {
    let fresh = both_kinds();
    let up = after(fresh, &[(0, UP), (1, UP), (2, UP)]);
    let active = after(up, &[(0, ACTIVE), (2, ACTIVE)]);
    for number in [0, 127, 128, 4095] {
        let plain = request(100, number);
        // Down; up and not active; up and no member; an identifier unknown.
        assert_eq!(orders(&fresh, of(0, &plain)), Ok(vec![[0, 0, 0, 6]]));
        assert_eq!(orders(&up, of(0, &plain)), Ok(vec![[0, 0, 0, 6]]));
        assert_eq!(orders(&active, of(1, &plain)), Ok(vec![[1, 0, 0, 6]]));
        assert_eq!(orders(&active, of(2, &plain)), Ok(vec![[2, 0, 100, 2]]));
        let unknown = request(102, number);
        assert_eq!(orders(&active, of(0, &unknown)), Ok(vec![[0, 0, 102, 2]]));
        assert_eq!(orders(&fresh, of(0, &unknown)), Ok(vec![[0, 0, 0, 6]]));
        assert_eq!(orders(&active, of(3, &plain)), Err(102));
    }
    // The reader comes before all of them.
    let m = request(102, 4096);
    for state in [fresh, up, active] {
        assert_eq!(orders(&state, of(0, &m)), Ok(vec![[0, 0, 0, 17]]));
        assert_eq!(state.reach(of(0, &m), HOLD_BYTES, 1544), 0);
    }
}

#[test]
fn a_confirm_of_an_asp() {
    // No ASP sends one: neither the link nor its kind is looked at.
    let state = after(both_kinds(), &[(0, UP), (0, ACTIVE)]);
    for (id, number) in [(100, 127), (100, 4095), (101, 4095), (102, 4095)] {
        let m = confirm(id, number);
        assert_eq!(orders(&state, of(0, &m)), Ok(vec![[0, 0, 0, 6]]));
        let reached = state.reach(of(0, &m), HOLD_BYTES, 1544);
        assert_eq!(reached, (id != 102) as u16);
    }
}

#[test]
fn confirms_of_the_link_side() {
    let fresh = both_kinds();
    let active = after(fresh, &[(0, UP), (1, UP), (0, ACTIVE), (1, ACTIVE)]);
    let waits = after(active, &[(0, INACTIVE), (1, INACTIVE)]);
    assert_eq!(waits.waiting[0], 1);
    for (number, _) in NUMBERS {
        for (id, most) in [(100, 127), (101, 4095)] {
            let m = confirm(id, number);
            let event = Event::LinkMessage { message: &m };
            // Both are active in broadcast.
            let expected = match number <= most {
                true => Ok(vec![[0, 0x60b, id, 0], [1, 0x60b, id, 0]]),
                false => Err(102),
            };
            assert_eq!(orders(&active, event), expected, "{number}");
            let reached = active.reach(event, HOLD_BYTES, 1544);
            assert_eq!(reached, expected.is_ok() as u16);
            // Refused also where nobody would get it, and it is no Data to hold.
            let nobody = expected.map(|_| vec![]);
            assert_eq!(orders(&fresh, event), nobody);
            assert_eq!(orders(&waits, event), nobody);
        }
    }
    // Without a number it passes on both.
    for id in [100, 101] {
        let m = message(11, &[(1, id), (0x306, 2), (0x308, 1)]);
        let event = Event::LinkMessage { message: &m };
        assert_eq!(orders(&active, event).map(|all| all.len()), Ok(2));
    }
}

#[test]
fn refusals_in_turn() {
    let state = both_kinds();
    let m = confirm(100, 128);
    let fine = confirm(101, 128);
    for (m, hold, list, code) in [
        (&m, HOLD_BYTES - 1, 0, 102),
        (&fine, HOLD_BYTES - 1, 0, 106),
        (&fine, HOLD_BYTES, 1543, 101),
        (&fine, HOLD_BYTES, 1544, 0),
    ] {
        let next = state.link_message(m, &mut vec![0; hold], &mut vec![0; list]);
        assert_eq!((next.code, next.count, next.gateway), (code, 0, state));
        let event = Event::LinkMessage { message: m };
        let reached = state.reach(event, hold, list);
        assert_eq!(reached, (code == 0) as u16);
    }
}

#[test]
fn as_bytes() {
    let state = after(both_kinds(), &[(0, UP), (0, ACTIVE)]);
    let written = |event: Event| {
        let mut out = [0x55; 64];
        let hold = [0; HOLD_BYTES];
        let written = state.order_bytes(event, &hold, 0, &mut out);
        match written.code {
            0 => Ok(out[..written.length as usize].to_vec()),
            code => Err(code),
        }
    };
    // Error 17 names no identifier.
    let error = [1, 0, 0, 0, 0, 0, 0, 16, 0, 12, 0, 8, 0, 0, 0, 17];
    assert_eq!(written(of(0, &request(100, 4095))), Ok(error.to_vec()));
    // What goes to the link side has no bytes.
    assert_eq!(written(of(0, &request(101, 4095))), Err(104));
    let m = confirm(101, 4095);
    assert_eq!(written(Event::LinkMessage { message: &m }), Ok(m.clone()));
    let m = confirm(100, 4095);
    assert_eq!(written(Event::LinkMessage { message: &m }), Err(102));
}

#[test]
fn in_a_script() {
    let plan = plan(&[(100, 0), (101, 0x1_0000)]);
    let bad = [0, 0, 0, 100, 0, 2, 0, 0];
    let mut wrong = plan.clone();
    let at = wrong.len() - 16;
    wrong[at..at + 8].copy_from_slice(&bad);
    let lines = [
        (format!("plan {}", hex(&wrong)), "202"),
        (format!("plan {}", hex(&plan)), "0"),
        (
            format!("msg 0 1544 {}", hex(UP)),
            "N 2 (0,772,0,0) (0,1,0,65538)",
        ),
        (
            format!("msg 0 1544 {}", hex(ACTIVE)),
            "N 2 (0,1027,0,0) (0,1,0,65539)",
        ),
        (
            format!("msg 0 1544 {}", hex(&request(100, 128))),
            "N 1 (0,0,0,17)",
        ),
        (
            format!("msg 0 1544 {}", hex(&request(101, 4095))),
            "N 1 (255,1546,101,2)",
        ),
        (format!("linkmsg 1544 {}", hex(&confirm(100, 128))), "R 102"),
        (
            format!("linkmsg 1544 {}", hex(&confirm(101, 4095))),
            "N 1 (0,1547,101,0)",
        ),
        (
            format!("reach linkmsg 1544 {}", hex(&confirm(100, 128))),
            "-",
        ),
        (
            format!("reach linkmsg 1544 {}", hex(&confirm(101, 128))),
            "0",
        ),
        (format!("reach msg 0 1544 {}", hex(&request(100, 128))), "0"),
        // Kinds are not shown.
        (
            "state".into(),
            "up=100 active=0:0 waiting=00 links=00 held=",
        ),
    ];
    let mut session = Session::new();
    for (line, expected) in lines {
        let mut out = Vec::new();
        session.line(line.as_bytes(), &mut out);
        assert_eq!(String::from_utf8(out).unwrap().trim_end(), expected);
    }
}
