//! The reader: the samples (Rule 11.3), each check, and the generator's reach.

use second::generate::{generate, Kind};
use second::script::run;
use second::{protocol_data, read, Params, Reading, Step};

const M: &str = "010004010000001c000b0008000000010008000c0000006400000073";

fn bytes(hex: &str) -> Vec<u8> {
    let hex: Vec<u8> = hex.bytes().filter(|byte| *byte != b' ').collect();
    assert!(hex.len().is_multiple_of(2));
    let digit = |byte: u8| (byte as char).to_digit(16).unwrap() as u8;
    hex.chunks(2)
        .map(|pair| digit(pair[0]) << 4 | digit(pair[1]))
        .collect()
}

/// A message of these parameters with a right header.
fn message(class: u8, kind: u8, params: &[(u16, &[u8])]) -> Vec<u8> {
    let mut out = vec![1, 0, class, kind, 0, 0, 0, 0];
    for (tag, value) in params {
        out.extend_from_slice(&tag.to_be_bytes());
        out.extend_from_slice(&(value.len() as u16 + 4).to_be_bytes());
        out.extend_from_slice(value);
        while out.len() % 4 != 0 {
            out.push(0);
        }
    }
    let len = out.len() as u32;
    out[4..8].copy_from_slice(&len.to_be_bytes());
    out
}

fn code(class: u8, kind: u8, params: &[(u16, &[u8])]) -> u32 {
    let reading = read(&message(class, kind, params));
    let refused = Reading {
        code: reading.code,
        ..Reading::default()
    };
    assert!(reading.code == 0 || reading == refused);
    reading.code
}

fn word(number: u32) -> [u8; 4] {
    number.to_be_bytes()
}

const ID: (u16, &[u8]) = (0x1, &[0, 0, 0, 100]);

#[test]
fn samples() {
    let m = bytes(M);
    let expected = Reading {
        class: 4,
        kind: 1,
        ids: 1,
        mode: 1,
        ..Reading::default()
    };
    assert_eq!(read(&m), expected);
    let traded = "010004010000001c000b0008000000010008000c0000007300000064";
    assert_eq!(read(&bytes(traded)).code, 17);
    let mode4 = "010004010000001c000b0008000000040008000c0000006400000073";
    assert_eq!(read(&bytes(mode4)).code, 5);
    assert_eq!(read(&[]).code, 7);
    assert_eq!(read(&bytes("0100030100000008")).code, 0);
    assert_eq!(read(&bytes("010003010000000c")).code, 7);
    assert_eq!(read(&bytes("020003010000000c")).code, 1);
}

#[test]
fn show_sample() {
    let script = format!("show {M}\nshow -\nread {M}\nshow 0100030100000008\n");
    let expected =
        "message 4 1 28 | param 11 8 00000001 | param 8 12 0000006400000073 | verdict 0\n\
                    verdict 7\n\
                    0 11:8:00000001 8:12:0000006400000073\n\
                    message 3 1 8 | verdict 0\n";
    assert_eq!(run(script.as_bytes()), expected.as_bytes());
}

#[test]
fn empty_values() {
    let script = "read 010003030000000c00090004\nshow 010003030000000c00090004\n";
    assert_eq!(
        run(script.as_bytes()),
        b"0 9:4:\nmessage 3 3 12 | param 9 4 | verdict 0\n"
    );
}

#[test]
fn malformed_lines() {
    let bad = [
        "read",
        "read ",
        "read  -",
        " read -",
        "read - ",
        "read 0",
        "read 0A",
        "read 0g",
        "read - -",
        "read 00 00",
        "Read -",
        " ",
        "?",
        "read -\r",
        "read\t-",
        "read --",
    ];
    for line in bad {
        assert_eq!(run(format!("{line}\n").as_bytes()), b"?\n", "{line}");
    }
    assert_eq!(run(b"\n# x\n#\n\nread -"), b"7\n");
    assert_eq!(run(b"read \xff\xff\n"), b"?\n");
    for (len, expected) in [(65_535, "7\n"), (65_536, "?\n"), (65_537, "?\n")] {
        let mut line = b"read ".to_vec();
        line.resize(len, b'0');
        assert_eq!(run(&line), expected.as_bytes(), "{len}");
    }
    let mut comment = vec![b'#'; 70_000];
    comment.extend_from_slice(b"\nread -\n");
    assert_eq!(run(&comment), b"7\n");
}

#[test]
fn size_of_the_whole() {
    for len in 0..8 {
        assert_eq!(read(&bytes("0100030100000008")[..len]).code, 7);
    }
    let beat = |size: usize| {
        let data = vec![1; size];
        read(&message(3, 3, &[(0x9, &data)])).code
    };
    assert_eq!(beat(2036), 0);
    assert_eq!(beat(2033), 0);
    assert_eq!(beat(2037), 7);
    // Over 2,048 bytes comes before the version.
    let mut long = message(3, 3, &[(0x9, &[0; 2040])]);
    long[0] = 2;
    assert_eq!(read(&long).code, 7);
}

#[test]
fn header() {
    let up = bytes("0100030100000008");
    let with = |at: usize, byte: u8| {
        let mut up = up.clone();
        up[at] = byte;
        read(&up).code
    };
    assert_eq!(with(0, 0), 1);
    assert_eq!(with(1, 0xff), 0);
    for class in 0..=255 {
        let listed = [0, 3, 4, 6].contains(&class);
        assert_eq!(with(2, class) == 3, !listed, "class {class}");
    }
    for (class, first, last) in [(0, 0, 1), (3, 1, 6), (4, 1, 4), (6, 1, 15)] {
        for kind in 0..=255 {
            let listed = (first..=last).contains(&kind);
            let unlisted = read(&message(class, kind, &[])).code == 4;
            assert_eq!(unlisted, !listed, "{class}.{kind}");
        }
    }
    for len in [0, 4, 7, 9, 12] {
        assert_eq!(with(7, len), 7);
    }
    let mut odd = bytes("01000301 0000000a 0000");
    assert_eq!(read(&odd).code, 7);
    // The type comes before the length.
    odd[3] = 0;
    assert_eq!(read(&odd).code, 4);
}

#[test]
fn walk_before_parameters() {
    // The first parameter is not allowed, the second one's length is 3.
    let bad = bytes("01000301 00000014 0013 0008 00000000 0004 0003");
    assert_eq!(read(&bad).code, 18);
    let beyond = bytes("01000301 00000014 0013 0008 00000000 0004 0005");
    assert_eq!(read(&beyond).code, 18);
    let fine = bytes("01000301 00000014 0013 0008 00000000 0004 0004");
    assert_eq!(read(&fine).code, 19);
    // A wrong version comes before the walk.
    assert_eq!(read(&bytes("00000301 0000000c 0004 0003")).code, 1);
}

#[test]
fn walk_tells_end_from_fault() {
    let mut params = Params::new(&[]);
    assert_eq!(params.step(), Step::End);
    let end = bytes("01000301 0000000c 0004 0004");
    let mut params = Params::new(&end);
    assert!(matches!(params.step(), Step::Param(p) if p.tag == 4 && p.len == 4));
    assert_eq!(params.step(), Step::End);
    let fault = bytes("01000301 0000000c 0004 0005");
    assert_eq!(Params::new(&fault).step(), Step::Fault);
}

#[test]
fn text_identifiers() {
    let text: (u16, &[u8]) = (0x3, b"abc");
    let mode: (u16, &[u8]) = (0xb, &[0, 0, 0, 1]);
    assert_eq!(code(4, 1, &[text]), 8);
    assert_eq!(code(4, 1, &[mode, text]), 8);
    assert_eq!(code(0, 0, &[text]), 8);
    assert_eq!(code(0, 1, &[text]), 8);
    assert_eq!(code(4, 4, &[ID, text]), 8);
    assert_eq!(code(3, 1, &[text]), 19);
    for kind in 1..=15 {
        assert_eq!(code(6, kind, &[text]), 8);
        assert_eq!(code(6, kind, &[ID, text]), 19);
    }
}

#[test]
fn interface_identifiers() {
    assert_eq!(code(6, 2, &[ID]), 0);
    assert_eq!(code(6, 2, &[ID, ID]), 19);
    assert_eq!(code(6, 2, &[(0x1, &[0; 8])]), 18);
    assert_eq!(code(6, 2, &[(0x1, &[])]), 18);
    assert_eq!(code(6, 2, &[(0x8, &[0; 8])]), 19);
    assert_eq!(code(6, 2, &[]), 22);
    // A later 0x1 is 19; without one the message ends in 22.
    let state: (u16, &[u8]) = (0x302, &[0, 0, 0, 0]);
    assert_eq!(code(6, 7, &[state, ID]), 19);
    assert_eq!(code(6, 7, &[state]), 22);
    assert_eq!(code(4, 1, &[ID, ID, (0x8, &[0; 16]), ID]), 0);
    for size in 0..=20 {
        let value = vec![0; size];
        let ids = size > 0 && size % 4 == 0;
        assert_eq!(code(4, 2, &[(0x1, &value)]), if ids { 0 } else { 18 });
        let pairs = size > 0 && size % 8 == 0;
        assert_eq!(code(4, 2, &[(0x8, &value)]), if pairs { 0 } else { 18 });
    }
}

#[test]
fn ranges() {
    let pairs = |numbers: &[u32]| {
        let value: Vec<u8> = numbers.iter().flat_map(|n| n.to_be_bytes()).collect();
        code(4, 1, &[(0x8, &value)])
    };
    assert_eq!(pairs(&[5, 5]), 0);
    assert_eq!(pairs(&[5, 4]), 17);
    assert_eq!(pairs(&[0, u32::MAX]), 0);
    assert_eq!(pairs(&[u32::MAX, 0]), 17);
    assert_eq!(pairs(&[0x8000_0000, 0x7fff_ffff]), 17);
    assert_eq!(pairs(&[1, 2, 3, 4, 5, 6, 8, 7]), 17);
    assert_eq!(pairs(&[2, 1, 3, 4, 5, 6, 7, 8]), 17);
}

#[test]
fn lengths() {
    for (size, expected) in [(0, 0), (254, 0), (255, 0), (256, 18)] {
        let value = vec![0; size];
        assert_eq!(code(3, 1, &[(0x4, &value)]), expected, "0x4 {size}");
    }
    for (size, expected) in [(0, 18), (1, 0), (272, 0), (273, 0), (274, 18)] {
        let value = vec![0; size];
        for tag in [0x300, 0x301] {
            assert_eq!(code(6, 1, &[ID, (tag, &value)]), expected, "{tag} {size}");
        }
    }
    let value = vec![0; 2000];
    assert_eq!(code(0, 0, &[(0x7, &value), (0xc, &[0; 4])]), 0);
    for size in [0, 1, 3, 5, 8] {
        let value = vec![0; size];
        assert_eq!(code(3, 1, &[(0x11, &value)]), 18);
        assert_eq!(code(4, 1, &[(0xb, &value)]), 18);
        assert_eq!(code(0, 0, &[(0xc, &value)]), 18);
        assert_eq!(code(0, 1, &[(0xd, &value)]), 18);
        assert_eq!(code(6, 15, &[ID, (0x13, &value)]), 18);
        assert_eq!(code(6, 7, &[ID, (0x302, &value)]), 18);
    }
}

#[test]
fn values() {
    let cases: [(u8, u8, u16, u32, u32); 8] = [
        (4, 1, 0xb, 1, 3),
        (6, 7, 0x302, 0, 10),
        (6, 9, 0x303, 1, 4),
        (6, 14, 0x304, 0, 3),
        (6, 14, 0x305, 0, 3),
        (6, 10, 0x306, 1, 2),
        (6, 11, 0x308, 0, 1),
        (6, 10, 0x307, 0, 4095),
    ];
    for (class, kind, tag, low, high) in cases {
        let wrong = if tag == 0xb { 5 } else { 17 };
        for number in [
            0,
            1,
            2,
            3,
            4,
            5,
            10,
            11,
            127,
            128,
            256,
            257,
            4095,
            4096,
            u32::MAX,
        ] {
            let value = word(number);
            let mut params: Vec<(u16, &[u8])> = vec![(tag, &value)];
            if class == 6 {
                params.insert(0, ID);
            }
            let inside = (low..=high).contains(&number);
            let code = code(class, kind, &params);
            assert_eq!(code == wrong, !inside, "{tag:x} {number}: {code}");
        }
    }
}

#[test]
fn once_only() {
    let corr: (u16, &[u8]) = (0x13, &[0, 0, 0, 9]);
    let data1: (u16, &[u8]) = (0x300, &[1]);
    let data2: (u16, &[u8]) = (0x301, &[1]);
    assert_eq!(code(6, 1, &[ID, data1, corr]), 0);
    assert_eq!(code(6, 1, &[ID, corr, data2]), 0);
    assert_eq!(code(6, 1, &[ID, data1, data2]), 19);
    assert_eq!(code(6, 1, &[ID, data2, data1]), 19);
    assert_eq!(code(6, 1, &[ID, data2, data2]), 19);
    assert_eq!(code(6, 1, &[ID, corr, corr, data1]), 19);
    // Again comes before a wrong length.
    assert_eq!(code(6, 1, &[ID, corr, (0x13, &[]), data1]), 19);
    assert_eq!(code(6, 13, &[ID]), 0);
    assert_eq!(code(6, 12, &[ID]), 22);
    // The first faulty parameter decides.
    assert_eq!(code(6, 1, &[ID, (0x13, &[]), (0x99, &[])]), 18);
    assert_eq!(code(6, 1, &[ID, (0x99, &[]), (0x13, &[])]), 19);
}

#[test]
fn sequence_numbers() {
    for action in 1..=2 {
        for seq in [false, true] {
            let action = word(action);
            let mut params: Vec<(u16, &[u8])> = vec![ID, (0x306, &action)];
            if seq {
                params.push((0x307, &[0, 0, 0, 5]));
            }
            let expected = match (action[3], seq) {
                (2, true) | (1, false) => 0,
                (1, true) => 19,
                _ => 22,
            };
            assert_eq!(code(6, 10, &params), expected);
            for result in 0..=1 {
                let result = word(result);
                let mut params = params.clone();
                params.push((0x308, &result));
                let expected = match (action[3], result[3], seq) {
                    (1, 0, true) => 0,
                    (1, 0, false) => 22,
                    (_, _, true) => 19,
                    _ => 0,
                };
                assert_eq!(code(6, 11, &params), expected);
            }
        }
    }
    // Missing comes before the rules, a bad number before missing.
    assert_eq!(code(6, 11, &[ID, (0x306, &word(2)), (0x307, &word(5))]), 22);
    assert_eq!(code(6, 10, &[ID, (0x307, &word(4096))]), 17);
}

#[test]
fn fields() {
    let m = message(
        6,
        1,
        &[ID, (0x13, &[0, 0, 1, 2]), (0x301, &[1, 2, 3, 4, 5])],
    );
    let expected = Reading {
        class: 6,
        kind: 1,
        ids: 1,
        id: 100,
        has_correlation: 1,
        correlation: 258,
        ..Reading::default()
    };
    assert_eq!(read(&m), expected);
    assert_eq!(protocol_data(&m), [1, 2, 3, 4, 5]);
    assert_eq!(protocol_data(&[]), []);
    assert_eq!(protocol_data(&bytes(M)), []);

    let m = message(
        0,
        1,
        &[
            (0x8, &[0; 8]),
            (0x11, &word(77)),
            (0x1, &[0, 0, 0, 1, 0, 0, 0, 2]),
            (0xd, &word(5)),
            (0x1, &[0, 0, 0, 3]),
        ],
    );
    let expected = Reading {
        class: 0,
        kind: 1,
        ids: 1,
        id: 1,
        has_asp_id: 1,
        asp_id: 77,
        ..Reading::default()
    };
    assert_eq!(read(&m), expected);
    // The event of 6.9 is not taken for a correlation id.
    let m = message(6, 9, &[ID, (0x303, &word(4))]);
    let reading = read(&m);
    assert_eq!((reading.code, reading.correlation), (0, 0));
    let m = message(6, 7, &[ID, (0x302, &word(9))]);
    assert_eq!(read(&m).state, 9);
    let m = message(6, 10, &[ID, (0x307, &word(9)), (0x306, &word(2))]);
    let reading = read(&m);
    assert_eq!(
        (reading.action, reading.has_sequence, reading.sequence),
        (2, 1, 9)
    );
}

/// A second reader, straight from the table, with no masks and no tricks.
fn plain_verdict(m: &[u8]) -> u32 {
    if m.len() < 8 || m.len() > 2048 {
        return 7;
    }
    if m[0] != 1 {
        return 1;
    }
    let (class, kind) = (m[2], m[3]);
    let last = match class {
        0 => 1,
        3 => 6,
        4 => 4,
        6 => 15,
        _ => return 3,
    };
    if kind > last || (kind == 0 && class != 0) {
        return 4;
    }
    let number = |at: usize| u32::from_be_bytes([m[at], m[at + 1], m[at + 2], m[at + 3]]);
    if number(4) as usize != m.len() || !m.len().is_multiple_of(4) {
        return 7;
    }
    let mut params = Vec::new();
    let mut at = 8;
    while at < m.len() {
        let tag = number(at) >> 16;
        let len = (number(at) & 0xffff) as usize;
        let next = at + len.div_ceil(4) * 4;
        if len < 4 || next > m.len() {
            return 18;
        }
        params.push((tag, &m[at + 4..at + len]));
        at = next;
    }
    let (mandatory, optional): (&[u32], &[u32]) = match (class, kind) {
        (0, 0) => (&[0xc], &[0x1, 0x8, 0x7]),
        (0, 1) => (&[0xd], &[0x11, 0x1, 0x8, 0x4]),
        (3, 1) => (&[], &[0x11, 0x4]),
        (3, 3) | (3, 6) => (&[], &[0x9]),
        (3, _) => (&[], &[0x4]),
        (4, 1) | (4, 3) => (&[], &[0xb, 0x1, 0x8, 0x4]),
        (4, _) => (&[], &[0x1, 0x8, 0x4]),
        (_, 1) => (&[0x1, 0x300], &[0x301, 0x13]),
        (_, 2..=6) => (&[0x1], &[]),
        (_, 7 | 8) => (&[0x1, 0x302], &[]),
        (_, 9) => (&[0x1, 0x303], &[]),
        (_, 10) => (&[0x1, 0x306], &[0x307]),
        (_, 11) => (&[0x1, 0x306, 0x308], &[0x307]),
        (_, 12) => (&[0x1, 0x300], &[0x301]),
        (_, 13) => (&[0x1], &[0x300, 0x301]),
        (_, 14) => (&[0x1, 0x304], &[0x305]),
        _ => (&[0x1, 0x13], &[]),
    };
    let has_ids = optional.contains(&0x8);
    let like = |a: u32, b: u32| a == b || (a | 1 == 0x301 && b | 1 == 0x301);
    for (place, (tag, value)) in params.iter().enumerate() {
        if *tag == 0x3 && (has_ids || (class == 6 && place == 0)) {
            return 8;
        }
        let listed = mandatory.contains(tag) || optional.contains(tag);
        let again = params[..place].iter().any(|(other, _)| like(*other, *tag));
        let is_id = *tag == 0x1 || *tag == 0x8;
        let repeats = is_id && class != 6;
        if !listed || (again && !repeats) || (class == 6 && *tag == 0x1 && place > 0) {
            return 19;
        }
        let len = value.len() + 4;
        let fits = match tag {
            0x1 if class != 6 => len >= 8 && (len - 4) % 4 == 0,
            0x8 => len >= 12 && (len - 4) % 8 == 0,
            0x4 => len <= 259,
            0x7 | 0x9 => true,
            0x300 | 0x301 => (5..=277).contains(&len),
            _ => len == 8,
        };
        if !fits {
            return 18;
        }
        let v = |i: usize| u32::from_be_bytes(value[4 * i..4 * i + 4].try_into().unwrap());
        let good = match tag {
            0x8 => (0..value.len() / 8).all(|i| v(2 * i) <= v(2 * i + 1)),
            0xb => (1..=3).contains(&v(0)),
            0x302 => v(0) <= 10,
            0x303 => (1..=4).contains(&v(0)),
            0x304 | 0x305 => v(0) <= 3,
            0x306 => (1..=2).contains(&v(0)),
            0x307 => v(0) <= 4095,
            0x308 => v(0) <= 1,
            _ => true,
        };
        if !good {
            return if *tag == 0xb { 5 } else { 17 };
        }
    }
    let find = |tag: u32| params.iter().find(|(other, _)| like(*other, tag));
    if mandatory.iter().any(|tag| find(*tag).is_none()) {
        return 22;
    }
    if class == 6 && (kind == 10 || kind == 11) {
        let value = |tag| find(tag).map(|(_, value)| value[3]);
        let wanted = match kind {
            10 => value(0x306) == Some(2),
            _ => value(0x306) == Some(1) && value(0x308) == Some(0),
        };
        return match (wanted, find(0x307).is_some()) {
            (true, false) => 22,
            (false, true) => 19,
            _ => 0,
        };
    }
    0
}

#[test]
fn generated_messages() {
    let mut codes = std::collections::BTreeMap::new();
    let mut types = std::collections::BTreeSet::new();
    let mut chars = 0;
    let mut malformed = 0;
    generate(1, 10_000, Kind::Read, &mut |line| {
        chars += line.len() + 1;
        let text = String::from_utf8(line.to_vec()).unwrap();
        let result = String::from_utf8(run(line)).unwrap();
        if result.is_empty() || result == "?\n" {
            malformed += 1;
            return Ok(());
        }
        let hex = text.split(' ').nth(1).unwrap();
        let m = bytes(if hex == "-" { "" } else { hex });
        let reading = read(&m);
        assert_eq!(reading.code, plain_verdict(&m), "{text}");
        *codes.entry(reading.code).or_insert(0) += 1;
        if reading.code == 0 {
            types.insert((reading.class, reading.kind));
        }
        Ok(())
    })
    .unwrap();
    println!("{codes:?} {malformed} malformed, {chars} characters");
    let numbers: Vec<u32> = codes.keys().copied().collect();
    assert_eq!(numbers, [0, 1, 3, 4, 5, 7, 8, 17, 18, 19, 22]);
    assert_eq!(types.len(), 27);
    assert!((50..300).contains(&malformed));
}

#[test]
fn generated_more() {
    for seed in 2..6 {
        generate(seed, 20_000, Kind::Read, &mut |line| {
            let text = String::from_utf8_lossy(line);
            if let Some(hex) = text.strip_prefix("read ") {
                let result = run(line);
                if result != b"?\n" {
                    let m = bytes(if hex == "-" { "" } else { hex });
                    assert_eq!(read(&m).code, plain_verdict(&m), "{text}");
                }
            }
            Ok(())
        })
        .unwrap();
    }
}

#[test]
fn generator_repeats_itself() {
    let make = || {
        let mut all = Vec::new();
        generate(9, 500, Kind::Read, &mut |line| {
            all.push(line.to_vec());
            Ok(())
        })
        .unwrap();
        all
    };
    assert_eq!(make(), make());
}
