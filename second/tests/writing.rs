//! The writer: refusals, the buffer, and the round trip with the reader.

use second::generate::{generate, Kind};
use second::script::run;
use second::{read, write, Params, Written};
use std::collections::BTreeMap;

const M: &str = "010004010000001c000b0008000000010008000c0000006400000073";

/// Writes into a buffer filled with a mark, and checks what must stay.
fn put(class: u32, kind: u32, list: &[(u16, &[u8])], room: usize) -> (Written, Vec<u8>) {
    let tags: Vec<u16> = list.iter().map(|item| item.0).collect();
    let lens: Vec<u32> = list.iter().map(|item| item.1.len() as u32).collect();
    let values: Vec<u8> = list.iter().flat_map(|item| item.1.to_vec()).collect();
    let mut out = vec![0xee; room];
    let written = write(class, kind, &tags, &lens, &values, &mut out);
    if written.code != 0 {
        assert_eq!(written.length, 0);
    }
    assert!(out[written.length as usize..].iter().all(|b| *b == 0xee));
    out.truncate(written.length as usize);
    (written, out)
}

#[test]
fn sample_m() {
    let script = "write 4 1 28 11:00000001,8:0000006400000073\n\
         write 4 1 27 11:00000001,8:0000006400000073\n\
         write 4 1 99 11:00000001,8:0000007300000064\n\
         write 4 1 0 11:00000004,8:0000006400000073\n\
         write 3 1 8 -\n\
         write 3 1 12 4:\n\
         write 3 1 99 4:aabbcc,17:00000007\n"
        .to_string();
    let expected = format!(
        "0 {M}\n103\n17\n5\n0 0100030100000008\n0 010003010000000c00040004\n\
         0 010003010000001800040007aabbcc000011000800000007\n"
    );
    assert_eq!(run(script.as_bytes()), expected.as_bytes());
}

#[test]
fn refusal_before_short_buffer() {
    assert_eq!(put(9, 1, &[], 0).0.code, 3);
    assert_eq!(put(256 + 3, 1, &[], 0).0.code, 3);
    assert_eq!(put(3, 256 + 1, &[], 0).0.code, 4);
    assert_eq!(put(3, 7, &[], 0).0.code, 4);
    assert_eq!(put(6, 2, &[], 0).0.code, 22);
    assert_eq!(put(3, 1, &[(0x5, &[])], 0).0.code, 19);
    assert_eq!(put(3, 1, &[], 7).0.code, 103);
    assert_eq!(put(3, 1, &[], 0).0.code, 103);
    let written = put(3, 1, &[], 8).0;
    assert_eq!((written.code, written.length), (0, 8));
}

#[test]
fn totals() {
    let code = |size: usize| put(3, 3, &[(0x9, &vec![1; size])], 4000).0.code;
    assert_eq!(code(2036), 0);
    assert_eq!(code(2037), 7);
    assert_eq!(code(2040), 7);
    assert_eq!(code(65_531), 7);
    assert_eq!(code(65_532), 7);
    assert_eq!(code(100_000), 7);
    // Too long comes before all else.
    assert_eq!(put(9, 9, &[(0x9, &[1; 2040])], 0).0.code, 7);
    let many: Vec<(u16, &[u8])> = vec![(0x4, &[]); 511];
    assert_eq!(put(3, 1, &many, 4000).0.code, 7);
    assert_eq!(put(3, 1, &many[..510], 4000).0.code, 19);
    let ids = vec![7; 2000];
    assert_eq!(put(4, 3, &[(0x1, &ids)], 2012).0.length, 2012);
}

#[test]
fn lists_not_whole() {
    let mut out = [0; 100];
    let mut code =
        |tags: &[u16], lens: &[u32], values: &[u8]| write(3, 1, tags, lens, values, &mut out).code;
    assert_eq!(code(&[4], &[], &[]), 7);
    assert_eq!(code(&[], &[0], &[]), 7);
    assert_eq!(code(&[4], &[1], &[]), 7);
    assert_eq!(code(&[4], &[1], &[1, 2]), 7);
    assert_eq!(code(&[], &[], &[1]), 7);
    assert_eq!(code(&[4, 17], &[u32::MAX, 5], &[1, 2, 3, 4]), 7);
    assert_eq!(code(&[4], &[1], &[1]), 0);
    // Also where the class is wrong.
    assert_eq!(write(9, 9, &[4], &[], &[], &mut out).code, 7);
}

#[test]
fn writing_what_was_read() {
    let mut read_back = 0;
    generate(3, 30_000, Kind::Read, &mut |line| {
        let text = String::from_utf8_lossy(line).into_owned();
        let Some(hex) = text.strip_prefix("read ") else {
            return Ok(());
        };
        let Ok(m) = (0..hex.len() / 2)
            .map(|i| u8::from_str_radix(&hex[2 * i..2 * i + 2], 16))
            .collect::<Result<Vec<u8>, _>>()
        else {
            return Ok(());
        };
        let reading = read(&m);
        if reading.code != 0 {
            return Ok(());
        }
        let list: Vec<(u16, &[u8])> = Params::new(&m).map(|p| (p.tag, p.value)).collect();
        let (written, out) = put(reading.class, reading.kind, &list, m.len() + 5);
        assert_eq!(written.code, 0, "{text}");
        // The same bytes but for spare and padding.
        let mut zeroed = m.clone();
        zeroed[1] = 0;
        let mut at = 8;
        for (_, value) in &list {
            let end = at + 4 + value.len();
            at = end.div_ceil(4) * 4;
            zeroed[end..at].fill(0);
        }
        assert_eq!(out, zeroed, "{text}");
        let again: Vec<(u16, &[u8])> = Params::new(&out).map(|p| (p.tag, p.value)).collect();
        assert_eq!(again, list);
        read_back += 1;
        Ok(())
    })
    .unwrap();
    assert!(read_back > 8_000);
}

/// The number the reader gives the message that the list would be.
fn expected(class: u32, kind: u32, list: &[(u16, Vec<u8>)], room: usize) -> u32 {
    let mut m = vec![1, 0, class as u8, kind as u8, 0, 0, 0, 0];
    for (tag, value) in list {
        m.extend_from_slice(&tag.to_be_bytes());
        m.extend_from_slice(&((value.len() + 4) as u16).to_be_bytes());
        m.extend_from_slice(value);
        m.resize(m.len().div_ceil(4) * 4, 0);
    }
    let len = m.len() as u32;
    m[4..8].copy_from_slice(&len.to_be_bytes());
    match read(&m).code {
        0 if m.len() > room => 103,
        code => code,
    }
}

#[test]
fn generated_lists() {
    let mut codes = BTreeMap::new();
    let mut types = std::collections::BTreeSet::new();
    let (mut largest, mut refused, mut chars) = (0, 0, 0);
    generate(1, 10_000, Kind::Write, &mut |line| {
        chars += line.len() + 1;
        let text = String::from_utf8(line.to_vec()).unwrap();
        let result = String::from_utf8(run(line)).unwrap();
        if result == "?\n" {
            refused += 1;
            return Ok(());
        }
        let words: Vec<&str> = text.split(' ').collect();
        if words[0] != "write" {
            return Ok(());
        }
        let number = |i: usize| words[i].parse::<u32>().unwrap();
        let code: u32 = result
            .trim_end()
            .split(' ')
            .next()
            .unwrap()
            .parse()
            .unwrap();
        *codes.entry(code).or_insert(0) += 1;
        if number(1) > 255 || number(2) > 255 || text.contains("65540") {
            return Ok(());
        }
        let mut list = Vec::new();
        if words[4] != "-" {
            for item in words[4].split(',') {
                let (tag, hex) = item.split_once(':').unwrap();
                let value = (0..hex.len() / 2)
                    .map(|i| u8::from_str_radix(&hex[2 * i..2 * i + 2], 16).unwrap())
                    .collect();
                list.push((tag.parse().unwrap_or(u16::MAX), value));
            }
        }
        let room = number(3).min(8192) as usize;
        assert_eq!(code, expected(number(1), number(2), &list, room), "{text}");
        if code == 0 {
            types.insert((number(1), number(2)));
            largest = largest.max(result.trim_end().len() / 2 - 1);
        }
        Ok(())
    })
    .unwrap();
    println!("{codes:?} {refused} malformed, {chars} characters");
    let numbers: Vec<u32> = codes.keys().copied().collect();
    assert_eq!(numbers, [0, 3, 4, 5, 7, 8, 17, 18, 19, 22, 103]);
    assert_eq!(types.len(), 27);
    assert_eq!(largest, 2048);
}
