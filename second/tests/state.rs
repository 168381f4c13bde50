//! The plan file and the soundness of states.

use second::generate::{generate, Kind};
use second::script::run;
use second::{is_sound, load, Gateway};
use std::collections::BTreeMap;

/// A plan file from its rows.
fn file(asps: &[(u32, u16, u16)], modes: &[u32], links: &[(u32, u32)]) -> Vec<u8> {
    let mut out = Vec::new();
    let ases_at = 24 + 8 * asps.len() as u32;
    let links_at = ases_at + 4 * modes.len() as u32;
    for word in [
        24,
        asps.len() as u32,
        ases_at,
        modes.len() as u32,
        links_at,
        links.len() as u32,
    ] {
        out.extend_from_slice(&word.to_be_bytes());
    }
    for (id, mask, spare) in asps {
        out.extend_from_slice(&id.to_be_bytes());
        out.extend_from_slice(&mask.to_be_bytes());
        out.extend_from_slice(&spare.to_be_bytes());
    }
    for mode in modes {
        out.extend_from_slice(&mode.to_be_bytes());
    }
    for (id, owner) in links {
        out.extend_from_slice(&id.to_be_bytes());
        out.extend_from_slice(&owner.to_be_bytes());
    }
    out
}

fn plan_s() -> Vec<u8> {
    let mut links: Vec<(u32, u32)> = (100..=115).map(|id| (id, 0)).collect();
    links.push((200, 1));
    file(&[(7, 1, 0), (8, 1, 0), (9, 2, 0)], &[1, 2], &links)
}

fn full() -> Vec<u8> {
    let asps: Vec<(u32, u16, u16)> = (0..16).map(|p| (1000 - p, 0xffff, 0)).collect();
    let links: Vec<(u32, u32)> = (0..128).map(|i| (3 * i, i % 16)).collect();
    file(&asps, &[3; 16], &links)
}

fn code(file: &[u8]) -> u32 {
    let loaded = load(file);
    assert_eq!(loaded.code == 0, is_sound(&loaded.gateway));
    if loaded.code != 0 {
        assert_eq!(loaded.gateway, Gateway::ZERO);
    }
    loaded.code
}

#[test]
fn sample_plan() {
    let loaded = load(&plan_s());
    assert_eq!(loaded.code, 0);
    let g = loaded.gateway;
    assert_eq!((g.asps, g.ases, g.links), (3, 2, 17));
    assert_eq!(g.asp_id[..4], [7, 8, 9, 0]);
    assert_eq!(g.mode[..3], [1, 2, 0]);
    let members: Vec<usize> = (0..256).filter(|i| g.member[*i] != 0).collect();
    assert_eq!(members, [0, 1, 16 + 2]);
    assert_eq!((g.link_id[15], g.owner[15]), (115, 0));
    assert_eq!((g.link_id[16], g.owner[16]), (200, 1));
    assert_eq!(g.link_id[17], 0);
    assert_eq!(g.up, [0; 16]);
    assert_eq!(g.active, [0; 256]);
    assert_eq!(g.waiting, [0; 16]);
    assert_eq!((g.state, g.highspeed), ([0; 128], [0; 128]));
    assert_eq!(g.wholelists, [0; 16]);
    assert_eq!(
        (g.held, g.held_tag, g.held_len),
        ([0; 16], [0; 128], [0; 128])
    );
    assert_eq!((g.held_marked, g.held_id), ([0; 128], [0; 128]));
    assert_eq!(g.held_correlation, [0; 128]);
    assert!(is_sound(&g));
    assert!(!is_sound(&Gateway::ZERO));
}

#[test]
fn sizes_and_offsets() {
    let smallest = file(&[(0, 0, 0)], &[1], &[]);
    assert_eq!(code(&smallest), 0);
    assert_eq!(code(&full()), 0);
    for len in 0..smallest.len() {
        assert_eq!(code(&smallest[..len]), 201);
    }
    let mut longer = smallest.clone();
    longer.push(0);
    assert_eq!(code(&longer), 201);
    // Every count and offset, also the link offset with no links.
    for at in 0..6 {
        for delta in [1, 4, 8, 0xffff_ffff, 0x8000_0000] {
            let mut bad = smallest.clone();
            let word = u32::from_be_bytes(bad[4 * at..4 * at + 4].try_into().unwrap());
            let word = word.wrapping_add(delta);
            bad[4 * at..4 * at + 4].copy_from_slice(&word.to_be_bytes());
            assert_eq!(code(&bad), 201, "{at} {delta}");
        }
    }
    let asps = |n: u32| (0..n).map(|p| (p, 0, 0)).collect::<Vec<_>>();
    assert_eq!(code(&file(&asps(16), &[1], &[])), 0);
    assert_eq!(code(&file(&asps(17), &[1], &[])), 201);
    assert_eq!(code(&file(&asps(0), &[1], &[])), 201);
    assert_eq!(code(&file(&asps(1), &[1; 16], &[])), 0);
    assert_eq!(code(&file(&asps(1), &[1; 17], &[])), 201);
    assert_eq!(code(&file(&asps(1), &[], &[])), 201);
    let links = |n: u32| (0..n).map(|i| (i, 0)).collect::<Vec<_>>();
    assert_eq!(code(&file(&asps(1), &[1], &links(128))), 0);
    assert_eq!(code(&file(&asps(1), &[1], &links(129))), 201);
    // 201 before any row.
    assert_eq!(code(&file(&asps(1), &[9], &links(129))), 201);
}

#[test]
fn rows() {
    let two = |asps: &[(u32, u16, u16)], modes: &[u32], links: &[(u32, u32)]| {
        code(&file(asps, modes, links))
    };
    let asp = [(7, 1, 0)];
    for mode in [0, 4, 256, 257, u32::MAX] {
        assert_eq!(two(&asp, &[mode], &[]), 202);
    }
    for mode in 1..=3 {
        assert_eq!(two(&asp, &[mode], &[]), 0);
    }
    assert_eq!(two(&[(7, 2, 0)], &[1], &[]), 202);
    assert_eq!(two(&[(7, 0x8000, 0)], &[1; 15], &[]), 202);
    assert_eq!(two(&[(7, 0x8000, 0)], &[1; 16], &[]), 0);
    assert_eq!(two(&[(7, 1, 1)], &[1], &[]), 0);
    assert_eq!(two(&[(7, 1, 2)], &[1], &[]), 202);
    assert_eq!(two(&[(7, 1, 256)], &[1], &[]), 202);
    assert_eq!(two(&[(7, 1, 257)], &[1], &[]), 202);
    assert_eq!(two(&[(7, 1, 0), (7, 1, 0)], &[1], &[]), 202);
    assert_eq!(two(&[(7, 1, 0), (8, 1, 0), (7, 1, 0)], &[1], &[]), 202);
    assert_eq!(two(&[(0, 1, 0), (8, 1, 0), (0, 1, 0)], &[1], &[]), 202);
    assert_eq!(two(&asp, &[1], &[(5, 0), (5, 0)]), 202);
    assert_eq!(two(&asp, &[1], &[(5, 0), (4, 0)]), 202);
    assert_eq!(two(&asp, &[1], &[(5, 0), (6, 0)]), 0);
    assert_eq!(two(&asp, &[1], &[(0, 0), (u32::MAX, 0)]), 0);
    assert_eq!(two(&asp, &[1], &[(u32::MAX, 0), (0, 0)]), 202);
    assert_eq!(two(&asp, &[1], &[(5, 1)]), 202);
    assert_eq!(two(&asp, &[1], &[(5, 256)]), 202);
    assert_eq!(two(&asp, &[1, 1], &[(5, 1)]), 0);
}

/// What the rules say of the units held, place by place.
fn plainly_held(g: &Gateway) -> bool {
    for a in 0..16 {
        if g.held[a] > 8 || (g.held[a] > 0 && g.waiting[a] != 1) {
            return false;
        }
        for k in 0..8 {
            let i = 8 * a + k;
            let (mark, number) = (g.held_marked[i], g.held_correlation[i]);
            let unit = (g.held_tag[i], g.held_len[i], mark, g.held_id[i], number);
            if k >= g.held[a] as usize {
                if unit != (0, 0, 0, 0, 0) {
                    return false;
                }
                continue;
            }
            let mut own = (0..g.links as usize).filter(|l| g.owner[*l] as usize == a);
            let tag_and_length = [0x300, 0x301].contains(&unit.0) && (5..=277).contains(&unit.1);
            let correlation = mark == 1 || (mark == 0 && number == 0);
            if !tag_and_length || !correlation || !own.any(|l| g.link_id[l] == unit.3) {
                return false;
            }
        }
    }
    true
}

/// Soundness as the rules say it (5.5 to 5.13, 5.20, 5.21 and 5.24; and 0 or 1
/// for lists taken whole), place by place.
fn plainly_sound(g: &Gateway) -> bool {
    let (n, m, l) = (g.asps as usize, g.ases as usize, g.links as usize);
    if !(1..=16).contains(&n) || !(1..=16).contains(&m) || l > 128 || g.spare != 0 {
        return false;
    }
    for p in 0..16 {
        if p >= n && (g.asp_id[p] != 0 || g.up[p] != 0) {
            return false;
        }
        if g.wholelists[p] > (p < n) as u8 {
            return false;
        }
        if g.up[p] > 1 || (p < n && g.asp_id[..p].contains(&g.asp_id[p])) {
            return false;
        }
    }
    for a in 0..16 {
        let mut active = 0;
        for p in 0..16 {
            let i = 16 * a + p;
            let planned = a < m && p < n;
            if g.member[i] > 1 || g.active[i] > 1 {
                return false;
            }
            if !planned && (g.member[i] != 0 || g.active[i] != 0) {
                return false;
            }
            if g.active[i] == 1 && !(g.member[i] == 1 && g.up[p] == 1) {
                return false;
            }
            active += g.active[i];
        }
        if a >= m && (g.mode[a] != 0 || g.waiting[a] != 0) {
            return false;
        }
        if a < m && !(1..=3).contains(&g.mode[a]) {
            return false;
        }
        if g.mode[a] == 1 && active > 1 {
            return false;
        }
        if g.waiting[a] > 1 || (g.waiting[a] == 1 && active > 0) {
            return false;
        }
    }
    for i in 0..128 {
        if i >= l && (g.link_id[i] != 0 || g.owner[i] != 0 || g.state[i] != 0) {
            return false;
        }
        if g.highspeed[i] > 1 || (i >= l && g.highspeed[i] != 0) {
            return false;
        }
        if i < l && (g.owner[i] as usize >= m || g.state[i] > 3) {
            return false;
        }
        if i > 0 && i < l && g.link_id[i - 1] >= g.link_id[i] {
            return false;
        }
    }
    plainly_held(g)
}

/// A state with everything in use that can be.
fn busy(file: &[u8]) -> Gateway {
    let mut g = load(file).gateway;
    for a in 0..g.ases as usize {
        for p in 0..g.asps as usize {
            if g.member[16 * a + p] == 1 && (g.mode[a] != 1 || p == 0) && a % 3 != 2 {
                g.up[p] = 1;
                g.active[16 * a + p] = 1;
            }
        }
        let row = &g.active[16 * a..16 * a + 16];
        g.waiting[a] = (row.iter().all(|b| *b == 0) && a % 2 == 0) as u8;
    }
    for p in 0..g.asps as usize {
        g.wholelists[p] = (p % 3 == 1) as u8;
    }
    for i in 0..g.links as usize {
        g.state[i] = (i % 4) as u8;
        g.highspeed[i] = (i % 3 == 1) as u8;
    }
    for a in 0..g.ases as usize {
        let own = (0..g.links as usize).filter(|l| g.owner[*l] as usize == a);
        let own: Vec<u32> = own.map(|l| g.link_id[l]).collect();
        if g.waiting[a] == 1 && !own.is_empty() {
            hold(&mut g, a, 8 - a % 7, &own);
        }
    }
    g
}

/// AS a holds so many units of these links.
fn hold(g: &mut Gateway, a: usize, count: usize, ids: &[u32]) {
    g.held[a] = count as u8;
    for k in 0..count {
        let i = 8 * a + k;
        g.held_tag[i] = 0x300 + (k % 2) as u16;
        g.held_len[i] = [5, 277, 6, 100][k % 4];
        g.held_marked[i] = (k % 3 != 0) as u16;
        g.held_id[i] = ids[k / 2 % ids.len()];
        g.held_correlation[i] = if k % 3 == 1 { 77 } else { 0 };
    }
}

#[test]
fn every_byte_of_a_state() {
    let states = [
        load(&plan_s()).gateway,
        busy(&plan_s()),
        busy(&full()),
        load(&file(&[(0, 0, 0)], &[2], &[])).gateway,
        busy(&file(
            &[(0, 3, 0), (5, 2, 0)],
            &[1, 3, 2],
            &[(0, 0), (9, 2)],
        )),
    ];
    let mut sound = 0;
    for state in &states {
        assert!(is_sound(state) && plainly_sound(state));
        let mut check = |change: &dyn Fn(&mut Gateway, u8)| {
            for byte in [0, 1, 2, 3, 4, 15, 16, 17, 127, 128, 129, 254, 255] {
                let mut g = *state;
                change(&mut g, byte);
                assert_eq!(is_sound(&g), plainly_sound(&g), "{g:?}");
                sound += is_sound(&g) as u32;
            }
        };
        check(&|g, b| g.asps = b);
        check(&|g, b| g.ases = b);
        check(&|g, b| g.links = b);
        check(&|g, b| g.spare = b);
        for i in 0..16 {
            check(&|g, b| g.asp_id[i] = b as u32);
            check(&|g, b| g.asp_id[i] = g.asp_id[b as usize % 16]);
            check(&|g, b| g.asp_id[i] = (b as u32) << 24);
            check(&|g, b| g.up[i] = b);
            check(&|g, b| g.wholelists[i] = b);
            check(&|g, b| g.mode[i] = b);
            check(&|g, b| g.waiting[i] = b);
            check(&|g, b| g.held[i] = b);
        }
        for i in 0..256 {
            check(&|g, b| g.member[i] = b);
            check(&|g, b| g.active[i] = b);
        }
        for i in 0..128 {
            check(&|g, b| g.link_id[i] = b as u32);
            check(&|g, b| g.link_id[i] = g.link_id[b as usize % 128]);
            check(&|g, b| g.link_id[i] = u32::MAX - b as u32);
            check(&|g, b| g.owner[i] = b);
            check(&|g, b| g.state[i] = b);
            check(&|g, b| g.highspeed[i] = b);
            check(&|g, b| g.held_tag[i] = b as u16);
            check(&|g, b| g.held_tag[i] = 0x2fe + b as u16);
            check(&|g, b| g.held_len[i] = b as u16);
            check(&|g, b| g.held_len[i] = 150 + b as u16);
            check(&|g, b| g.held_len[i] = 0x8005 + b as u16);
            check(&|g, b| g.held_marked[i] = b as u16);
            check(&|g, b| g.held_marked[i] = 256 * b as u16);
            check(&|g, b| g.held_id[i] = b as u32);
            check(&|g, b| g.held_id[i] = g.link_id[b as usize % 128]);
            check(&|g, b| g.held_correlation[i] = b as u32);
        }
    }
    assert!(sound > 1000);
}

#[test]
fn two_active_in_override() {
    let mut g = load(&plan_s()).gateway;
    g.up[0] = 1;
    g.up[1] = 1;
    g.active[0] = 1;
    assert!(is_sound(&g));
    g.active[1] = 1;
    assert!(!is_sound(&g));
    g.mode[0] = 3;
    assert!(is_sound(&g));
    g.waiting[0] = 1;
    assert!(!is_sound(&g));
}

#[test]
fn units_held() {
    let mut waits = load(&plan_s()).gateway;
    waits.waiting[0] = 1;
    let changed = |change: &dyn Fn(&mut Gateway)| {
        let mut g = waits;
        hold(&mut g, 0, 8, &[100, 115]);
        assert!(is_sound(&g));
        change(&mut g);
        is_sound(&g)
    };
    // Both ends of each limit.
    for (length, sound) in [(4, false), (5, true), (277, true), (278, false)] {
        assert_eq!(changed(&|g| g.held_len[3] = length), sound);
    }
    for (tag, sound) in [(0x2ff, false), (0x300, true), (0x301, true), (0x302, false)] {
        assert_eq!(changed(&|g| g.held_tag[3] = tag), sound);
    }
    // A link of another AS, and none.
    for (id, sound) in [
        (99, false),
        (100, true),
        (115, true),
        (116, false),
        (200, false),
    ] {
        assert_eq!(changed(&|g| g.held_id[3] = id), sound);
    }
    assert!(!changed(&|g| g.held[0] = 7));
    assert!(!changed(&|g| g.held[0] = 9));
    assert!(!changed(&|g| g.waiting[0] = 0));
    // No correlation id, and 0 as one.
    assert!(changed(
        &|g| (g.held_marked[1], g.held_correlation[1]) = (0, 0)
    ));
    assert!(changed(
        &|g| (g.held_marked[1], g.held_correlation[1]) = (1, 0)
    ));
    assert!(!changed(
        &|g| (g.held_marked[1], g.held_correlation[1]) = (0, 1)
    ));
    assert!(!changed(
        &|g| (g.held_marked[1], g.held_correlation[1]) = (2, 1)
    ));
    // The first unit of an AS that holds none.
    assert!(!changed(&|g| g.held[1] = 1));
    assert!(!changed(&|g| g.held_id[8] = 200));
}

#[test]
fn script() {
    let hex: String = plan_s().iter().map(|b| format!("{b:02x}")).collect();
    let script = format!("state\nplan {hex}\nstate\nplan 00\nstate\nstate \nplan\nplan 0\n");
    let expected = "up= active= waiting= links= held=\n0\n\
                    up=000 active= waiting=00 links=00000000000000000 held=\n201\n\
                    up= active= waiting= links= held=\n?\n?\n?\n";
    assert_eq!(run(script.as_bytes()), expected.as_bytes());
}

/// The verdict on a plan file by looking at one condition after the other.
fn plain_verdict(file: &[u8]) -> u32 {
    if file.len() < 24 {
        return 201;
    }
    let w = |at: usize| u32::from_be_bytes(file[at..at + 4].try_into().unwrap()) as u64;
    let (n, m, l) = (w(4), w(12), w(20));
    let fits = (1..=16).contains(&n) && (1..=16).contains(&m) && l <= 128;
    let at = [24, 24 + 8 * n, 24 + 8 * n + 4 * m];
    if !fits || [w(0), w(8), w(16)] != at || file.len() as u64 != at[2] + 8 * l {
        return 201;
    }
    let ids: Vec<u64> = (0..n).map(|p| w(24 + 8 * p as usize)).collect();
    for p in 0..n as usize {
        let rest = w(24 + 8 * p + 4);
        if rest & 0xffff > 1 || (rest >> 16) >= 1 << m || ids[..p].contains(&ids[p]) {
            return 202;
        }
    }
    for a in 0..m as usize {
        if !(1..=3).contains(&w(at[1] as usize + 4 * a)) {
            return 202;
        }
    }
    for i in 0..l as usize {
        let row = at[2] as usize + 8 * i;
        let (kind, owner) = (w(row + 4) / 65_536, w(row + 4) % 65_536);
        if owner >= m || kind > 1 || (i > 0 && w(row - 8) >= w(row)) {
            return 202;
        }
    }
    0
}

#[test]
fn generated_plans() {
    let mut codes = BTreeMap::new();
    let mut sizes = std::collections::BTreeSet::new();
    let mut chars = 0;
    generate(1, 10_000, Kind::Plan, &mut |line| {
        chars += line.len() + 1;
        let text = String::from_utf8(line.to_vec()).unwrap();
        let result = String::from_utf8(run(line)).unwrap();
        *codes
            .entry(result.split('=').next().unwrap().to_string())
            .or_insert(0) += 1;
        let Some(hex) = text.strip_prefix("plan ") else {
            return Ok(());
        };
        if result == "?\n" {
            return Ok(());
        }
        let bytes: Vec<u8> = (0..hex.len() / 2)
            .map(|i| u8::from_str_radix(&hex[2 * i..2 * i + 2], 16).unwrap())
            .collect();
        assert_eq!(code(&bytes), plain_verdict(&bytes), "{text}");
        let g = load(&bytes).gateway;
        sizes.insert((g.asps, g.ases, g.links));
        for (p, row) in bytes[24.min(bytes.len())..]
            .chunks_exact(8)
            .take(g.asps as usize)
            .enumerate()
        {
            assert_eq!(row[6..], [0, g.wholelists[p]]);
        }
        let rows = bytes.len().saturating_sub(8 * g.links as usize);
        for (link, row) in bytes[rows..].chunks_exact(8).enumerate() {
            assert_eq!(row[4..], [0, g.highspeed[link], 0, g.owner[link]]);
        }
        Ok(())
    })
    .unwrap();
    println!("{codes:?}, {} sizes, {chars} characters", sizes.len());
    for code in ["0\n", "201\n", "202\n"] {
        assert!(codes[code] > 500);
    }
    assert!(sizes.contains(&(1, 1, 0)));
}
