//! Plan files, good and damaged, and lines of the kind `plan`.

use super::hex::put_bytes;
use super::malformed;
use super::rng::Rng;

/// A plan as it will be written.
#[derive(Clone)]
pub struct Plan {
    /// Identifier, mask of ASes, spare.
    pub asps: Vec<(u32, u16, u16)>,
    pub modes: Vec<u32>,
    pub links: Vec<Link>,
}

/// A link's row.
#[derive(Clone)]
pub struct Link {
    pub id: u32,
    pub kind: u16,
    pub owner: u16,
}

impl Plan {
    pub fn encode(&self) -> Vec<u8> {
        let mut out = Vec::new();
        let mut offset = 24;
        for (count, size) in [
            (self.asps.len(), 8),
            (self.modes.len(), 4),
            (self.links.len(), 8),
        ] {
            out.extend_from_slice(&(offset as u32).to_be_bytes());
            out.extend_from_slice(&(count as u32).to_be_bytes());
            offset += count * size;
        }
        for (id, mask, spare) in &self.asps {
            out.extend_from_slice(&id.to_be_bytes());
            out.extend_from_slice(&mask.to_be_bytes());
            out.extend_from_slice(&spare.to_be_bytes());
        }
        for mode in &self.modes {
            out.extend_from_slice(&mode.to_be_bytes());
        }
        for link in &self.links {
            out.extend_from_slice(&link.id.to_be_bytes());
            out.extend_from_slice(&link.kind.to_be_bytes());
            out.extend_from_slice(&link.owner.to_be_bytes());
        }
        out
    }
}

/// A good plan of this size.
pub fn valid(rng: &mut Rng, asps: usize, ases: usize, links: usize) -> Plan {
    let all = ((1u32 << ases) - 1) as u16;
    // In some plans every ASP is in most ASes, in some in few.
    let thin = rng.below(3);
    let mut ids: Vec<u32> = Vec::new();
    while ids.len() < asps {
        let id = if rng.one_in(3) {
            rng.word()
        } else {
            rng.below(60) as u32
        };
        if !ids.contains(&id) {
            ids.push(id);
        }
    }
    let asps = ids.iter().map(|id| {
        let mut mask = rng.next64() as u16;
        match thin {
            0 => mask |= rng.next64() as u16,
            1 => mask &= rng.next64() as u16,
            _ => {}
        }
        if rng.one_in(6) {
            mask = rng.pick(&[0, all, all, 1]);
        }
        (*id, mask & all, rng.one_in(5) as u16)
    });
    let asps = asps.collect();
    let modes = (0..ases).map(|_| rng.range(1, 3) as u32).collect();
    Plan {
        asps,
        modes,
        links: valid_links(rng, ases, links),
    }
}

/// Links with identifiers ascending: mostly dense, so that ranges hit them,
/// with gaps. About a third are high-speed.
fn valid_links(rng: &mut Rng, ases: usize, count: usize) -> Vec<Link> {
    let mut id = match rng.below(8) {
        0 => 0,
        1 => u32::MAX - 20_000,
        2 => 0x7fff_fff0,
        _ => rng.range(1, 200) as u32,
    };
    let single = rng.one_in(8).then(|| rng.below(ases as u64) as u16);
    let mut owner = rng.below(ases as u64) as u16;
    // Now and then all are of one kind.
    let all = rng.one_in(6).then(|| rng.below(2) as u16);
    let mut links = Vec::new();
    for _ in 0..count {
        if rng.one_in(3) {
            owner = rng.below(ases as u64) as u16;
        }
        let kind = rng.one_in(3) as u16;
        links.push(Link {
            id,
            kind: all.unwrap_or(kind),
            owner: single.unwrap_or(owner),
        });
        id += match rng.below(12) {
            0 => rng.range(2, 5) as u32,
            1 if rng.one_in(4) => rng.range(6, 150) as u32,
            _ => 1,
        };
    }
    // The last one may be the highest there is.
    if let Some(last) = links.last_mut() {
        if rng.one_in(20) {
            last.id = u32::MAX;
        }
    }
    links
}

/// Mostly small, now and then the largest.
fn any_size(rng: &mut Rng) -> (usize, usize, usize) {
    if rng.one_in(400) {
        return (16, 16, 128);
    }
    let side = |rng: &mut Rng| match rng.below(20) {
        0 => 16,
        1 => rng.range(1, 16) as usize,
        2..=6 => 1,
        _ => rng.range(1, 4) as usize,
    };
    let links = match rng.below(120) {
        0 => 128,
        1 => 127,
        2 => rng.range(0, 128) as usize,
        3..=40 => 0,
        _ => rng.range(1, 6) as usize,
    };
    (side(rng), side(rng), links)
}

/// Kinds of a link, two good ones and others.
const KINDS: [u16; 12] = [0, 1, 1, 2, 2, 2, 3, 255, 256, 257, 0x8000, 0xffff];

/// Spares of an ASP, two good ones and others.
const SPARES: [u16; 12] = [0, 1, 1, 2, 2, 3, 255, 256, 257, 0x8000, 0x8001, 0xffff];

/// An owner about the last AS, or far beyond it.
fn owner_near(rng: &mut Rng, ases: u16) -> u16 {
    rng.pick(&[ases, ases - 1, ases + 1, 16, 255, 256, u16::MAX])
}

/// A row made wrong, or nearly.
fn damage_row(rng: &mut Rng, plan: &mut Plan) {
    let ases = plan.modes.len() as u32;
    let p = rng.below(plan.asps.len() as u64) as usize;
    let a = rng.below(ases as u64) as usize;
    let links = plan.links.len();
    match rng.below(14) {
        0 => plan.modes[a] = rng.pick(&[0, 4, 255, 256, 257, 0x0100_0001, u32::MAX]),
        1 => plan.modes[a] = rng.pick(&[1, 3]),
        2 => plan.asps[p].1 |= rng.pick(&[1u32 << ases.min(15), 1 << 15]) as u16,
        3 => plan.asps[p].2 = rng.pick(&SPARES),
        4 => {
            let other = rng.below(plan.asps.len() as u64) as usize;
            plan.asps[p].0 = plan.asps[other].0;
        }
        5 if links > 1 => {
            let at = rng.range(1, links as u64 - 1) as usize;
            plan.links[at].id = match rng.below(3) {
                0 => plan.links[at - 1].id,
                1 => plan.links[at - 1].id.wrapping_sub(1),
                _ => rng.word(),
            };
        }
        6 if links > 1 => {
            let at = rng.range(1, links as u64 - 1) as usize;
            plan.links.swap(at - 1, at);
        }
        7 | 8 if links > 0 => {
            let at = rng.below(links as u64) as usize;
            plan.links[at].owner = owner_near(rng, ases as u16);
        }
        9..=11 if links > 0 => {
            let at = rng.below(links as u64) as usize;
            plan.links[at].kind = match rng.below(6) {
                0 => rng.next64() as u16,
                _ => rng.pick(&KINDS),
            };
            if rng.one_in(6) {
                plan.links[at].owner = owner_near(rng, ases as u16);
            }
        }
        12 => plan.asps[p].2 = rng.pick(&SPARES),
        _ => plan.asps[p].1 = 0,
    }
}

/// Contents or length made wrong, or nearly.
fn damage_file(rng: &mut Rng, file: &mut Vec<u8>) {
    let at = 4 * rng.below(6) as usize;
    match rng.below(6) {
        // A count or an offset.
        0 | 1 if file.len() >= 24 => {
            let old = crate::wire::be32(&file[at..]);
            let new = match rng.below(8) {
                0 => old.wrapping_add(1),
                1 => old.wrapping_sub(1),
                2 => old.wrapping_add(4),
                3 => old.wrapping_add(8),
                4 => old | 1 << rng.range(8, 31),
                5 => rng.pick(&[0, 16, 17, 24, 128, 129]),
                6 => 0,
                _ => rng.word(),
            };
            file[at..at + 4].copy_from_slice(&new.to_be_bytes());
        }
        2 => file.truncate(file.len().saturating_sub(rng.range(1, 8) as usize)),
        3 => {
            let size = rng.below(file.len() as u64 + 1) as usize;
            file.truncate(size);
        }
        4 => {
            let more = rng.pick(&[1, 2, 4, 8, 8]);
            file.extend(rng.bytes(more));
        }
        _ => {
            if !file.is_empty() {
                let at = rng.below(file.len() as u64) as usize;
                file[at] ^= 1 << rng.below(8);
            }
        }
    }
}

/// One count out of bounds, with the file to go with it: nothing else is
/// wrong.
fn too_many(rng: &mut Rng) -> Vec<u8> {
    let (asps, ases, links) = rng.pick(&[
        (17, 1, 0),
        (1, 17, 0),
        (1, 1, 129),
        (0, 1, 0),
        (1, 0, 0),
        (0, 0, 0),
        (17, 17, 0),
        (0, 1, 1),
        (16, 16, 0),
        (16, 16, 129),
    ]);
    let mut plan = valid(rng, asps.clamp(1, 16), ases.clamp(1, 16), links);
    plan.asps.resize(asps, (77, 0, 0));
    plan.modes.resize(ases, 1);
    plan.encode()
}

pub fn any(rng: &mut Rng) -> Vec<u8> {
    match rng.below(60) {
        0 => return too_many(rng),
        1 => {
            let size = rng.below(30) as usize;
            return rng.bytes(size);
        }
        2 => return Vec::new(),
        _ => {}
    }
    let (asps, ases, links) = any_size(rng);
    let mut plan = valid(rng, asps, ases, links);
    let faults = rng.pick(&[0, 0, 0, 1, 1, 1, 2, 2]);
    let mut late = 0;
    for _ in 0..faults {
        if rng.one_in(3) {
            late += 1;
        } else {
            damage_row(rng, &mut plan);
        }
    }
    let mut file = plan.encode();
    for _ in 0..late {
        damage_file(rng, &mut file);
    }
    file
}

/// Lines that are no good `plan` or `state`.
const MALFORMED: [&str; 14] = [
    "plan", "plan ", "plan - ", "plan - -", "plan 0", "plan 0A", "plan  -", "state ", "state -",
    "state 0", " state", "states", "State", "stat",
];

pub fn line(rng: &mut Rng, line: &mut Vec<u8>) {
    match rng.below(300) {
        0 => malformed::line(rng, line),
        1..=3 => line.extend_from_slice(rng.pick(&MALFORMED).as_bytes()),
        4..=90 => line.extend_from_slice(b"state"),
        _ => {
            put(&any(rng), line);
            if rng.one_in(150) {
                malformed::damage(rng, line);
            }
        }
    }
}

/// The command that loads a plan file.
pub fn put(file: &[u8], line: &mut Vec<u8>) {
    line.extend_from_slice(b"plan ");
    put_bytes(file, line);
}
