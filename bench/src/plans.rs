//! Plan files.

/// A plan file: ASPs (identifier, mask), ASes (mode), links (identifier, and a word with kind and owner).
/// Part of every list may succeed.
pub fn plan(asps: &[(u32, u16)], ases: &[u32], links: &[(u32, u32)]) -> Vec<u8> {
    let at = [
        24,
        24 + 8 * asps.len(),
        24 + 8 * asps.len() + 4 * ases.len(),
    ];
    let mut f = vec![];
    for (offset, count) in at.into_iter().zip([asps.len(), ases.len(), links.len()]) {
        f.extend((offset as u32).to_be_bytes());
        f.extend((count as u32).to_be_bytes());
    }
    for (id, mask) in asps {
        f.extend(id.to_be_bytes());
        f.extend(mask.to_be_bytes());
        f.extend([0, 0]);
    }
    for mode in ases {
        f.extend(mode.to_be_bytes());
    }
    for (id, word) in links {
        f.extend(id.to_be_bytes());
        f.extend(word.to_be_bytes());
    }
    f
}

/// The same with ASP 0 in these ASes, and its lists taken whole or not.
pub fn with_asp_0(mut file: Vec<u8>, mask: u16, whole: bool) -> Vec<u8> {
    file[28..30].copy_from_slice(&mask.to_be_bytes());
    file[31] = whole as u8;
    file
}

/// What makes an owner's word that of a high-speed link.
pub const HIGH_SPEED: u32 = 1 << 16;

/// Plan S (Rule 11.1).
pub fn plan_s() -> Vec<u8> {
    plan_s_with(0)
}

/// Plan S with link 100 of this kind.
pub fn plan_s_with(kind: u32) -> Vec<u8> {
    let mut links: Vec<(u32, u32)> = (100..=115).map(|id| (id, 0)).collect();
    links[0].1 |= kind;
    links.push((200, 1));
    plan(&[(7, 1), (8, 1), (9, 2)], &[1, 2], &links)
}

/// 16 ASPs, each in all of 16 ASes, and 128 links with gaps between their identifiers.
pub fn full_plan() -> Vec<u8> {
    full_plan_of(128, 3)
}

/// The same with so many links, from identifier 0 on, each so far above the one before it.
pub fn full_plan_of(links: u32, step: u32) -> Vec<u8> {
    let asps: Vec<(u32, u16)> = (0..16).map(|p| (1000 + p, 0xffff)).collect();
    let ases: Vec<u32> = (0..16).map(|a| a % 3 + 1).collect();
    let links: Vec<(u32, u32)> = (0..links).map(|l| (l * step, l % 16)).collect();
    plan(&asps, &ases, &links)
}
