//! States that break one condition of soundness each, field by field: the proved library's verdict against
//! the expected one; and every value that matters in every entry of every field, against the second program's
//! verdict.
use bench::holds::full_hold;
use bench::plans::{full_plan, plan_s};
use bench::proved;
use second::{is_sound, load, Gateway};

type Break = (&'static str, fn(&mut Gateway));

/// Each breaks one condition alone on plan S with ASP 0 up and active in AS 0.
const BREAKS: &[Break] = &[
    ("no ASPs", |g| g.asps = 0),
    ("17 ASPs", |g| g.asps = 17),
    ("no ASes", |g| g.ases = 0),
    ("17 ASes", |g| g.ases = 17),
    ("129 links", |g| g.links = 129),
    ("one link fewer than the tables have", |g| g.links -= 1),
    ("a spare byte of 1", |g| g.spare = 1),
    ("two equal ASP identifiers", |g| g.asp_id[1] = g.asp_id[0]),
    ("an ASP identifier beyond the ASPs", |g| g.asp_id[3] = 1),
    ("an up flag of 2", |g| g.up[1] = 2),
    ("an ASP up beyond the ASPs", |g| g.up[3] = 1),
    ("a member flag of 2", |g| g.member[0] = 2),
    ("a member beyond the ASPs", |g| g.member[3] = 1),
    ("a member beyond the ASes", |g| g.member[2 * 16] = 1),
    ("an active flag of 2", |g| g.active[0] = 2),
    ("active and no member", |g| {
        g.up[2] = 1;
        g.active[2] = 1
    }),
    ("active and not up", |g| g.active[16 + 2] = 1),
    ("two active in override", |g| {
        g.up[1] = 1;
        g.active[1] = 1
    }),
    ("mode 0", |g| g.mode[1] = 0),
    ("mode 4", |g| g.mode[1] = 4),
    ("a mode beyond the ASes", |g| g.mode[2] = 1),
    ("a waiting flag of 2", |g| g.waiting[1] = 2),
    ("waiting with an active member", |g| g.waiting[0] = 1),
    ("waiting beyond the ASes", |g| g.waiting[2] = 1),
    ("equal link identifiers", |g| g.link_id[1] = g.link_id[0]),
    ("descending link identifiers", |g| g.link_id.swap(0, 1)),
    ("a link identifier beyond the links", |g| {
        g.link_id[17] = 300
    }),
    ("an owner beyond the ASes", |g| g.owner[0] = 2),
    ("an owner beyond the links", |g| g.owner[17] = 1),
    ("a link state of 4", |g| g.state[0] = 4),
    ("a link state beyond the links", |g| g.state[17] = 1),
    ("a kind of 2", |g| g.highspeed[16] = 2),
    ("a kind of 255", |g| g.highspeed[0] = 255),
    ("a kind beyond the links", |g| g.highspeed[17] = 1),
    ("a kind at the last place", |g| g.highspeed[127] = 1),
    ("a mark of whole lists of 2", |g| g.wholelists[0] = 2),
    ("a mark of whole lists of 255", |g| g.wholelists[2] = 255),
    ("whole lists beyond the ASPs", |g| g.wholelists[3] = 1),
    ("whole lists at the last place", |g| g.wholelists[15] = 1),
];

/// Each leaves the state sound.
const KEEPS: &[Break] = &[
    ("nothing", |_| {}),
    ("waiting with none active", |g| g.waiting[1] = 1),
    ("a link in each state", |g| {
        g.state[..4].copy_from_slice(&[0, 1, 2, 3])
    }),
    ("a high-speed link", |g| g.highspeed[16] = 1),
    ("all links high-speed", |g| g.highspeed[..17].fill(1)),
    ("an ASP with whole lists", |g| g.wholelists[2] = 1),
    ("all ASPs with whole lists", |g| g.wholelists[..3].fill(1)),
    ("an ASP up and not active", |g| g.up[2] = 1),
    ("an AS without members", |g| g.member[16 + 2] = 0),
];

/// Each breaks one condition alone on that state with AS 1 waiting and two units of link 200, of which the
/// second has a correlation id.
const HELD_BREAKS: &[Break] = &[
    ("units and not waiting", |g| g.waiting[1] = 0),
    ("a unit of an AS with an active member", |g| {
        g.held[0] = 1;
        (g.held_tag[0], g.held_len[0], g.held_id[0]) = (0x300, 5, 100)
    }),
    ("nine units", |g| {
        fill(g, 8);
        g.held[1] = 9
    }),
    ("one unit fewer than the tables have", |g| g.held[1] = 1),
    ("one unit more than the tables have", |g| g.held[1] = 3),
    ("a unit's tag 0x2ff", |g| g.held_tag[8] = 0x2ff),
    ("a unit's tag 0x302", |g| g.held_tag[8] = 0x302),
    ("a unit's length 4", |g| g.held_len[8] = 4),
    ("a unit's length 278", |g| g.held_len[8] = 278),
    ("a unit of a link that there is not", |g| g.held_id[8] = 201),
    ("a unit of another AS's link", |g| g.held_id[8] = 100),
    ("a unit's mark of 2", |g| g.held_marked[9] = 2),
    ("a correlation id without its mark", |g| {
        g.held_marked[9] = 0
    }),
    ("a tag beyond the units", |g| g.held_tag[10] = 0x300),
    ("a length beyond the units", |g| g.held_len[10] = 5),
    ("a mark beyond the units", |g| g.held_marked[10] = 1),
    ("an identifier beyond the units", |g| g.held_id[10] = 200),
    ("a correlation id beyond the units", |g| {
        g.held_correlation[10] = 1
    }),
    ("a count beyond the ASes", |g| g.held[2] = 1),
    ("an identifier beyond the ASes", |g| g.held_id[16] = 200),
];

/// Each leaves it sound.
const HELD_KEEPS: &[Break] = &[
    ("nothing", |_| {}),
    ("no units", |g| fill(g, 0)),
    ("eight units", |g| fill(g, 8)),
    ("a unit's tag 0x301", |g| g.held_tag[8] = 0x301),
    ("a unit's length 277", |g| g.held_len[8] = 277),
    ("a correlation id of 0", |g| g.held_correlation[9] = 0),
];

/// AS 1 holds so many units of link 200; each but the first has a correlation id.
fn fill(g: &mut Gateway, count: usize) {
    g.held[1] = count as u8;
    for i in 8..16 {
        let unit = i < 8 + count;
        let marked = unit && i > 8;
        (g.held_tag[i], g.held_len[i]) = if unit { (0x300, 5) } else { (0, 0) };
        g.held_id[i] = if unit { 200 } else { 0 };
        (g.held_marked[i], g.held_correlation[i]) = if marked { (1, 7) } else { (0, 0) };
    }
}

fn with_units() -> Gateway {
    let mut g = base();
    g.waiting[1] = 1;
    fill(&mut g, 2);
    g
}

fn base() -> Gateway {
    let mut g = load(&plan_s()).gateway;
    g.up[0] = 1;
    g.active[0] = 1;
    g
}

fn main() {
    let mut failures = 0;
    let cases = [
        (base(), BREAKS, false),
        (base(), KEEPS, true),
        (with_units(), HELD_BREAKS, false),
        (with_units(), HELD_KEEPS, true),
    ];
    let singles: usize = cases.iter().map(|(_, cases, _)| cases.len()).sum();
    for (state, cases, expected) in cases {
        for (name, change) in cases {
            let mut g = state;
            change(&mut g);
            if proved::is_sound(&g) != expected {
                println!("{name}: expected {expected}");
                failures += 1;
            }
        }
    }
    let mut tried = 0u32;
    let mut busy = load(&full_plan()).gateway;
    busy.up = [1; 16];
    for l in 0..128 {
        busy.highspeed[l] = (l % 3 == 0) as u8;
    }
    for p in 0..16 {
        busy.wholelists[p] = (p % 3 == 0) as u8;
    }
    for a in 0..16 {
        // AS a has mode a % 3 + 1: in override one is active, else several
        for q in 0..if busy.mode[a] == 1 { 1 } else { a } {
            busy.active[a * 16 + q] = 1;
        }
    }
    for mut g in [
        base(),
        load(&full_plan()).gateway,
        busy,
        with_units(),
        full_hold().0,
    ] {
        for at in 0..std::mem::size_of::<Gateway>() {
            for value in [0u8, 1, 2, 3, 4, 16, 17, 128, 129, 255] {
                // SAFETY: every field is an array of plain numbers, so any bytes are a state.
                let bytes = unsafe {
                    std::slice::from_raw_parts_mut(
                        (&mut g as *mut Gateway).cast::<u8>(),
                        std::mem::size_of::<Gateway>(),
                    )
                };
                let old = std::mem::replace(&mut bytes[at], value);
                if proved::is_sound(&g) != is_sound(&g) {
                    println!("byte {at} as {value}: the two differ");
                    failures += 1;
                }
                let bytes = unsafe {
                    std::slice::from_raw_parts_mut(
                        (&mut g as *mut Gateway).cast::<u8>(),
                        std::mem::size_of::<Gateway>(),
                    )
                };
                bytes[at] = old;
                tried += 1;
            }
        }
    }
    println!(
        "states: {singles} single conditions and {tried} single bytes tried, {failures} failures"
    );
    std::process::exit((failures > 0) as i32);
}
