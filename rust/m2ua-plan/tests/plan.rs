//! Text to file and back; each refusal of section 4 of the rules, by row; and that this program's reasons
//! agree with the proved loader.
use m2ua_plan::{compile, diagnose, parse, show};

const TEXT: &str = "\
asp asp0 id 7
asp asp1 id 8
asp asp2 id 9
as as0 mode override members asp0 asp1
as as1 mode load-share members asp2
as as2 mode broadcast
link 100-115 as as0
link 200 as as1 high-speed
";

fn refusal(file: &[u8]) -> u32 {
    m2ua::Gateway::load(file).map_or_else(|no| no.code(), |_| 0)
}

/// The file of TEXT with a word replaced.
fn with(at: usize, word: u32) -> Vec<u8> {
    let mut file = compile(TEXT).unwrap();
    file[at..at + 4].copy_from_slice(&word.to_be_bytes());
    file
}

fn only_fault(file: &[u8]) -> String {
    let faults = diagnose(file).expect("a fault");
    assert_eq!(faults.len(), 1, "{faults:?}");
    assert_eq!(faults[0].code, refusal(file));
    assert_eq!(show(file).unwrap_err(), faults);
    faults[0].to_string()
}

#[test]
fn canonical_text_is_a_fixed_point() {
    let file = compile(TEXT).unwrap();
    assert_eq!(file.len(), 24 + 3 * 8 + 3 * 4 + 17 * 8);
    assert_eq!(show(&file).unwrap(), TEXT);
    assert_eq!(compile(&show(&file).unwrap()).unwrap(), file);
    assert_eq!(diagnose(&file), None);
    assert_eq!(parse(TEXT).unwrap().to_string(), TEXT);
}

#[test]
fn names_order_and_spelling_do_not_matter() {
    let other = "\
        # any order, any blanks\n\n\
        link 200 high-speed as west\n  as east members right left mode override # the first AS\n\
        asp left id 0x7\n asp right\tid 8\nas west mode loadshare members other\n\
        as spare mode broadcast\nasp other id 9\nlink 100-110 as east\nlink 111 as east\nlink 112-115 as east";
    assert_eq!(compile(other).unwrap(), compile(TEXT).unwrap());
    assert_eq!(
        parse(other).unwrap().to_string(),
        TEXT.replace("asp0", "left")
            .replace("asp1", "right")
            .replace("asp2", "other")
            .replace("as0", "east")
            .replace("as1", "west")
            .replace("as2", "spare")
    );
}

#[test]
fn the_smallest_and_the_largest_plan() {
    let smallest = "asp asp0 id 0\nas as0 mode override\n";
    assert_eq!(show(&compile(smallest).unwrap()).unwrap(), smallest);
    let names: Vec<String> = (0..16).map(|i| format!("asp{i}")).collect();
    let mut largest: String = names
        .iter()
        .enumerate()
        .map(|(i, n)| format!("asp {n} id {}\n", u32::MAX - i as u32))
        .collect();
    largest
        .extend((0..16).map(|a| format!("as as{a} mode broadcast members {}\n", names.join(" "))));
    largest.extend((0..16).map(|a| {
        format!(
            "link {}-{} as as{a}\n",
            u32::MAX - 127 + 8 * a,
            u32::MAX - 120 + 8 * a
        )
    }));
    let file = compile(&largest).unwrap();
    assert_eq!(file.len(), m2ua::sys::MAX_PLAN);
    assert_eq!(show(&file).unwrap(), largest);
}

#[test]
fn a_wrong_layout_is_201() {
    let file = compile(TEXT).unwrap();
    assert_eq!(
        only_fault(&[]),
        "file: 0 bytes; the contents alone have 24 (201)"
    );
    assert_eq!(
        only_fault(&file[..23]),
        "file: 23 bytes; the contents alone have 24 (201)"
    );
    assert_eq!(
        only_fault(&file[..file.len() - 1]),
        "file: 195 bytes; its rows end at byte 196 (201)"
    );
    assert_eq!(
        only_fault(&[&file[..], &[0]].concat()),
        "file: 197 bytes; its rows end at byte 196 (201)"
    );
    assert_eq!(
        only_fault(&with(0, 25)),
        "contents: the ASP rows are said to start at byte 25; they start at 24 (201)"
    );
    assert_eq!(
        only_fault(&with(4, 0)),
        "contents: 0 ASP rows; a plan has 1 to 16 (201)"
    );
    assert_eq!(
        only_fault(&with(4, 17)),
        "contents: 17 ASP rows; a plan has 1 to 16 (201)"
    );
    assert_eq!(
        only_fault(&with(8, 49)),
        "contents: the AS rows are said to start at byte 49; they start at 48 (201)"
    );
    assert_eq!(
        only_fault(&with(12, 0)),
        "contents: 0 AS rows; a plan has 1 to 16 (201)"
    );
    assert_eq!(
        only_fault(&with(12, 17)),
        "contents: 17 AS rows; a plan has 1 to 16 (201)"
    );
    assert_eq!(
        only_fault(&with(16, 0)),
        "contents: the link rows are said to start at byte 0; they start at 60 (201)"
    );
    assert_eq!(
        only_fault(&with(20, 129)),
        "contents: 129 link rows; a plan has 0 to 128 (201)"
    );
    assert_eq!(
        only_fault(&with(20, u32::MAX)),
        "contents: 4294967295 link rows; a plan has 0 to 128 (201)"
    );
}

#[test]
fn a_wrong_row_is_202() {
    assert_eq!(
        only_fault(&with(32, 7)),
        "ASP row 1 (byte 32): identifier 7 is that of ASP row 0 (202)"
    );
    assert_eq!(
        only_fault(&with(28, 0x0009_0000)),
        "ASP row 0 (byte 24): mask 0x0009 has a bit for AS 3, and the plan has 3 (202)"
    );
    for spare in [2, 3, 255, 256, 257, 0xffff] {
        assert_eq!(
            only_fault(&with(28, 0x0001_0000 | spare)),
            format!("ASP row 0 (byte 24): spare {spare} is neither 0, part of a list may succeed, nor 1, whole lists (202)")
        );
    }
    assert_eq!(refusal(&with(28, 0x0001_0001)), 0);
    assert_eq!(refusal(&with(36, 0x0001_0001)), 0);
    assert_eq!(
        only_fault(&with(48, 0)),
        "AS row 0 (byte 48): traffic mode 0 is not 1, 2 or 3 (202)"
    );
    assert_eq!(
        only_fault(&with(56, 4)),
        "AS row 2 (byte 56): traffic mode 4 is not 1, 2 or 3 (202)"
    );
    assert_eq!(
        only_fault(&with(68, 100)),
        "link row 1 (byte 68): identifier 100 does not grow from the row before, 100 (202)"
    );
    assert_eq!(
        only_fault(&with(64, 3)),
        "link row 0 (byte 60): owner AS 3, and the plan has 3 (202)"
    );
    assert_eq!(
        only_fault(&with(64, 0x0001_0003)),
        "link row 0 (byte 60): owner AS 3, and the plan has 3 (202)"
    );
    for (word, kind) in [
        (0x0002_0000, 2),
        (0x0003_0002, 3),
        (0x0100_0001, 256),
        (0xffff_0000, 65535),
    ] {
        assert_eq!(
            only_fault(&with(64, word)),
            format!(
                "link row 0 (byte 60): kind {kind} is neither 0, plain, nor 1, high-speed (202)"
            )
        );
    }
    let both: Vec<String> = diagnose(&with(192, 0x0002_0003))
        .unwrap()
        .iter()
        .map(|fault| fault.to_string())
        .collect();
    assert_eq!(
        both,
        [
            "link row 16 (byte 188): owner AS 3, and the plan has 3 (202)",
            "link row 16 (byte 188): kind 2 is neither 0, plain, nor 1, high-speed (202)"
        ]
    );
    assert_eq!(refusal(&with(192, 0x0002_0003)), 202);
}

#[test]
fn kinds_of_links_both_ways() {
    let head = "asp asp0 id 7\nas as0 mode override members asp0\nas as1 mode override\n";
    let of = |links: &str| compile(&format!("{head}{links}")).unwrap();
    // the second word of the first link's row, behind 24 bytes of contents, one ASP and two ASes
    let word = |links: &str| of(links)[44..48].to_vec();
    assert_eq!(word("link 1 as as0"), [0, 0, 0, 0]);
    assert_eq!(word("link 1 as as1"), [0, 0, 0, 1]);
    assert_eq!(word("link 1 as as0 high-speed"), [0, 1, 0, 0]);
    assert_eq!(word("link 1 as as1 high-speed"), [0, 1, 0, 1]);
    assert_eq!(
        word("link 1 high-speed as as1 # either order"),
        [0, 1, 0, 1]
    );
    // a range is of one AS and of one kind
    let links = "link 1-2 as as0\nlink 3-5 as as0 high-speed\nlink 6 as as0\nlink 7 as as1 high-speed\nlink 8-9 as as0 high-speed\n";
    assert_eq!(show(&of(links)).unwrap(), format!("{head}{links}"));
    let one_by_one = "link 5 as as0 high-speed\nlink 8 high-speed as as0\nlink 9 as as0 high-speed\nlink 3-4 as as0 high-speed\n\
                      link 7 as as1 high-speed\nlink 6 as as0\nlink 2 as as0\nlink 1 as as0\n";
    assert_eq!(of(one_by_one), of(links));
    let all = "link 0-127 as as1 high-speed\n";
    assert_eq!(show(&of(all)).unwrap(), format!("{head}{all}"));
    // plain and high-speed are two plans
    let plain = TEXT.replace(" high-speed", "");
    assert!(!parse(TEXT).unwrap().is_like(&parse(&plain).unwrap()));
    assert_ne!(compile(TEXT).unwrap(), compile(&plain).unwrap());
}

#[test]
fn whole_lists_both_ways() {
    let tail = "as as0 mode override members asp0 asp1\n";
    let of = |asps: &str| compile(&format!("{asps}{tail}")).unwrap();
    // the second words of both ASPs' rows, behind 24 bytes of contents
    let words = |asps: &str| (of(asps)[28..32].to_vec(), of(asps)[36..40].to_vec());
    let (part, whole) = (vec![0, 1, 0, 0], vec![0, 1, 0, 1]);
    for (asps, expected) in [
        ("asp asp0 id 7\nasp asp1 id 8\n", (&part, &part)),
        (
            "asp asp0 id 7 whole-lists\nasp asp1 id 8\n",
            (&whole, &part),
        ),
        (
            "asp asp0 id 7\nasp asp1 id 8 whole-lists\n",
            (&part, &whole),
        ),
        (
            "asp asp0 id 7 whole-lists\nasp asp1 id 8 whole-lists\n",
            (&whole, &whole),
        ),
    ] {
        let found = words(asps);
        assert_eq!((&found.0, &found.1), expected, "{asps}");
        assert_eq!(show(&of(asps)).unwrap(), format!("{asps}{tail}"));
        assert_eq!(
            parse(&format!("{asps}{tail}")).unwrap().to_string(),
            format!("{asps}{tail}")
        );
    }
    // in either order
    assert_eq!(
        of("asp asp0 whole-lists id 7 # as before\nasp asp1 id 8\n"),
        of("asp asp0 id 7 whole-lists\nasp asp1 id 8\n")
    );
    // with it and without are two plans
    let other = TEXT.replace("id 8", "id 8 whole-lists");
    assert!(!parse(TEXT).unwrap().is_like(&parse(&other).unwrap()));
    assert_ne!(compile(TEXT).unwrap(), compile(&other).unwrap());
    assert_eq!(show(&compile(&other).unwrap()).unwrap(), other);
}

#[test]
fn the_plans_of_the_examples() {
    let sample = compile(include_str!("../../../examples/plans/sample.txt")).unwrap();
    let high_speed = compile(include_str!("../../../examples/plans/high-speed.txt")).unwrap();
    let hex = |file: &[u8]| file.iter().map(|b| format!("{b:02x}")).collect::<String>();
    // plan S as the samples have it, and the plan of the hosts' day
    for (script, file) in [
        (include_str!("../../../examples/samples.txt"), &sample),
        (include_str!("../../../examples/day.txt"), &high_speed),
    ] {
        let line = format!("plan {}\n", hex(file));
        assert!(script.contains(&line), "{line}");
    }
    assert_eq!(
        show(&high_speed).unwrap(),
        show(&sample)
            .unwrap()
            .replace("link 200 as as1\n", "link 200 as as1 high-speed\n")
            .replace("asp1 id 8\n", "asp1 id 8 whole-lists\n")
    );
}

/// What is wrong with a text, one line each.
fn problems(text: &str) -> Vec<String> {
    parse(text)
        .unwrap_err()
        .iter()
        .map(|p| p.to_string())
        .collect()
}

#[test]
fn where_an_asp_comes_from() {
    let text = "asp a id 1 from 192.0.2.1\nasp b id 2 whole-lists from 192.0.2.2:2905\nasp c from [2001:db8::1]:7 198.51.100.3:7 id 3\nasp d id 4\nas x mode override members a\n";
    let plan = parse(text).unwrap();
    let shown: Vec<String> = plan
        .asps
        .iter()
        .map(|a| {
            let words: Vec<String> = a.from.iter().map(|f| f.to_string()).collect();
            words.join(" ")
        })
        .collect();
    let both = "[2001:db8::1]:7 198.51.100.3:7";
    assert_eq!(shown, ["192.0.2.1", "192.0.2.2:2905", both, ""]);
    let is = |p: usize, peer: &str| {
        let from = &plan.asps[p].from;
        from.iter().any(|from| from.is(peer.parse().unwrap()))
    };
    assert!(is(0, "192.0.2.1:9") && is(1, "192.0.2.2:2905") && is(2, "[2001:db8::1]:7"));
    assert!(is(2, "198.51.100.3:7") && !is(2, "198.51.100.3:8") && !is(3, "192.0.2.1:9"));
    assert!(!is(0, "192.0.2.2:9") && !is(1, "192.0.2.2:2906") && !is(2, "[2001:db8::2]:7"));
    // canonical text has it, and a file has no place for it
    assert_eq!(parse(&plan.to_string()).unwrap(), plan);
    let bare: String = text
        .lines()
        .map(|line| {
            line.split(" from ").next().unwrap().to_string()
                + if line.contains("asp c") {
                    " id 3\n"
                } else {
                    "\n"
                }
        })
        .collect();
    assert_eq!(m2ua_plan::compile(text), m2ua_plan::compile(&bare));
}

#[test]
fn a_refused_text_names_line_row_and_reason() {
    let good = "asp a id 7\nas x mode override members a\n";
    let with = |line: &str| problems(&format!("{good}{line}\n"));
    assert_eq!(
        problems(""),
        [
            "asp: there is none; a plan has 1 to 16",
            "as: there is none; a plan has 1 to 16"
        ]
    );
    assert_eq!(
        problems("asp a id 7"),
        ["as: there is none; a plan has 1 to 16"]
    );
    assert_eq!(
        with("asp a id 8"),
        ["line 3: asp a: the name is given in line 1 already"]
    );
    assert_eq!(
        with("asp b id 7"),
        ["line 3: asp b: identifier 7 is that of asp a (line 1)"]
    );
    assert_eq!(
        with("asp b"),
        ["line 3: asp b: 'id' is missing: the ASP identifier, a number"]
    );
    assert_eq!(
        with("asp b id 1 2"),
        ["line 3: asp b: 'id' takes one word: the ASP identifier, a number; and '2' follows it"]
    );
    assert_eq!(
        with("asp b id 4294967296"),
        ["line 3: asp b: id '4294967296' is no number up to 4294967295"]
    );
    assert_eq!(
        with("asp b id +1"),
        ["line 3: asp b: id '+1' is no number up to 4294967295"]
    );
    assert_eq!(
        with("asp b id 1 from"),
        ["line 3: asp b: 'from' takes addresses, each as ADDRESS or ADDRESS:PORT"]
    );
    assert_eq!(
        with("asp b id 1 from here"),
        ["line 3: asp b: from 'here' is no address, and no ADDRESS:PORT"]
    );
    assert_eq!(
        with("asp b id 1 from 192.0.2.1:0"),
        ["line 3: asp b: from '192.0.2.1:0' is no address, and no ADDRESS:PORT"]
    );
    assert_eq!(
        with("asp b id 1 from 192.0.2.1 192.0.2.2 192.0.2.1:7"),
        ["line 3: asp b: from '192.0.2.1:7' is given twice"]
    );
    assert_eq!(
        with("asp b id 1 from 192.0.2.9 192.0.2.1\nasp c id 2 from 192.0.2.1:5"),
        ["line 4: asp c: it could not be told from asp b (line 3) by where it comes from"]
    );
    assert_eq!(
        with("asp 1b id 1"),
        ["line 3: asp 1b: a name begins with a letter and has letters, digits, '_', '.' and '-'"]
    );
    assert_eq!(
        with("asp mode id 1"),
        ["line 3: asp mode: this is a word of the language and no name"]
    );
    assert_eq!(with("asp"), ["line 3: asp: a name is missing"]);
    assert_eq!(
        with("link"),
        ["line 3: link: an identifier or a range of them is missing"]
    );
    assert_eq!(
        with("asp b id 1 id 2"),
        ["line 3: asp b: 'id' is given twice"]
    );
    assert_eq!(
        with("asp b id 1 owner B"),
        ["line 3: asp b: 'owner' is no option of asp here: id, whole-lists, from"]
    );
    assert_eq!(
        with("asp b 1"),
        ["line 3: asp b: '1' where an option is expected: id, whole-lists, from"]
    );
    assert_eq!(
        with("asp b whole-list id 1"),
        ["line 3: asp b: 'whole-list' where an option is expected: id, whole-lists, from"]
    );
    assert_eq!(
        with("asp b id 1 whole-list"),
        ["line 3: asp b: 'id' takes one word: the ASP identifier, a number; and 'whole-list' follows it"]
    );
    assert_eq!(
        with("asp b id 1 wholelists"),
        ["line 3: asp b: 'id' takes one word: the ASP identifier, a number; and 'wholelists' follows it"]
    );
    assert_eq!(
        with("asp b id 1 whole-lists yes"),
        ["line 3: asp b: 'whole-lists' takes no word, and 'yes' follows"]
    );
    assert_eq!(
        with("asp b whole-lists 1 id 1"),
        ["line 3: asp b: 'whole-lists' takes no word, and '1' follows"]
    );
    assert_eq!(
        with("asp b whole-lists id 1 whole-lists"),
        ["line 3: asp b: 'whole-lists' is given twice"]
    );
    assert_eq!(
        with("asp b whole-lists"),
        ["line 3: asp b: 'id' is missing: the ASP identifier, a number"]
    );
    assert_eq!(
        with("asp whole-lists id 1"),
        ["line 3: asp whole-lists: this is a word of the language and no name"]
    );
    assert_eq!(
        with("as y mode override members a whole-lists"),
        ["line 3: as y: 'whole-lists' is no option of as here: mode, members"]
    );
    assert_eq!(
        with("link 1 as x whole-lists"),
        ["line 3: link 1: 'whole-lists' is no option of link here: as, high-speed"]
    );
    assert_eq!(
        with("as y"),
        ["line 3: as y: 'mode' is missing: override, load-share or broadcast"]
    );
    assert_eq!(
        with("as y mode 4"),
        ["line 3: as y: mode '4' is not override, load-share or broadcast"]
    );
    assert_eq!(
        with("as y mode override members q"),
        ["line 3: as y: member 'q' is no asp of this plan"]
    );
    assert_eq!(
        with("as y mode override members a a"),
        ["line 3: as y: member 'a' is given twice"]
    );
    assert_eq!(
        with("link 1 as q"),
        ["line 3: link 1: 'q' is no as of this plan"]
    );
    assert_eq!(
        with("link 1"),
        ["line 3: link 1: 'as' is missing: the AS that owns the link"]
    );
    assert_eq!(
        with("link 1 high-speed"),
        ["line 3: link 1: 'as' is missing: the AS that owns the link"]
    );
    assert_eq!(
        with("link 1 as high-speed"),
        ["line 3: link 1: 'as' takes one word: the AS that owns the link"]
    );
    assert_eq!(
        with("link 1 as x highspeed"),
        ["line 3: link 1: 'as' takes one word: the AS that owns the link; and 'highspeed' follows it"]
    );
    assert_eq!(
        with("link 1 as x high-speed high-speed"),
        ["line 3: link 1: 'high-speed' is given twice"]
    );
    assert_eq!(
        with("link 1-9 high-speed as x high-speed"),
        ["line 3: link 1-9: 'high-speed' is given twice"]
    );
    assert_eq!(
        with("link 1 as x high-speed yes"),
        ["line 3: link 1: 'high-speed' takes no word, and 'yes' follows"]
    );
    assert_eq!(
        with("link 1 high-speed 1 as x"),
        ["line 3: link 1: 'high-speed' takes no word, and '1' follows"]
    );
    assert_eq!(
        with("link 1 kind 1 as x"),
        ["line 3: link 1: 'kind' where an option is expected: as, high-speed"]
    );
    assert_eq!(
        with("link high-speed as x"),
        ["line 3: link high-speed: 'high' is no identifier: a number up to 4294967295"]
    );
    assert_eq!(
        with("asp b id 1 high-speed"),
        ["line 3: asp b: 'high-speed' is no option of asp here: id, whole-lists, from"]
    );
    assert_eq!(
        with("as y mode override members a high-speed"),
        ["line 3: as y: 'high-speed' is no option of as here: mode, members"]
    );
    assert_eq!(
        with("as high-speed mode override"),
        ["line 3: as high-speed: this is a word of the language and no name"]
    );
    assert_eq!(
        with("high-speed 1 as x"),
        ["line 3: high-speed: no such statement: a line begins with asp, as or link"]
    );
    assert_eq!(
        with("link 1-3 as x\nlink 3 as x high-speed"),
        ["line 4: link 3: the identifier is given in line 3 already"]
    );
    assert_eq!(
        with("link 1-x as x"),
        ["line 3: link 1-x: 'x' is no identifier: a number up to 4294967295"]
    );
    assert_eq!(
        with("link 2-1 as x"),
        ["line 3: link 2-1: the range stops below its start"]
    );
    assert_eq!(
        with("link 0-4294967295 as x"),
        ["line 3: link 0-4294967295: 4294967296 links in one line; a plan has at most 128"]
    );
    assert_eq!(
        with("link 1-3 as x\nlink 3 as x"),
        ["line 4: link 3: the identifier is given in line 3 already"]
    );
    assert_eq!(
        with("link 1-100 as x\nlink 201-229 as x"),
        ["line 4: link: 129 links; a plan has at most 128"]
    );
    assert_eq!(
        with("plan x"),
        ["line 3: plan: no such statement: a line begins with asp, as or link"]
    );
    let many: String = (0..17).map(|i| format!("asp a{i} id {i}\n")).collect();
    assert_eq!(
        problems(&format!("{many}as x mode override")),
        ["line 17: asp a16: this is number 17 of 17; a plan has at most 16"]
    );
    let many: String = (0..17)
        .map(|i| format!("as a{i} mode override\n"))
        .collect();
    assert_eq!(
        problems(&format!("asp a id 1\n{many}")),
        ["line 18: as a16: this is number 17 of 17; a plan has at most 16"]
    );
}

/// A small generator of numbers (xorshift).
struct Numbers(u64);

impl Numbers {
    fn below(&mut self, n: u64) -> u64 {
        self.0 ^= self.0 << 13;
        self.0 ^= self.0 >> 7;
        self.0 ^= self.0 << 17;
        self.0 % n
    }
}

#[test]
fn the_reasons_agree_with_the_loader() {
    let mut numbers = Numbers(0x9e37_79b9_7f4a_7c15);
    let right = compile(TEXT).unwrap();
    let (mut refused, mut accepted) = (0, 0);
    for _ in 0..100_000 {
        let mut file = right.clone();
        for _ in 0..=numbers.below(3) {
            let at = numbers.below(file.len() as u64) as usize;
            file[at] = [0, 1, 2, 3, 16, 17, 128, 255, 7, 100][numbers.below(10) as usize];
        }
        if numbers.below(20) == 0 {
            file.truncate(numbers.below(file.len() as u64) as usize);
        }
        let code = diagnose(&file).map_or(0, |faults| faults[0].code);
        assert_eq!(code, refusal(&file), "{file:?}");
        if code == 0 {
            accepted += 1;
            assert_eq!(compile(&show(&file).unwrap()).unwrap(), file);
        } else {
            refused += 1;
        }
    }
    assert!(
        refused > 50_000 && accepted > 5_000,
        "{refused} refused, {accepted} accepted"
    );
}
