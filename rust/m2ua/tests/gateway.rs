//! The samples of docs/RULES.md (11.1 to 11.5) and what lies around them, through the crate.
use m2ua::{
    parameter, parameters, protocol_data, read, sys, write, Addressee, AsState, Event, Gateway,
    Hold, LinkState, MessageType, Order, Orders, Parameter, Refusal, TrafficMode, Unit,
};

const M: [u8; 28] = [
    1, 0, 4, 1, 0, 0, 0, 28, 0, 11, 0, 8, 0, 0, 0, 1, 0, 8, 0, 12, 0, 0, 0, 100, 0, 0, 0, 115,
];

/// A plan file of ASPs (identifier, mask), modes, links (identifier, kind and owner in one word). Part of a
/// list may succeed.
fn plan(asps: &[(u32, u16)], modes: &[u32], links: &[(u32, u32)]) -> Vec<u8> {
    let words = |&(id, mask): &(u32, u16)| (id, u32::from(mask) << 16);
    plan_of(&asps.iter().map(words).collect::<Vec<_>>(), modes, links)
}

/// The same of ASPs with mask and spare in one word.
fn plan_of(asps: &[(u32, u32)], modes: &[u32], links: &[(u32, u32)]) -> Vec<u8> {
    let at = [
        24,
        24 + 8 * asps.len(),
        24 + 8 * asps.len() + 4 * modes.len(),
    ];
    let mut words: Vec<u32> = Vec::new();
    for (offset, count) in at.iter().zip([asps.len(), modes.len(), links.len()]) {
        words.extend([*offset as u32, count as u32]);
    }
    words.extend(asps.iter().flat_map(|&(id, word)| [id, word]));
    words.extend(modes);
    words.extend(links.iter().flat_map(|&(id, owner)| [id, owner]));
    words.iter().flat_map(|w| w.to_be_bytes()).collect()
}

fn plan_s() -> Gateway {
    let mut links: Vec<(u32, u32)> = (100..116).map(|id| (id, 0)).collect();
    links.push((200, 1));
    Gateway::load(&plan(&[(7, 1), (8, 1), (9, 2)], &[1, 2], &links)).unwrap()
}

fn bare(message: MessageType) -> Vec<u8> {
    write(message, &[]).unwrap()
}

/// The event is accepted with these orders, as four numbers each.
fn takes(g: &mut Gateway, hold: &mut Hold, event: Event, expected: &[(u32, u32, u32, u32)]) {
    let mut orders = Orders::new();
    g.handle(&event, hold, &mut orders).unwrap();
    let to = |o: &Order| match o.to {
        Addressee::Asp(p) => p as u32,
        Addressee::LinkSide => 255,
    };
    let got: Vec<_> = orders
        .iter()
        .map(|o| (to(&o), o.message.word(), o.subject, o.value))
        .collect();
    assert_eq!(got, expected, "{event}");
    assert_eq!(
        (orders.len(), orders.is_empty()),
        (expected.len(), expected.is_empty())
    );
}

#[test]
fn the_samples_of_events() {
    let (mut g, mut hold) = (plan_s(), Hold::new());
    let (up, active, down) = (
        bare(MessageType::Up),
        bare(MessageType::Active),
        bare(MessageType::Down),
    );
    takes(
        &mut g,
        &mut hold,
        Event::Message {
            asp: 0,
            message: &up,
        },
        &[(0, 772, 0, 0), (0, 1, 0, 65538)],
    );
    let mut to_116 = M;
    to_116[27] = 116;
    takes(
        &mut g,
        &mut hold,
        Event::Message {
            asp: 0,
            message: &to_116,
        },
        &[(0, 1027, 0, 0), (0, 0, 116, 2), (0, 1, 0, 65539)],
    );
    let inactive = bare(MessageType::Inactive);
    takes(
        &mut g,
        &mut hold,
        Event::Message {
            asp: 0,
            message: &inactive,
        },
        &[(0, 1028, 0, 0), (0, 1, 0, 65540)],
    );
    takes(
        &mut g,
        &mut hold,
        Event::Message {
            asp: 0,
            message: &M,
        },
        &[(0, 1027, 0, 0), (0, 1, 0, 65539)],
    );
    takes(
        &mut g,
        &mut hold,
        Event::Message {
            asp: 1,
            message: &up,
        },
        &[(1, 772, 0, 0)],
    );
    takes(
        &mut g,
        &mut hold,
        Event::Message {
            asp: 1,
            message: &active,
        },
        &[(1, 1027, 0, 0), (0, 1, 0, 131074)],
    );
    assert!(g.is_active(0, 1) && !g.is_active(0, 0));
    takes(
        &mut g,
        &mut hold,
        Event::Message {
            asp: 1,
            message: &down,
        },
        &[(1, 773, 0, 0), (0, 1, 0, 65540)],
    );
    assert!(g.is_waiting(0));
    takes(
        &mut g,
        &mut hold,
        Event::Recovery { r#as: 0 },
        &[(0, 1, 0, 65538)],
    );
    assert!(!g.is_waiting(0));
}

#[test]
fn a_link_in_words() {
    let mut g = plan_s();
    let (mut hold, mut orders) = (Hold::new(), Orders::new());
    let id = 100u32.to_be_bytes();
    let link = [Parameter::new(sys::TAG_INTERFACE_ID, &id)];
    let establish = write(MessageType::EstablishRequest, &link).unwrap();
    let data = write(
        MessageType::Data,
        &[
            link[0],
            Parameter::new(sys::TAG_DATA_1, b"unit"),
            Parameter::new(sys::TAG_CORRELATION_ID, &[0, 0, 0, 5]),
        ],
    )
    .unwrap();
    let up = bare(MessageType::Up);
    let mut said = Vec::new();
    for event in [
        Event::Message {
            asp: 0,
            message: &up,
        },
        Event::Message {
            asp: 0,
            message: &M,
        },
        Event::Message {
            asp: 0,
            message: &establish,
        },
        Event::LinkUp { link: 0 },
        Event::Message {
            asp: 0,
            message: &data,
        },
        Event::LinkMessage { message: &data },
        Event::LinkDown { link: 0 },
        Event::Lost { asp: 0 },
    ] {
        said.push(format!("{event}"));
        g.handle(&event, &mut hold, &mut orders).unwrap();
        said.extend(orders.iter().map(|o| format!("  {o}")));
        if matches!(event, Event::LinkUp { .. }) {
            assert_eq!(g.link_state(0), Some(LinkState::InService));
            said.push(format!("  [{g}]"));
        }
    }
    let expected = "\
ASP 0: ASP Up
  to ASP 0: ASP Up Ack
  to ASP 0: Notify, AS 0 inactive
ASP 0: ASP Active, override, with identifiers
  to ASP 0: ASP Active Ack
  to ASP 0: Notify, AS 0 active
ASP 0: Establish Request of link 100
  to the link side: Establish Request of link 100
link at place 0: up
  to ASP 0: Establish Confirm of link 100
  [up: ASP 0; AS 0: ASP 0 active; AS 1: none; link 100 in service]
ASP 0: Data of link 100, correlation id 5
  to the link side: Data of link 100
  to ASP 0: Data Acknowledge of link 100, correlation id 5
link side: Data of link 100, correlation id 5
  to ASP 0: Data of link 100
link at place 0: down
  to ASP 0: Release Indication of link 100
ASP 0: association lost";
    assert_eq!(said.join("\n"), expected);
}

/// The orders of another gateway's event, with a timer to start.
fn full_of_orders() -> Orders {
    let (mut g, mut hold, mut orders) = (plan_s(), Hold::new(), Orders::new());
    let (up, active) = (bare(MessageType::Up), bare(MessageType::Active));
    for message in [&up, &active, &bare(MessageType::Inactive)] {
        let event = Event::Message { asp: 0, message };
        g.handle(&event, &mut hold, &mut orders).unwrap();
    }
    assert!(!orders.is_empty() && orders.timers().started().eq([0]));
    orders
}

#[test]
fn refusals_leave_all_as_it_was() {
    let (mut g, mut hold) = (plan_s(), Hold::new());
    for event in [
        Event::Lost { asp: 3 },
        Event::Recovery { r#as: 2 },
        Event::LinkUp { link: 17 },
        Event::LinkDown { link: usize::MAX },
        Event::LinkMessage { message: &[] },
        Event::LinkMessage { message: &M },
    ] {
        let mut orders = full_of_orders();
        let no = g.handle(&event, &mut hold, &mut orders).unwrap_err();
        assert_eq!((no.code(), orders.len()), (102, 0), "{event}");
        assert!(orders.messages().next().is_none() && orders.timers().is_empty());
    }
    assert_eq!(g, plan_s());
    let mut raw = *g.raw();
    assert!(Gateway::from_raw(raw).is_ok());
    raw.up[0] = 2;
    assert_eq!(
        Gateway::from_raw(raw).unwrap_err().to_string(),
        "105 (the state is not sound)"
    );
    raw = *g.raw();
    raw.spare = 1;
    assert_eq!(Gateway::from_raw(raw).unwrap_err().code(), 105);
}

#[test]
fn plans() {
    let g = plan_s();
    assert_eq!((g.asps(), g.ases(), g.links()), (3, 2, 17));
    assert_eq!((g.asp_id(2), g.asp_id(3)), (Some(9), None));
    assert_eq!(
        (g.mode(0), g.mode(1), g.mode(2), g.mode(99)),
        (
            Some(TrafficMode::Override),
            Some(TrafficMode::LoadShare),
            None,
            None
        )
    );
    assert_eq!(
        (
            g.interface_id(16),
            g.owner(16),
            g.interface_id(17),
            g.owner(17)
        ),
        (Some(200), Some(1), None, None)
    );
    assert!(g.is_member(1, 2) && !g.is_member(1, 1) && !g.is_member(16, 0) && !g.is_member(0, 16));
    assert_eq!(Gateway::load(&[]).unwrap_err().code(), 201);
    assert_eq!(
        Gateway::load(&plan(&[(7, 1), (7, 1)], &[1], &[]))
            .unwrap_err()
            .code(),
        202
    );
}

#[test]
fn an_up_with_many_orders() {
    let asps: Vec<(u32, u16)> = (0..16).map(|i| (i, 0xffff)).collect();
    let mut g = Gateway::load(&plan(&asps, &[3; 16], &[])).unwrap();
    let (mut hold, mut orders) = (Hold::new(), Orders::new());
    let (up, active) = (bare(MessageType::Up), bare(MessageType::Active));
    for asp in 0..16 {
        g.handle(
            &Event::Message { asp, message: &up },
            &mut hold,
            &mut orders,
        )
        .unwrap();
    }
    g.handle(
        &Event::Message {
            asp: 0,
            message: &active,
        },
        &mut hold,
        &mut orders,
    )
    .unwrap();
    g.handle(
        &Event::Message {
            asp: 0,
            message: &up,
        },
        &mut hold,
        &mut orders,
    )
    .unwrap();
    assert_eq!(orders.len(), 258);
    assert!(orders.get(257).is_some() && orders.get(258).is_none());
}

#[test]
fn every_type_has_its_number_and_name() {
    for &t in MessageType::ALL {
        assert_eq!(
            MessageType::of(t.class().into(), t.number().into()),
            Some(t)
        );
        assert!(!t.to_string().is_empty());
    }
    assert_eq!(MessageType::ALL.len(), 27);
    assert_eq!(MessageType::of(10, 1), None);
    assert_eq!(MessageType::of(6, 16), None);
}

#[test]
fn what_is_read_is_what_was_written() {
    let message = write(
        MessageType::Up,
        &[
            Parameter::new(sys::TAG_ASP_ID, &[0, 0, 0, 7]),
            Parameter::new(sys::TAG_INFO, b"hello"),
        ],
    )
    .unwrap();
    let reading = read(&message).unwrap();
    assert_eq!(
        (
            reading.message,
            reading.asp_id,
            reading.mode,
            reading.correlation
        ),
        (MessageType::Up, Some(7), None, None)
    );
    assert_eq!(reading.to_string(), "ASP Up, ASP identifier 7");
    let listed: Vec<String> = parameters(&message).map(|p| p.to_string()).collect();
    assert_eq!(
        listed,
        [
            "ASP identifier (0x11) 7",
            "info string (0x4) 68 65 6c 6c 6f"
        ]
    );
    assert_eq!(
        read(&message[..8]).unwrap_err().to_string(),
        "7 (protocol error)"
    );
    assert_eq!(
        m2ua::write_into(MessageType::Up, &[], &mut [0; 7])
            .unwrap_err()
            .code(),
        103
    );
    for junk in [
        &[][..],
        &[1; 9],
        &[0; 12],
        &[1, 0, 3, 1, 0, 0, 0, 8, 0, 4, 0, 3],
    ] {
        assert_eq!(parameters(junk).count(), 0);
    }
}

#[test]
fn states_may_go_to_other_threads() {
    let g = plan_s();
    let up = bare(MessageType::Up);
    let counts: Vec<usize> = std::thread::scope(|s| {
        let (g, up) = (&g, &up);
        let run = move |asp| {
            let (mut hold, mut orders) = (Hold::new(), Orders::new());
            let mut g = g.clone();
            g.handle(&Event::Message { asp, message: up }, &mut hold, &mut orders)
                .unwrap();
            orders.len()
        };
        let threads: Vec<_> = (0..3).map(|asp| s.spawn(move || run(asp))).collect();
        threads.into_iter().map(|t| t.join().unwrap()).collect()
    });
    assert_eq!(counts, [2, 2, 2]);
}

#[test]
fn what_a_host_asks_beside_the_events() {
    assert_eq!(m2ua::abi(), sys::ABI);
    let mut g = plan_s();
    assert_eq!(
        (g.link_place(100), g.link_place(200), g.link_place(116)),
        (Some(0), Some(16), None)
    );
    assert_eq!((g.as_state(0), g.as_state(2)), (Some(AsState::Down), None));
    let (up, active) = (bare(MessageType::Up), bare(MessageType::Active));
    let (mut hold, mut orders) = (Hold::new(), Orders::new());
    for (event, state, started, stopped) in [
        (
            Event::Message {
                asp: 0,
                message: &up,
            },
            AsState::Inactive,
            0,
            0,
        ),
        (
            Event::Message {
                asp: 0,
                message: &active,
            },
            AsState::Active,
            0,
            0,
        ),
        (Event::Lost { asp: 0 }, AsState::Pending, 1, 0),
        (Event::Recovery { r#as: 0 }, AsState::Down, 0, 1),
    ] {
        let before = g.clone();
        g.handle(&event, &mut hold, &mut orders).unwrap();
        let timers = orders.timers();
        assert_eq!(*timers, before.timers(&g));
        assert_eq!(
            (timers.started().count(), timers.stopped().count()),
            (started, stopped),
            "{event}"
        );
        assert!(timers.started().chain(timers.stopped()).all(|a| a == 0));
        assert_eq!(timers.is_empty(), started + stopped == 0);
        assert_eq!(g.as_state(0), Some(state), "{event}");
    }
    let data = write(
        MessageType::Data,
        &[
            Parameter::new(sys::TAG_INTERFACE_ID, &[0, 0, 0, 100]),
            Parameter::new(sys::TAG_DATA_2, b"units"),
        ],
    )
    .unwrap();
    assert_eq!(protocol_data(&data), b"units");
    assert_eq!(parameter(&data, sys::TAG_DATA_2), Some(&b"units"[..]));
    assert_eq!(
        (
            parameter(&data, sys::TAG_DATA_1),
            protocol_data(&up),
            protocol_data(&[])
        ),
        (None, &[][..], &[][..])
    );
    for p in parameters(&data) {
        assert_eq!(parameter(&data, p.tag), Some(p.value));
    }
}

#[test]
fn long_lists_are_written_too() {
    // ten parameters, then one of 2,000 bytes, then too many bytes and too many parameters
    let id = [0, 0, 0, 100];
    let ids = vec![Parameter::new(sys::TAG_INTERFACE_ID, &id); 510];
    let active = write(MessageType::Active, &ids[..10]).unwrap();
    assert_eq!((active.len(), parameters(&active).count()), (88, 10));
    let beat = write(
        MessageType::Beat,
        &[Parameter::new(sys::TAG_HEARTBEAT, &[7; 2000])],
    )
    .unwrap();
    assert_eq!(
        (
            beat.len(),
            parameter(&beat, sys::TAG_HEARTBEAT).map(<[u8]>::len)
        ),
        (2012, Some(2000))
    );
    assert_eq!(
        write(
            MessageType::Beat,
            &[Parameter::new(sys::TAG_HEARTBEAT, &[7; 2036])]
        )
        .unwrap()
        .len(),
        2048
    );
    for bytes in [2037, 2041, 65532, 70000] {
        assert_eq!(
            write(
                MessageType::Beat,
                &[Parameter::new(sys::TAG_HEARTBEAT, &vec![7; bytes])]
            )
            .unwrap_err()
            .code(),
            7
        );
    }
    assert_eq!(write(MessageType::Active, &ids[..255]).unwrap().len(), 2048);
    assert_eq!(
        write(MessageType::Active, &ids[..256]).unwrap_err().code(),
        7
    );
}

/// Data of a link with one parameter of data, and a correlation id where there is one.
fn unit(id: u8, tag: u16, value: &[u8], correlation: Option<u8>) -> Vec<u8> {
    let (id, number) = ([0, 0, 0, id], [0, 0, 0, correlation.unwrap_or(0)]);
    let mut list = vec![Parameter::new(sys::TAG_INTERFACE_ID, &id)];
    if correlation.is_some() {
        list.push(Parameter::new(sys::TAG_CORRELATION_ID, &number));
    }
    list.push(Parameter::new(tag, value));
    write(MessageType::Data, &list).unwrap()
}

/// Plan S with ASP 0 and ASP 1 up, and AS 0 pending since ASP 1 was lost.
fn pending() -> Gateway {
    let (mut g, mut hold) = (plan_s(), Hold::new());
    let (up, active) = (bare(MessageType::Up), bare(MessageType::Active));
    for event in [
        Event::Message {
            asp: 0,
            message: &up,
        },
        Event::Message {
            asp: 1,
            message: &up,
        },
        Event::Message {
            asp: 1,
            message: &active,
        },
        Event::Lost { asp: 1 },
    ] {
        g.handle(&event, &mut hold, &mut Orders::new()).unwrap();
    }
    assert_eq!(g.as_state(0), Some(AsState::Pending));
    g
}

#[test]
fn units_wait_with_a_pending_as_and_go_out_first() {
    let (mut g, mut hold) = (
        pending(),
        Hold::from_bytes(&[0xee; sys::HOLD_BYTES]).unwrap(),
    );
    let (first, second) = (
        unit(100, sys::TAG_DATA_1, b"one", None),
        unit(115, sys::TAG_DATA_2, b"second", Some(0)),
    );
    for message in [&first, &second] {
        takes(&mut g, &mut hold, Event::LinkMessage { message }, &[]);
    }
    let held: Vec<Unit> = g.held(0).collect();
    assert_eq!(
        held,
        [
            Unit {
                tag: 0x300,
                length: 7,
                link: 100,
                correlation: None
            },
            Unit {
                tag: 0x301,
                length: 10,
                link: 115,
                correlation: Some(0)
            },
        ]
    );
    assert_eq!(
        (
            g.held(1).count(),
            g.held(16).count(),
            g.held(usize::MAX).count()
        ),
        (0, 0, 0)
    );
    assert_eq!(g.unit_bytes(&hold, 0, 0), Some(&b"one"[..]));
    assert_eq!(g.unit_bytes(&hold, 0, 1), Some(&b"second"[..]));
    assert_eq!(
        (g.unit_bytes(&hold, 0, 2), g.unit_bytes(&hold, 1, 0)),
        (None, None)
    );
    // places 0 and 1, and nothing else
    let mut expected = vec![0xee; sys::HOLD_BYTES];
    expected[..3].copy_from_slice(b"one");
    expected[273..279].copy_from_slice(b"second");
    assert_eq!(hold.bytes()[..], expected);
    assert_eq!(
        g.to_string(),
        "up: ASP 0; AS 0: none, waits, 2 units held; AS 1: none"
    );
    let active = bare(MessageType::Active);
    let back = Event::Message {
        asp: 0,
        message: &active,
    };
    let sent: Vec<_> = (0..4).map(|n| g.order(&back, &hold, n).unwrap()).collect();
    takes(
        &mut g,
        &mut hold,
        back,
        &[
            (0, 1027, 0, 0),
            (0, 1537, 100, 0),
            (0, 1537, 115, 0),
            (0, 1, 0, 65539),
        ],
    );
    assert_eq!(sent[1], first);
    // the second came with its correlation id before the data, and goes out with it behind
    let tags: Vec<u16> = parameters(&sent[2]).map(|p| p.tag).collect();
    assert_eq!(
        (tags, protocol_data(&sent[2])),
        (vec![0x1, 0x301, 0x13], &b"second"[..])
    );
    assert_eq!((g.held(0).count(), hold.bytes()[..] == expected), (0, true));
    // active again, nothing is held
    takes(
        &mut g,
        &mut hold,
        Event::LinkMessage { message: &first },
        &[(0, 1537, 100, 0)],
    );
}

#[test]
fn a_ninth_is_turned_away_and_recovery_discards() {
    let (mut g, mut hold) = (pending(), Hold::new());
    for k in 0..10 {
        let message = unit(100 + k, sys::TAG_DATA_1, &[k], None);
        takes(
            &mut g,
            &mut hold,
            Event::LinkMessage { message: &message },
            &[],
        );
    }
    let links: Vec<u32> = g.held(0).map(|u| u.link).collect();
    assert_eq!(links, [100, 101, 102, 103, 104, 105, 106, 107]);
    assert_eq!(g.unit_bytes(&hold, 0, 7), Some(&[7][..]));
    assert_eq!(g.unit_bytes(&hold, 0, 8), None);
    let before = hold.clone();
    takes(
        &mut g,
        &mut hold,
        Event::Recovery { r#as: 0 },
        &[(0, 1, 0, 65538)],
    );
    assert_eq!((g.held(0).count(), hold == before), (0, true));
    // a state that holds units without waiting is not sound
    let mut raw = *g.raw();
    raw.held.count[0] = 1;
    assert_eq!(Gateway::from_raw(raw).unwrap_err().code(), 105);
}

#[test]
fn a_hold_of_another_length_is_refused() {
    let g = pending();
    let message = unit(100, sys::TAG_DATA_1, b"unit", None);
    let refusal = Refusal::of(106).unwrap();
    assert_eq!(
        refusal.to_string(),
        "106 (the lent hold has another length)"
    );
    let (mut words, mut out) = ([7; sys::LIST_WORDS], [7; 64]);
    for bytes in [0, 1, sys::HOLD_BYTES - 1, sys::HOLD_BYTES + 1] {
        let mut hold = vec![0x5c; bytes];
        assert_eq!(Hold::from_bytes(&hold), None);
        let mut state = *g.raw();
        let r = sys::event(
            &mut state,
            sys::LINK_MESSAGE,
            0,
            &message,
            &mut hold,
            &mut words,
        );
        assert_eq!((r.refusal, r.count, state == *g.raw()), (106, 0, true));
        // before a list that is short, and after an ASP that there is not
        let r = sys::event(&mut state, sys::LOST, 0, &[], &mut hold, &mut words[..0]);
        assert_eq!(r.refusal, 106);
        let r = sys::event(&mut state, sys::LOST, 3, &[], &mut hold, &mut words);
        assert_eq!(r.refusal, 102);
        let w = sys::order(g.raw(), sys::LOST, 0, &[], &hold, 9, &mut out);
        assert_eq!((w.code, w.length), (106, 0));
        let b = sys::orders(g.raw(), sys::LOST, 0, &[], &hold, 9, &mut [], &mut out);
        assert_eq!((b.code, b.count, b.length), (106, 0, 0));
        assert!(state == *g.raw() && hold.iter().all(|byte| *byte == 0x5c));
    }
    assert_eq!((words, out), ([7; sys::LIST_WORDS], [7; 64]));
}

/// Plan S, whose link 200 is a high-speed one.
fn plan_with_high_speed() -> Gateway {
    let mut links: Vec<(u32, u32)> = (100..116).map(|id| (id, 0)).collect();
    links.push((200, 1 << 16 | 1));
    Gateway::load(&plan(&[(7, 1), (8, 1), (9, 2)], &[1, 2], &links)).unwrap()
}

/// A Retrieval Request for the messages of a link after a sequence number.
fn request(id: u32, number: u32) -> Result<Vec<u8>, Refusal> {
    write(
        MessageType::RetrievalRequest,
        &[
            Parameter::new(sys::TAG_INTERFACE_ID, &id.to_be_bytes()),
            Parameter::new(
                sys::TAG_RETRIEVAL_ACTION,
                &sys::RETRIEVE_MESSAGES.to_be_bytes(),
            ),
            Parameter::new(sys::TAG_SEQUENCE, &number.to_be_bytes()),
        ],
    )
}

/// The Retrieval Confirm of a link with its BSN.
fn confirm(id: u32, number: u32) -> Result<Vec<u8>, Refusal> {
    write(
        MessageType::RetrievalConfirm,
        &[
            Parameter::new(sys::TAG_INTERFACE_ID, &id.to_be_bytes()),
            Parameter::new(sys::TAG_RETRIEVAL_ACTION, &sys::RETRIEVE_BSN.to_be_bytes()),
            Parameter::new(sys::TAG_RETRIEVAL_RESULT, &[0; 4]),
            Parameter::new(sys::TAG_SEQUENCE, &number.to_be_bytes()),
        ],
    )
}

#[test]
fn a_sequence_number_is_read_where_it_is_given() {
    for number in [0, 1, 127, 128, 4095] {
        for message in [request(200, number).unwrap(), confirm(200, number).unwrap()] {
            let reading = read(&message).unwrap();
            assert_eq!((reading.sequence, reading.id), (Some(number), 200));
            assert_eq!(
                reading.to_string(),
                format!("{} of link 200, sequence number {number}", reading.message)
            );
        }
    }
    for number in [4096, 65535, 65536, u32::MAX] {
        assert_eq!(request(200, number).unwrap_err().code(), 17);
        assert_eq!(confirm(200, number).unwrap_err().code(), 17);
    }
    // written by hand, it does not read either
    let mut beyond = request(200, 4095).unwrap();
    let at = beyond.len() - 2;
    beyond[at..].copy_from_slice(&4096u16.to_be_bytes());
    assert_eq!(
        read(&beyond).unwrap_err().to_string(),
        "17 (invalid parameter value)"
    );
    // for the BSN none is asked
    let bsn = write(
        MessageType::RetrievalRequest,
        &[
            Parameter::new(sys::TAG_INTERFACE_ID, &[0, 0, 0, 200]),
            Parameter::new(sys::TAG_RETRIEVAL_ACTION, &[0, 0, 0, 1]),
        ],
    )
    .unwrap();
    let reading = read(&bsn).unwrap();
    assert_eq!((reading.sequence, reading.retrieval), (None, 1));
    assert_eq!(reading.to_string(), "Data Retrieval Request of link 200");
    assert_eq!(read(&bare(MessageType::Up)).unwrap().sequence, None);
    assert_eq!((sys::MAX_SEQUENCE, sys::MAX_SEQUENCE_PLAIN), (4095, 127));
}

#[test]
fn sequence_numbers_of_plain_and_high_speed_links() {
    let (mut g, mut hold) = (plan_with_high_speed(), Hold::new());
    let high: Vec<usize> = (0..200).filter(|&l| g.is_high_speed(l)).collect();
    assert_eq!((high, g.is_high_speed(usize::MAX)), (vec![16], false));
    let (up, active) = (bare(MessageType::Up), bare(MessageType::Active));
    for asp in [0, 2] {
        for message in [&up, &active] {
            let event = Event::Message { asp, message };
            g.handle(&event, &mut hold, &mut Orders::new()).unwrap();
        }
    }
    let before = g.clone();
    // of an ASP: the link, the number, the order
    for (asp, id, number, order) in [
        (2, 200, 0, (255, 1546, 200, 2)),
        (2, 200, 127, (255, 1546, 200, 2)),
        (2, 200, 128, (255, 1546, 200, 2)),
        (2, 200, 4095, (255, 1546, 200, 2)),
        (0, 100, 127, (255, 1546, 100, 2)),
        (0, 100, 128, (0, 0, 0, 17)),
        (0, 115, 4095, (0, 0, 0, 17)),
        // the other questions come first: down, no member, no such link
        (1, 100, 128, (1, 0, 0, 6)),
        (2, 100, 128, (2, 0, 100, 2)),
        (0, 99, 128, (0, 0, 99, 2)),
    ] {
        let message = &request(id, number).unwrap();
        takes(&mut g, &mut hold, Event::Message { asp, message }, &[order]);
    }
    // up, and not active
    let up_only = Event::Message {
        asp: 1,
        message: &up,
    };
    let mut one_up = g.clone();
    (one_up.handle(&up_only, &mut hold, &mut Orders::new())).unwrap();
    takes(
        &mut one_up,
        &mut hold,
        Event::Message {
            asp: 1,
            message: &request(100, 128).unwrap(),
        },
        &[(1, 0, 0, 6)],
    );
    // Error 17 as bytes says the code, and nothing else
    let wrong = request(100, 128).unwrap();
    let event = Event::Message {
        asp: 0,
        message: &wrong,
    };
    assert_eq!(
        g.order(&event, &hold, 0).unwrap(),
        [1, 0, 0, 0, 0, 0, 0, 16, 0, 12, 0, 8, 0, 0, 0, 17]
    );
    // of the link side: passed on as it came, or refused
    for (id, number, asp) in [(200, 128, 2), (200, 4095, 2), (100, 127, 0), (115, 0, 0)] {
        let message = &confirm(id, number).unwrap();
        let event = Event::LinkMessage { message };
        assert_eq!(&g.order(&event, &hold, 0).unwrap(), message);
        takes(&mut g, &mut hold, event, &[(asp, 1547, id, 0)]);
    }
    for (id, number) in [(100, 128), (115, 4095)] {
        let message = &confirm(id, number).unwrap();
        let event = Event::LinkMessage { message };
        let no = (g.handle(&event, &mut hold, &mut Orders::new())).unwrap_err();
        assert_eq!(no.code(), 102);
        assert_eq!(g.order(&event, &hold, 0).unwrap_err().code(), 102);
    }
    assert_eq!(g, before);
}

#[test]
fn kinds_of_links_in_plans_and_states() {
    let loaded =
        |word| Gateway::load(&plan(&[(7, 3)], &[1, 1], &[(100, word)])).map_err(Refusal::code);
    for (word, high, owner) in [
        (0, false, 0),
        (1, false, 1),
        (1 << 16, true, 0),
        (1 << 16 | 1, true, 1),
    ] {
        let g = loaded(word).unwrap();
        assert_eq!((g.is_high_speed(0), g.owner(0)), (high, Some(owner)));
    }
    // a kind above 1, alone and beside an owner that there is not; such an owner beside each kind
    for word in [
        2 << 16,
        2 << 16 | 1,
        255 << 16,
        256 << 16,
        257 << 16,
        0xffff << 16,
        2 << 16 | 2,
        2,
        256,
        1 << 16 | 2,
        1 << 16 | 256,
        u32::MAX,
    ] {
        assert_eq!(loaded(word).unwrap_err(), 202, "{word:#x}");
    }
    // in a state: 0 or 1, and 1 for a link of the plan alone
    let mut raw = *plan_s().raw();
    raw.highspeed[0] = 1;
    raw.highspeed[16] = 1;
    assert!(Gateway::from_raw(raw).unwrap().is_high_speed(16));
    for (place, kind) in [(0, 2), (16, 255), (17, 1), (127, 1)] {
        let mut raw = *plan_s().raw();
        raw.highspeed[place] = kind;
        assert_eq!(Gateway::from_raw(raw).unwrap_err().code(), 105);
    }
}

/// ASPs 0 and 1 in AS 0 (override, links 100 to 102) and AS 1 (load-share, links 200 and 201), ASP 2 in AS 2
/// (broadcast, link 103); the lists of ASP 1 are taken whole. All are up.
fn plan_with_whole_lists() -> (Gateway, Hold) {
    let asps = [(7, 3 << 16), (8, 3 << 16 | 1), (9, 4 << 16)];
    let links = [(100, 0), (101, 0), (102, 0), (103, 2), (200, 1), (201, 1)];
    let mut g = Gateway::load(&plan_of(&asps, &[1, 2, 3], &links)).unwrap();
    let (mut hold, up) = (Hold::new(), bare(MessageType::Up));
    for asp in 0..3 {
        let message = &up;
        let event = Event::Message { asp, message };
        g.handle(&event, &mut hold, &mut Orders::new()).unwrap();
    }
    (g, hold)
}

/// A message that names identifiers and ranges, with a mode unless it is 0.
fn naming(message: MessageType, mode: u32, ids: &[u32], ranges: &[(u32, u32)]) -> Vec<u8> {
    let bytes = |words: &[u32]| -> Vec<u8> { words.iter().flat_map(|w| w.to_be_bytes()).collect() };
    let ends: Vec<u32> = ranges.iter().flat_map(|&(a, b)| [a, b]).collect();
    let values = [bytes(&[mode]), bytes(ids), bytes(&ends)];
    let tags = [
        sys::TAG_TRAFFIC_MODE,
        sys::TAG_INTERFACE_ID,
        sys::TAG_INTERFACE_ID_RANGE,
    ];
    let given = [mode != 0, !ids.is_empty(), !ranges.is_empty()];
    let all = (0..3).filter(|&i| given[i]);
    let all: Vec<Parameter> = all.map(|i| Parameter::new(tags[i], &values[i])).collect();
    write(message, &all).unwrap()
}

/// Lists of which a part is good for ASPs 0 and 1: identifiers, ranges, mode; the good ones; the first bad
/// one.
type Part = (
    &'static [u32],
    &'static [(u32, u32)],
    u32,
    &'static [u32],
    u32,
);

const ALL: &[u32] = &[100, 101, 102, 200, 201];
const PARTS: [Part; 5] = [
    (&[102, 99, 100], &[], 0, &[100, 102], 99),
    (&[103, 100, 100], &[], 1, &[100], 103),
    (&[], &[(101, 104)], 1, &[101, 102], 103),
    (&[102], &[(100, 100), (101, u32::MAX)], 0, ALL, 103),
    (&[201], &[(0, u32::MAX)], 0, ALL, 0),
];

/// An Active, or an Inactive of an ASP that is active everywhere, of such a list: the Ack and the Error as
/// bytes, and the orders. Gives the state after it.
fn in_part(g: &Gateway, hold: &mut Hold, kind: MessageType, part: &Part) -> Gateway {
    let (ids, ranges, mode, good, bad) = *part;
    let (ack, mode, told) = match kind {
        MessageType::Active => (MessageType::ActiveAck, mode, 65539),
        _ => (MessageType::InactiveAck, 0, 65540),
    };
    let message = &naming(kind, mode, ids, ranges);
    let event = Event::Message { asp: 0, message };
    // the good ones ascending, each once, behind the mode
    let listed = naming(ack, mode, good, &[]);
    assert_eq!(g.order(&event, hold, 0).unwrap(), listed);
    let error = [1, 0, 0, 0, 0, 0, 0, 24, 0, 12, 0, 8, 0, 0, 0, 2, 0, 1, 0, 8];
    let error = [&error[..], &bad.to_be_bytes()].concat();
    assert_eq!(g.order(&event, hold, 1).unwrap(), error);
    let mut orders = vec![(0, ack.word(), 0, 0), (0, 0, bad, 2)];
    for a in 0..if good == ALL { 2 } else { 1 } {
        orders.extend([(0, 1, a, told), (1, 1, a, told)]);
    }
    let mut next = g.clone();
    takes(&mut next, hold, event, &orders);
    next
}

#[test]
fn part_of_a_list_may_succeed() {
    let (before, mut hold) = plan_with_whole_lists();
    for part in &PARTS {
        let g = in_part(&before, &mut hold, MessageType::Active, part);
        let both = part.3 == ALL;
        assert_eq!((g.is_active(0, 0), g.is_active(1, 0)), (true, both));
        let g = in_part(&g, &mut hold, MessageType::Inactive, part);
        assert!(!g.is_active(0, 0) && !g.is_active(1, 0));
    }
}

#[test]
fn lists_taken_whole() {
    let (before, mut hold) = plan_with_whole_lists();
    let whole: Vec<usize> = (0..20).filter(|&p| before.takes_whole_lists(p)).collect();
    assert_eq!(whole, [1]);
    assert!(!before.takes_whole_lists(usize::MAX));
    for (ids, ranges, mode, _, bad) in PARTS {
        for (kind, mode) in [(MessageType::Active, mode), (MessageType::Inactive, 0)] {
            let message = &naming(kind, mode, ids, ranges);
            let mut g = before.clone();
            let event = Event::Message { asp: 1, message };
            takes(&mut g, &mut hold, event, &[(1, 0, bad, 2)]);
            assert_eq!(g, before);
        }
    }
}

#[test]
fn modes_of_lists_that_succeed_in_part() {
    use MessageType::Active;
    let (before, mut hold) = plan_with_whole_lists();
    for (asp, mode, ids, order) in [
        // another mode than a good one's AS: Error 5 alone, whatever else is wrong
        (0, 2, &[100, 103][..], (0, 0, 0, 5)),
        (0, 1, &[99, 100, 200], (0, 0, 0, 5)),
        (0, 3, &[103, 100], (0, 0, 0, 5)),
        // none good: Error 2 alone, whatever the mode
        (0, 1, &[103, 99], (0, 0, 103, 2)),
        (0, 2, &[99], (0, 0, 99, 2)),
        // lists taken whole: what is bad comes first
        (1, 2, &[100, 103], (1, 0, 103, 2)),
        (1, 2, &[100], (1, 0, 0, 5)),
    ] {
        let message = &naming(Active, mode, ids, &[]);
        let mut g = before.clone();
        takes(&mut g, &mut hold, Event::Message { asp, message }, &[order]);
        assert_eq!(g, before);
    }
}

#[test]
fn whole_lists_in_plans_and_states() {
    let loaded =
        |word| Gateway::load(&plan_of(&[(7, word)], &[1], &[(100, 0)])).map_err(Refusal::code);
    for (word, whole) in [(0, false), (1, true), (1 << 16, false), (1 << 16 | 1, true)] {
        let g = loaded(word).unwrap();
        assert_eq!(
            (g.takes_whole_lists(0), g.is_member(0, 0)),
            (whole, word >> 16 == 1)
        );
    }
    for spare in [2, 3, 255, 256, 257, 0x8000, 0x8001, 0xffff] {
        assert_eq!(loaded(spare).unwrap_err(), 202, "{spare:#x}");
        assert_eq!(loaded(1 << 16 | spare).unwrap_err(), 202, "{spare:#x}");
    }
    // in a state: 0 or 1, and 1 for an ASP of the plan alone
    let mut raw = *plan_s().raw();
    raw.wholelists[2] = 1;
    assert!(Gateway::from_raw(raw).unwrap().takes_whole_lists(2));
    for (asp, mark) in [(0, 2), (2, 255), (3, 1), (15, 1)] {
        let mut raw = *plan_s().raw();
        raw.wholelists[asp] = mark;
        assert_eq!(Gateway::from_raw(raw).unwrap_err().code(), 105);
    }
}

#[test]
fn a_room_that_is_short_is_refused_and_nothing_changes() {
    let g = pending();
    let message = unit(100, sys::TAG_DATA_1, b"unit", None);
    let up = bare(MessageType::Up);
    for (kind, index, message, last) in [
        (sys::LINK_MESSAGE, 0, &message[..], 103),
        (sys::MESSAGE, 0, &up, 103),
        // what else is wrong comes first
        (sys::MESSAGE, 3, &up, 102),
    ] {
        for bytes in [0, sys::MAX_MESSAGE, sys::ROOM_BYTES - 1] {
            let (mut state, mut hold) = (*g.raw(), vec![0x5c; sys::HOLD_BYTES]);
            let (mut words, mut lens) = ([7; sys::LIST_WORDS], [7; sys::MAX_ORDERS]);
            let mut out = vec![7; bytes];
            let h = sys::handle(
                &mut state, kind, index, message, &mut hold, &mut words, &mut lens, &mut out,
            );
            assert_eq!((h.refusal, h.count, h.length), (last, 0, 0));
            assert!(state == *g.raw() && hold.iter().all(|byte| *byte == 0x5c));
            assert_eq!((words, lens), ([7; sys::LIST_WORDS], [7; sys::MAX_ORDERS]));
            assert!(out.iter().all(|byte| *byte == 7));
        }
    }
}
