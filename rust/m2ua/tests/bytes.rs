//! Orders as bytes: one by one and many at a time, the same; and each reads as the order says.
use m2ua::{read, sys, write, Addressee, Event, Gateway, Hold, MessageType, Orders, Parameter};

/// 16 ASPs in 16 ASes of broadcast, with 8 links each.
fn full() -> Gateway {
    let mut words: Vec<u32> = vec![24, 16, 152, 16, 216, 128];
    words.extend((0..16).flat_map(|id| [id, 0xffff_0000]));
    words.extend([3; 16]);
    words.extend((0..128).flat_map(|id| [id, id / 8]));
    let file: Vec<u8> = words.iter().flat_map(|w| w.to_be_bytes()).collect();
    Gateway::load(&file).unwrap()
}

/// Every ASP of the full plan comes up.
fn all_up(mut g: Gateway, up: &[u8], hold: &mut Hold, orders: &mut Orders) -> Gateway {
    for asp in 0..16 {
        g = sent(&g, &Event::Message { asp, message: up }, hold, orders);
    }
    g
}

/// The event is done, its messages are those of its orders one by one and all at once, and the next state is
/// handed back.
fn sent(g: &Gateway, event: &Event<'_>, hold: &mut Hold, orders: &mut Orders) -> Gateway {
    let (mut next, kept) = (g.clone(), hold.clone());
    next.handle(event, hold, orders).unwrap();
    assert_eq!(orders.messages().count(), orders.len(), "{event}");
    for (place, (order, message)) in orders.messages().enumerate() {
        let one = g.order(event, &kept, place);
        match order.to {
            Addressee::LinkSide => {
                assert_eq!((one.unwrap_err().code(), message.len()), (104, 0))
            }
            Addressee::Asp(_) => {
                assert_eq!(one.as_deref(), Ok(message));
                assert_eq!(read(message).unwrap().message, order.message);
            }
        }
    }
    assert_eq!(g.order(event, &kept, orders.len()).unwrap_err().code(), 104);
    if !orders.is_empty() {
        let all: Vec<u8> = orders.messages().flat_map(|(_, m)| m).copied().collect();
        let (mut lens, mut out) = ([0; sys::MAX_ORDERS], vec![0; 65536]);
        let batch = g.orders_into(event, &kept, 0, &mut lens, &mut out);
        assert_eq!(batch, Ok((orders.len(), all.len())));
        assert_eq!(out[..all.len()], all);
    }
    next
}

#[test]
fn every_kind_of_event() {
    let (mut hold, mut orders) = (Hold::new(), Orders::new());
    let mut g = full();
    let plain = |message| write(message, &[]).unwrap();
    let id = 9u32.to_be_bytes();
    let link = Parameter::new(sys::TAG_INTERFACE_ID, &id);
    let (up, down, active) = (
        plain(MessageType::Up),
        plain(MessageType::Down),
        plain(MessageType::Active),
    );
    let beat = write(
        MessageType::Beat,
        &[Parameter::new(sys::TAG_HEARTBEAT, &[7; 1000])],
    )
    .unwrap();
    let establish = write(MessageType::EstablishRequest, &[link]).unwrap();
    let data = write(
        MessageType::Data,
        &[
            link,
            Parameter::new(sys::TAG_DATA_1, &[1, 2, 3, 4, 5]),
            Parameter::new(sys::TAG_CORRELATION_ID, &[0, 0, 0, 3]),
        ],
    )
    .unwrap();
    let unknown = write(
        MessageType::Active,
        &[Parameter::new(sys::TAG_INTERFACE_ID, &[0, 0, 1, 0])],
    )
    .unwrap();
    g = all_up(g, &up, &mut hold, &mut orders);
    for message in [&active, &beat, &establish, &unknown] {
        g = sent(
            &g,
            &Event::Message { asp: 1, message },
            &mut hold,
            &mut orders,
        );
    }
    g = sent(&g, &Event::LinkUp { link: 9 }, &mut hold, &mut orders);
    g = sent(
        &g,
        &Event::Message {
            asp: 1,
            message: &data,
        },
        &mut hold,
        &mut orders,
    );
    assert_eq!(orders.len(), 2);
    g = sent(
        &g,
        &Event::LinkMessage { message: &data },
        &mut hold,
        &mut orders,
    );
    g = sent(&g, &Event::LinkDown { link: 9 }, &mut hold, &mut orders);
    g = sent(
        &g,
        &Event::Message {
            asp: 1,
            message: &up,
        },
        &mut hold,
        &mut orders,
    );
    assert_eq!(orders.len(), 258);
    g = sent(&g, &Event::Recovery { r#as: 3 }, &mut hold, &mut orders);
    g = sent(&g, &Event::Lost { asp: 2 }, &mut hold, &mut orders);
    sent(
        &g,
        &Event::Message {
            asp: 1,
            message: &down,
        },
        &mut hold,
        &mut orders,
    );
    sent(
        &g,
        &Event::Message {
            asp: 1,
            message: &[1, 2, 3],
        },
        &mut hold,
        &mut orders,
    );
}

#[test]
fn a_notify_names_the_links() {
    let (mut hold, mut orders) = (Hold::new(), Orders::new());
    let mut g = full();
    let up = write(MessageType::Up, &[]).unwrap();
    let event = Event::Message {
        asp: 0,
        message: &up,
    };
    g.handle(&event, &mut hold, &mut orders).unwrap();
    let (_, notify) = orders.messages().nth(2).unwrap();
    let listed: Vec<String> = m2ua::parameters(notify).map(|p| p.to_string()).collect();
    assert_eq!(listed[0], "status (0xd) 65538");
    assert_eq!(
        m2ua::parameters(notify).nth(1).unwrap().value[..8],
        [0, 0, 0, 8, 0, 0, 0, 9]
    );
}

#[test]
fn batches() {
    let (mut hold, mut orders) = (Hold::new(), Orders::new());
    let mut g = full();
    let (up, active) = (
        write(MessageType::Up, &[]).unwrap(),
        write(MessageType::Active, &[]).unwrap(),
    );
    for asp in 0..16 {
        g.handle(
            &Event::Message { asp, message: &up },
            &mut hold,
            &mut orders,
        )
        .unwrap();
    }
    g.handle(
        &Event::Message {
            asp: 0,
            message: &active,
        },
        &mut hold,
        &mut orders,
    )
    .unwrap();
    let event = Event::Message {
        asp: 0,
        message: &up,
    };
    let one_by_one: Vec<u8> = (0..258)
        .flat_map(|n| g.order(&event, &hold, n).unwrap())
        .collect();
    assert_eq!(one_by_one.len(), 13336);
    let (mut lens, mut out) = ([0; sys::MAX_ORDERS], [0; 13337]);
    assert_eq!(
        g.orders_into(&event, &hold, 0, &mut lens, &mut out),
        Ok((258, 13336))
    );
    assert_eq!(out[..13336], one_by_one);
    // an Up Ack of 8 bytes, an Error of 16, Notifies of 52
    assert_eq!(
        g.orders_into(
            &event,
            &hold,
            0,
            &mut lens,
            &mut out[..8 + 16 + 2 * 52 + 51]
        ),
        Ok((4, 128))
    );
    assert_eq!(
        g.orders_into(&event, &hold, 0, &mut lens[..3], &mut out),
        Ok((3, 76))
    );
    assert_eq!(
        g.orders_into(&event, &hold, 0, &mut [], &mut out)
            .unwrap_err()
            .code(),
        103
    );
    assert_eq!(
        g.orders_into(&event, &hold, 2, &mut lens, &mut out[..51])
            .unwrap_err()
            .code(),
        103
    );
    assert_eq!(
        g.orders_into(&event, &hold, 258, &mut lens, &mut out)
            .unwrap_err()
            .code(),
        104
    );
}

#[test]
fn refusals() {
    let (mut g, mut hold, mut orders) = (full(), Hold::new(), Orders::new());
    let up = write(MessageType::Up, &[]).unwrap();
    let beyond = Event::Lost { asp: 16 };
    let no = g.handle(&beyond, &mut hold, &mut orders).unwrap_err();
    assert_eq!((no.code(), orders.len()), (102, 0));
    assert_eq!(g.order(&beyond, &hold, 0).unwrap_err().code(), 102);
    let event = Event::Message {
        asp: 0,
        message: &up,
    };
    let mut out = [0xaa; 7];
    assert_eq!(
        g.order_into(&event, &hold, 0, &mut out).unwrap_err().code(),
        103
    );
    assert_eq!(out, [0xaa; 7]);
    (g.handle(&Event::Lost { asp: 0 }, &mut hold, &mut orders)).unwrap();
    assert_eq!(orders.messages().count(), 0);
}

/// A unit of a link with one byte of its own, the longest that there is, with a correlation id.
fn longest(id: u8) -> Vec<u8> {
    write(
        MessageType::Data,
        &[
            Parameter::new(sys::TAG_INTERFACE_ID, &[0, 0, 0, id]),
            Parameter::new(sys::TAG_CORRELATION_ID, &[1, 0, 0, id]),
            Parameter::new(sys::TAG_DATA_2, &[id; sys::MAX_DATA]),
        ],
    )
    .unwrap()
}

#[test]
fn the_most_orders_and_the_most_bytes() {
    let (mut hold, mut orders) = (Hold::new(), Orders::new());
    let plain = |message| write(message, &[]).unwrap();
    let (up, active, inactive) = (
        plain(MessageType::Up),
        plain(MessageType::Active),
        plain(MessageType::Inactive),
    );
    let mut g = full();
    g = all_up(g, &up, &mut hold, &mut orders);
    for message in [&active, &inactive] {
        let event = Event::Message { asp: 0, message };
        g = sent(&g, &event, &mut hold, &mut orders);
    }
    for id in 0..128 {
        let message = longest(id);
        let event = Event::LinkMessage { message: &message };
        g = sent(&g, &event, &mut hold, &mut orders);
        assert!(orders.is_empty());
    }
    // an Active of 2,048 bytes, which its Ack repeats: all links, in parameters of one identifier
    let ids: Vec<[u8; 4]> = (0..255).map(|i| [0, 0, 0, i % 128]).collect();
    let named: Vec<_> = ids
        .iter()
        .map(|id| Parameter::new(sys::TAG_INTERFACE_ID, id))
        .collect();
    let message = write(MessageType::Active, &named).unwrap();
    let event = Event::Message {
        asp: 1,
        message: &message,
    };
    let (mut kept, next) = (hold.clone(), sent(&g, &event, &mut hold, &mut orders));
    // the Ack, then in each AS its 8 units and 16 Notifies
    assert_eq!(orders.len(), 385);
    let messages: Vec<_> = orders.messages().map(|(_, m)| m.to_vec()).collect();
    let bytes: usize = messages.iter().map(Vec::len).sum();
    assert_eq!(bytes, 2048 + 128 * 304 + 256 * 52);
    for (place, (order, message)) in orders.iter().zip(&messages).enumerate().skip(1) {
        let (server, within) = ((place - 1) / 24, (place - 1) % 24);
        let is_unit = order.message == MessageType::Data;
        assert_eq!(is_unit, within < 8, "{place}: {order}");
        if is_unit {
            let id = (server * 8 + within) as u8;
            assert_eq!(m2ua::protocol_data(message), [id; sys::MAX_DATA]);
            let tags: Vec<_> = m2ua::parameters(message).map(|p| p.tag).collect();
            assert_eq!(tags, [0x1, 0x301, 0x13]);
            assert_eq!(
                read(message).unwrap().correlation,
                Some(1 << 24 | u32::from(id))
            );
        }
    }
    assert!((0..16).all(|a| g.held(a).count() == 8 && next.held(a).count() == 0));
    one_more_by_a_bad_one(&g, &mut kept, &messages);
}

/// The same state and an Active of all 128 links and one that there is not: beside the Ack, which lists the
/// good ones, an Error, and that is the most that there is.
fn one_more_by_a_bad_one(g: &Gateway, hold: &mut Hold, others: &[Vec<u8>]) {
    let range = [0, 0, 0, 0, 0, 0, 0, 128];
    let range = [Parameter::new(sys::TAG_INTERFACE_ID_RANGE, &range)];
    let message = write(MessageType::Active, &range).unwrap();
    let event = Event::Message {
        asp: 1,
        message: &message,
    };
    let mut orders = Orders::new();
    sent(g, &event, hold, &mut orders);
    assert_eq!(orders.len(), sys::MAX_ORDERS);
    let all: Vec<u8> = (0..128).flat_map(u32::to_be_bytes).collect();
    let ids = |value| Parameter::new(sys::TAG_INTERFACE_ID, value);
    let ack = write(MessageType::ActiveAck, &[ids(&all)]).unwrap();
    let code = Parameter::new(sys::TAG_ERROR_CODE, &[0, 0, 0, 2]);
    let error = write(MessageType::Error, &[code, ids(&[0, 0, 0, 128])]).unwrap();
    let messages: Vec<_> = orders.messages().map(|(_, m)| m.to_vec()).collect();
    assert_eq!(messages[..2], [ack, error]);
    assert_eq!(messages[2..], others[1..]);
}
