//! The link side: orders as messages, messages as events, and the simulated one.
use m2ua::{sys, write, Addressee, Event, Gateway, Hold, MessageType, Orders, Parameter};
use m2ua_gateway::engine::Engine;
use m2ua_gateway::links;
use m2ua_trace::script::Happening;

const PLAN: &str =
    "asp a id 1\nas x mode override members a\nlink 100 as x\nlink 200 as x high-speed\n";

fn id(number: u32) -> [u8; 4] {
    number.to_be_bytes()
}

/// A state in which the ASP is active and link 100 in service.
fn served() -> Engine {
    let mut engine = Engine::new(Gateway::load(&m2ua_plan::compile(PLAN).unwrap()).unwrap());
    for message in [MessageType::Up, MessageType::Active] {
        let bytes = write(message, &[]).unwrap();
        engine
            .run(&Event::Message {
                asp: 0,
                message: &bytes,
            })
            .unwrap();
    }
    let establish = write(
        MessageType::EstablishRequest,
        &[Parameter::new(sys::TAG_INTERFACE_ID, &id(100))],
    )
    .unwrap();
    engine
        .run(&Event::Message {
            asp: 0,
            message: &establish,
        })
        .unwrap();
    engine.run(&Event::LinkUp { link: 0 }).unwrap();
    engine
}

/// The message to the link side that a message of the ASP leads to.
fn ordered(engine: &mut Engine, message: MessageType, parameters: &[(u16, &[u8])]) -> Vec<u8> {
    let list: Vec<Parameter<'_>> = parameters
        .iter()
        .map(|(tag, value)| Parameter::new(*tag, value))
        .collect();
    let bytes = write(message, &list).unwrap();
    let event = Event::Message {
        asp: 0,
        message: &bytes,
    };
    engine.run(&event).unwrap();
    let (order, _) = engine
        .orders()
        .find(|(order, _)| order.to == Addressee::LinkSide)
        .unwrap();
    links::message_of(&order, &event).unwrap()
}

#[test]
fn orders_as_messages() {
    let mut engine = served();
    let link = (sys::TAG_INTERFACE_ID, &id(100)[..]);
    let plain = |message: MessageType, list: &[(u16, &[u8])]| {
        let list: Vec<Parameter<'_>> = list
            .iter()
            .map(|(tag, value)| Parameter::new(*tag, value))
            .collect();
        write(message, &list).unwrap()
    };
    // the correlation id is between ASP and gateway, and does not go on
    let unit = (sys::TAG_DATA_2, &b"unit"[..]);
    let sent = ordered(
        &mut engine,
        MessageType::Data,
        &[link, unit, (sys::TAG_CORRELATION_ID, &id(7))],
    );
    assert_eq!(sent, plain(MessageType::Data, &[link, unit]));
    for (message, rest) in [
        (MessageType::StateRequest, vec![(sys::TAG_STATE, id(7))]),
        (
            MessageType::RetrievalRequest,
            vec![
                (sys::TAG_RETRIEVAL_ACTION, id(2)),
                (sys::TAG_SEQUENCE, id(127)),
            ],
        ),
        (
            MessageType::RetrievalRequest,
            vec![(sys::TAG_RETRIEVAL_ACTION, id(1))],
        ),
        (MessageType::ReleaseRequest, vec![]),
    ] {
        let list: Vec<(u16, &[u8])> = std::iter::once(link)
            .chain(rest.iter().map(|(tag, value)| (*tag, &value[..])))
            .collect();
        assert_eq!(ordered(&mut engine, message, &list), plain(message, &list));
    }
}

#[test]
fn messages_as_events() {
    let g = served().state;
    let of = |message: MessageType, number: u32| {
        write(
            message,
            &[Parameter::new(sys::TAG_INTERFACE_ID, &id(number))],
        )
        .unwrap()
    };
    assert_eq!(
        links::event_of(&of(MessageType::EstablishConfirm, 200), &g),
        Some(Event::LinkUp { link: 1 })
    );
    for message in [MessageType::ReleaseConfirm, MessageType::ReleaseIndication] {
        assert_eq!(
            links::event_of(&of(message, 100), &g),
            Some(Event::LinkDown { link: 0 })
        );
        assert_eq!(links::event_of(&of(message, 101), &g), None);
    }
    assert_eq!(
        links::event_of(&of(MessageType::EstablishConfirm, 0), &g),
        None
    );
    // all else is for the gateway to judge, and what it refuses has an Error
    let wrong = [
        (&b"no message"[..], 1),
        (&write(MessageType::Up, &[]).unwrap(), 6),
        (&of(MessageType::EstablishRequest, 100), 6),
        (&of(MessageType::RetrievalComplete, 5), 2),
    ];
    for (message, code) in wrong {
        let event = links::event_of(message, &g).unwrap();
        assert_eq!(event, Event::LinkMessage { message });
        let refusal = g
            .clone()
            .handle(&event, &mut Hold::new(), &mut Orders::new())
            .unwrap_err();
        assert_eq!(
            (refusal.code(), links::why_refused(message, &g)),
            (sys::REFUSED_PLACE, code)
        );
        let error = links::error(code, message);
        assert_eq!(
            m2ua::parameter(&error, sys::TAG_ERROR_CODE),
            Some(&id(code)[..])
        );
        assert_eq!(
            m2ua::parameter(&error, sys::TAG_INTERFACE_ID).is_some(),
            code == 2
        );
    }
}

#[test]
fn the_simulated_link_side_is_never_refused() {
    let mut engine = served();
    let link = (sys::TAG_INTERFACE_ID, &id(100)[..]);
    for (message, rest, answers) in [
        (MessageType::Data, vec![(sys::TAG_DATA_1, &b"u"[..])], 1),
        (
            MessageType::StateRequest,
            vec![(sys::TAG_STATE, &[0, 0, 0, 9][..])],
            1,
        ),
        (
            MessageType::RetrievalRequest,
            vec![(sys::TAG_RETRIEVAL_ACTION, &[0, 0, 0, 1][..])],
            1,
        ),
        (
            MessageType::RetrievalRequest,
            vec![
                (sys::TAG_RETRIEVAL_ACTION, &[0, 0, 0, 2][..]),
                (sys::TAG_SEQUENCE, &[0, 0, 0, 1][..]),
            ],
            2,
        ),
        (MessageType::ReleaseRequest, vec![], 1),
        (MessageType::EstablishRequest, vec![], 1),
    ] {
        let list: Vec<(u16, &[u8])> = std::iter::once(link).chain(rest).collect();
        let sent = ordered(&mut engine, message, &list);
        let (order, _) = engine
            .orders()
            .find(|(order, _)| order.to == Addressee::LinkSide)
            .unwrap();
        let made: Vec<Happening> = links::simulated(&order, &sent, &engine.state);
        assert_eq!(made.len(), answers, "{message}");
        for happening in &made {
            engine.run(&happening.event()).unwrap();
            // each is told to the ASP
            assert_eq!(engine.orders().count(), 1, "{message}");
        }
    }
}
