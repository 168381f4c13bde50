//! The link side: a process at a Unix socket that has the SS7 links, or one that is simulated here. It speaks
//! M2UA's own messages of class 6, one to a packet, in the gateway's plain encoding:
//!
//! | from the gateway | an order to the link side: Data, Establish, Release, State, Data Retrieval Request |
//! | to the gateway | Establish Confirm: the link is in service; Release Confirm, Release Indication: it is out of service; all else: a message for the ASPs |
use m2ua::{
    parameters, protocol_data, read, sys, write, Event, Gateway, MessageType, Order, Parameter,
    Refusal,
};
use m2ua_trace::script::Happening;

/// The message of an order to the link side. What the order's words do not say, a unit or a sequence number,
/// stands in the ASP's message.
pub fn message_of(order: &Order, event: &Event<'_>) -> Result<Vec<u8>, Refusal> {
    let said = match event {
        Event::Message { message, .. } => message,
        _ => &[][..],
    };
    let (id, value) = (order.subject.to_be_bytes(), order.value.to_be_bytes());
    let sequence;
    let mut list = vec![Parameter::new(sys::TAG_INTERFACE_ID, &id)];
    match order.message {
        MessageType::Data => list.extend(unit(said)),
        MessageType::StateRequest => list.push(Parameter::new(sys::TAG_STATE, &value)),
        MessageType::RetrievalRequest => {
            list.push(Parameter::new(sys::TAG_RETRIEVAL_ACTION, &value));
            if let Some(number) = read(said)?.sequence {
                sequence = number.to_be_bytes();
                list.push(Parameter::new(sys::TAG_SEQUENCE, &sequence));
            }
        }
        _ => {}
    }
    write(order.message, &list)
}

/// The protocol data of a message, with its own tag.
fn unit(message: &[u8]) -> Option<Parameter<'_>> {
    parameters(message).find(|p| p.tag == sys::TAG_DATA_1 || p.tag == sys::TAG_DATA_2)
}

/// The event that a message of the link side is; `None` where it tells of a link that the plan has not. What
/// does not read, the gateway refuses.
pub fn event_of<'a>(message: &'a [u8], g: &Gateway) -> Option<Event<'a>> {
    let link = |id| g.link_place(id);
    match read(message).map(|r| (r.message, r.id)) {
        Ok((MessageType::EstablishConfirm, id)) => link(id).map(|link| Event::LinkUp { link }),
        Ok((MessageType::ReleaseConfirm | MessageType::ReleaseIndication, id)) => {
            link(id).map(|link| Event::LinkDown { link })
        }
        _ => Some(Event::LinkMessage { message }),
    }
}

/// Why an event of the link side was refused, as an Error code: its type, its link, or else a value.
pub fn why_refused(message: &[u8], g: &Gateway) -> u32 {
    let reading = match read(message) {
        Ok(reading) => reading,
        Err(no) => return no.code(),
    };
    if !FOR_ASPS.contains(&reading.message) {
        return sys::ERROR_UNEXPECTED_MESSAGE;
    }
    if g.link_place(reading.id).is_none() {
        return sys::ERROR_INVALID_INTERFACE_ID;
    }
    sys::ERROR_INVALID_VALUE
}

/// What the link side may send for the ASPs (Rule 6.1).
const FOR_ASPS: [MessageType; 7] = [
    MessageType::Data,
    MessageType::StateConfirm,
    MessageType::StateIndication,
    MessageType::RetrievalConfirm,
    MessageType::RetrievalIndication,
    MessageType::RetrievalComplete,
    MessageType::CongestionIndication,
];

/// The Error that the link side gets for a message that is no event; with the identifier where that is what
/// is wrong.
pub fn error(code: u32, message: &[u8]) -> Vec<u8> {
    let (code, id) = (
        code.to_be_bytes(),
        read(message).map_or(0, |r| r.id).to_be_bytes(),
    );
    let mut list = vec![Parameter::new(sys::TAG_ERROR_CODE, &code)];
    if u32::from_be_bytes(code) == sys::ERROR_INVALID_INTERFACE_ID {
        list.push(Parameter::new(sys::TAG_INTERFACE_ID, &id));
    }
    write(MessageType::Error, &list).unwrap_or_default()
}

/// The simulated link side: links start and stop as soon as they are asked to, a unit comes back as if the
/// other end had sent it, a state is confirmed, and there is never anything to retrieve.
pub fn simulated(order: &Order, message: &[u8], g: &Gateway) -> Vec<Happening> {
    let id = order.subject.to_be_bytes();
    let link = Parameter::new(sys::TAG_INTERFACE_ID, &id);
    let value = order.value.to_be_bytes();
    let place = g.link_place(order.subject);
    let answer = |kind, list: &[Parameter<'_>]| write(kind, list).ok().map(Happening::LinkMessage);
    let answers = match order.message {
        MessageType::EstablishRequest => [place.map(Happening::LinkUp), None],
        MessageType::ReleaseRequest => [place.map(Happening::LinkDown), None],
        MessageType::Data if !protocol_data(message).is_empty() => {
            [Some(Happening::LinkMessage(message.to_vec())), None]
        }
        MessageType::StateRequest => [
            answer(
                MessageType::StateConfirm,
                &[link, Parameter::new(sys::TAG_STATE, &value)],
            ),
            None,
        ],
        MessageType::RetrievalRequest => {
            let action = Parameter::new(sys::TAG_RETRIEVAL_ACTION, &value);
            let zero = |tag| Parameter::new(tag, &[0, 0, 0, 0]);
            let (result, bsn) = (zero(sys::TAG_RETRIEVAL_RESULT), zero(sys::TAG_SEQUENCE));
            if order.value == sys::RETRIEVE_MESSAGES {
                [
                    answer(MessageType::RetrievalConfirm, &[link, action, result]),
                    answer(MessageType::RetrievalComplete, &[link]),
                ]
            } else {
                [
                    answer(MessageType::RetrievalConfirm, &[link, action, result, bsn]),
                    None,
                ]
            }
        }
        _ => [None, None],
    };
    answers.into_iter().flatten().collect()
}
