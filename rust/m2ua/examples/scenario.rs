//! A small host: it loads a plan, lets two ASPs take turns, a link come up, units go both ways, an ASP fetch
//! what a high-speed link has not sent, a list of links succeed in part, an association break, units wait
//! until the other ASP takes over, and the recovery time run out. What a host sends, which units wait, and
//! which timers it starts, is printed. (examples/c/scenario.c is the same in C; tools/try/hosts compares what
//! both print.) Usage: scenario PLAN, with examples/plans/high-speed.txt compiled; or scenario words.
use m2ua::{
    parameter, protocol_data, read, sys, write, Addressee, Event, Gateway, Hold, MessageType,
    Order, Orders, Parameter, Refusal,
};
use std::process::ExitCode;

/// What a host keeps: the state, the hold that goes with it, and a list to lend.
struct Host {
    gateway: Gateway,
    hold: Hold,
    orders: Orders,
}

impl Host {
    /// An event: its orders in words and as bytes; then what has changed.
    fn happens(&mut self, what: &str, event: Event<'_>) -> Result<(), Refusal> {
        println!("{what}");
        // only to print what has changed, and to show orders one by one: a host needs no copy
        let (before, kept) = (self.gateway.clone(), self.hold.clone());
        if let Err(no) = (self.gateway).handle(&event, &mut self.hold, &mut self.orders) {
            println!("  refused: {no}");
            return Ok(());
        }
        for (place, (order, bytes)) in self.orders.messages().enumerate() {
            println!("  {order}");
            match (order.to, event) {
                (Addressee::Asp(asp), _) => {
                    send_to_asp(asp, bytes);
                    // what the event would send, asked of the state before it, is the same message
                    assert_eq!(before.order(&event, &kept, place)?, bytes);
                }
                (Addressee::LinkSide, Event::Message { message, .. })
                    if order.message == MessageType::Data =>
                {
                    send_to_link(order.subject, message)
                }
                (Addressee::LinkSide, Event::Message { message, .. })
                    if order.message == MessageType::RetrievalRequest =>
                {
                    self.retrieve(order.subject, message)?
                }
                _ => {}
            }
        }
        self.changes(&before);
        Ok(())
    }

    /// What has changed: the states of ASes, the timers that start and stop, the units held.
    fn changes(&self, before: &Gateway) {
        let timers = self.orders.timers();
        for a in 0..self.gateway.ases() {
            match self.gateway.as_state(a) {
                Some(state) if before.as_state(a) != Some(state) => {
                    println!("  AS {a} is {state}")
                }
                _ => {}
            }
            timers
                .started()
                .filter(|&b| a == b)
                .for_each(|_| println!("  timer: start T(r) of AS {a}"));
            timers
                .stopped()
                .filter(|&b| a == b)
                .for_each(|_| println!("  timer: stop T(r) of AS {a}"));
            self.units(before, a);
        }
    }

    /// The units that an AS holds since an event, with their bytes in the hold; or how many it holds no
    /// longer.
    fn units(&self, before: &Gateway, a: usize) {
        let (was, is) = (before.held(a).count(), self.gateway.held(a).count());
        for (k, unit) in self.gateway.held(a).enumerate().skip(was) {
            let bytes = (self.gateway.unit_bytes(&self.hold, a, k)).expect("a unit held");
            print!(
                "  AS {a} holds a unit ({:#x}) of link {}: {}",
                unit.tag,
                unit.link,
                hex(bytes)
            );
            match unit.correlation {
                Some(id) => println!(", correlation id {id}"),
                None => println!(),
            }
        }
        if is < was {
            println!("  units that AS {a} no longer holds: {}", was - is);
        }
    }

    /// Asks a link for its BSN, or for the messages after a sequence number. Here it is printed; a host asks
    /// MTP2. The link can have the number: the event has seen to it.
    fn retrieve(&self, id: u32, message: &[u8]) -> Result<(), Refusal> {
        let kind = match self.gateway.is_high_speed(self.place_of(id)) {
            true => "high-speed",
            false => "plain",
        };
        match read(message)?.sequence {
            Some(after) => println!("    messages of link {id} ({kind}) after {after}"),
            None => println!("    BSN of link {id} ({kind})"),
        }
        Ok(())
    }

    fn place_of(&self, id: u32) -> usize {
        self.gateway.link_place(id).expect("a link of the plan")
    }
}

/// Hands a unit to a link. Here it is printed; a host gives it to MTP2.
fn send_to_link(id: u32, message: &[u8]) {
    let tag = if parameter(message, sys::TAG_DATA_1).is_some() {
        "0x300"
    } else {
        "0x301"
    };
    println!(
        "    unit ({tag}) to link {id}: {}",
        hex(protocol_data(message))
    );
}

/// Sends a message to an ASP. Here it is printed; a host writes it to the ASP's association.
fn send_to_asp(asp: usize, bytes: &[u8]) {
    println!("    {} bytes to ASP {asp}: {}", bytes.len(), hex(bytes));
}

fn hex(bytes: &[u8]) -> String {
    bytes.iter().map(|b| format!("{b:02x}")).collect()
}

/// One message; what is written reads.
fn message(kind: MessageType, parameters: &[(u16, &[u8])]) -> Result<Vec<u8>, Refusal> {
    let parameters: Vec<Parameter> = parameters
        .iter()
        .map(|&(tag, value)| Parameter::new(tag, value))
        .collect();
    let bytes = write(kind, &parameters)?;
    read(&bytes)?;
    Ok(bytes)
}

/// What an ASP asks of a link, and what the link answers: its identifier, then numbers of 32 bits.
fn numbers(kind: MessageType, id: u32, more: &[(u16, u32)]) -> Result<Vec<u8>, Refusal> {
    let all = [&[(sys::TAG_INTERFACE_ID, id)], more].concat();
    let values: Vec<[u8; 4]> = all.iter().map(|(_, number)| number.to_be_bytes()).collect();
    let list = all.iter().zip(&values);
    message(
        kind,
        &list
            .map(|((tag, _), value)| (*tag, &value[..]))
            .collect::<Vec<_>>(),
    )
}

fn asks_messages(id: u32, after: u32) -> Result<Vec<u8>, Refusal> {
    numbers(
        MessageType::RetrievalRequest,
        id,
        &[
            (sys::TAG_RETRIEVAL_ACTION, sys::RETRIEVE_MESSAGES),
            (sys::TAG_SEQUENCE, after),
        ],
    )
}

fn has_bsn(id: u32, bsn: u32) -> Result<Vec<u8>, Refusal> {
    numbers(
        MessageType::RetrievalConfirm,
        id,
        &[
            (sys::TAG_RETRIEVAL_ACTION, sys::RETRIEVE_BSN),
            (sys::TAG_RETRIEVAL_RESULT, 0),
            (sys::TAG_SEQUENCE, bsn),
        ],
    )
}

/// Link 200 is a high-speed one, link 100 a plain one.
fn retrieval(host: &mut Host, up: &[u8], active: &[u8]) -> Result<(), Refusal> {
    let bsn = numbers(
        MessageType::RetrievalRequest,
        200,
        &[(sys::TAG_RETRIEVAL_ACTION, sys::RETRIEVE_BSN)],
    )?;
    let unsent = message(
        MessageType::RetrievalIndication,
        &[
            (sys::TAG_INTERFACE_ID, &[0, 0, 0, 200]),
            (sys::TAG_DATA_1, b"LAST"),
        ],
    )?;
    host.happens(
        "other comes up",
        Event::Message {
            asp: 2,
            message: up,
        },
    )?;
    host.happens(
        "other takes link 200",
        Event::Message {
            asp: 2,
            message: active,
        },
    )?;
    host.happens(
        "other asks link 200 for its BSN",
        Event::Message {
            asp: 2,
            message: &bsn,
        },
    )?;
    host.happens(
        "link 200 has BSN 4095",
        Event::LinkMessage {
            message: &has_bsn(200, 4095)?,
        },
    )?;
    host.happens(
        "other asks link 200 for the messages after 4095",
        Event::Message {
            asp: 2,
            message: &asks_messages(200, 4095)?,
        },
    )?;
    host.happens(
        "link 200 hands one out",
        Event::LinkMessage { message: &unsent },
    )?;
    host.happens(
        "that was the last",
        Event::LinkMessage {
            message: &numbers(MessageType::RetrievalComplete, 200, &[])?,
        },
    )?;
    host.happens(
        "right asks link 100 for the messages after 127",
        Event::Message {
            asp: 1,
            message: &asks_messages(100, 127)?,
        },
    )?;
    host.happens(
        "right asks link 100 for the messages after 128",
        Event::Message {
            asp: 1,
            message: &asks_messages(100, 128)?,
        },
    )?;
    host.happens(
        "link 100 has BSN 128, which a plain link cannot have",
        Event::LinkMessage {
            message: &has_bsn(100, 128)?,
        },
    )
}

/// Links 114 to 116, of which the plan has two. Part of what left lists may succeed; what right lists is
/// taken all or none.
fn lists(host: &mut Host, active: &[u8]) -> Result<(), Refusal> {
    let three = [(
        sys::TAG_INTERFACE_ID_RANGE,
        &[0, 0, 0, 114, 0, 0, 0, 116][..],
    )];
    let whole = |asp| u32::from(host.gateway.takes_whole_lists(asp));
    println!(
        "lists taken whole: of left {}, of right {}",
        whole(0),
        whole(1)
    );
    host.happens(
        "left takes links 114 to 116 back, of which there are two",
        Event::Message {
            asp: 0,
            message: &message(MessageType::Active, &three)?,
        },
    )?;
    host.happens(
        "right takes over again",
        Event::Message {
            asp: 1,
            message: active,
        },
    )?;
    host.happens(
        "right gives up links 114 to 116, or none",
        Event::Message {
            asp: 1,
            message: &message(MessageType::Inactive, &three)?,
        },
    )
}

fn scenario(host: &mut Host) -> Result<(), Refusal> {
    use MessageType::*;
    let (link100, link200) = (
        (sys::TAG_INTERFACE_ID, &[0, 0, 0, 100][..]),
        (sys::TAG_INTERFACE_ID, &[0, 0, 0, 200][..]),
    );
    // a test message of MTP3
    let unit = (sys::TAG_DATA_1, &b"\x81\x02\x40\x00\x10\x11\x40TEST"[..]);
    let identified = message(Up, &[(sys::TAG_ASP_ID, &[0, 0, 0, 7])])?;
    let (up, active, down) = (
        message(Up, &[])?,
        message(Active, &[])?,
        message(Down, &[])?,
    );
    let take = message(
        Active,
        &[
            (sys::TAG_TRAFFIC_MODE, &[0, 0, 0, 1]),
            (sys::TAG_INTERFACE_ID_RANGE, &[0, 0, 0, 100, 0, 0, 0, 115]),
        ],
    )?;
    let establish = message(EstablishRequest, &[link100])?;
    let data = message(
        Data,
        &[link100, unit, (sys::TAG_CORRELATION_ID, &[0, 0, 0, 5])],
    )?;
    let received = message(Data, &[link100, unit])?;
    // a correlation id, and behind it a unit with its length indicator
    let later = message(
        Data,
        &[
            (sys::TAG_INTERFACE_ID, &[0, 0, 0, 101]),
            (sys::TAG_CORRELATION_ID, &[0, 0, 0, 6]),
            (sys::TAG_DATA_2, b"\x05WAIT"),
        ],
    )?;
    let beat = message(Beat, &[(sys::TAG_HEARTBEAT, b"alive")])?;
    let other = message(Active, &[link200])?;
    host.happens(
        "left comes up",
        Event::Message {
            asp: 0,
            message: &identified,
        },
    )?;
    host.happens(
        "left takes links 100 to 115",
        Event::Message {
            asp: 0,
            message: &take,
        },
    )?;
    host.happens(
        "right comes up",
        Event::Message {
            asp: 1,
            message: &up,
        },
    )?;
    host.happens(
        "right takes over",
        Event::Message {
            asp: 1,
            message: &active,
        },
    )?;
    host.happens(
        "right starts link 100",
        Event::Message {
            asp: 1,
            message: &establish,
        },
    )?;
    host.happens(
        "link 100 is in service",
        Event::LinkUp {
            link: host.place_of(100),
        },
    )?;
    host.happens(
        "right sends a unit on link 100",
        Event::Message {
            asp: 1,
            message: &data,
        },
    )?;
    host.happens(
        "a unit comes in on link 100",
        Event::LinkMessage { message: &received },
    )?;
    host.happens(
        "right sends a heartbeat",
        Event::Message {
            asp: 1,
            message: &beat,
        },
    )?;
    retrieval(host, &up, &active)?;
    host.happens(
        "left asks for a link of another AS",
        Event::Message {
            asp: 0,
            message: &other,
        },
    )?;
    host.happens(
        "left sends three bytes",
        Event::Message {
            asp: 0,
            message: &up[..3],
        },
    )?;
    lists(host, &active)?;
    host.happens("the association of right is lost", Event::Lost { asp: 1 })?;
    host.happens(
        "a unit comes in on link 100 and waits",
        Event::LinkMessage { message: &received },
    )?;
    host.happens(
        "a unit comes in on link 101 and waits",
        Event::LinkMessage { message: &later },
    )?;
    host.happens(
        "left takes over in time",
        Event::Message {
            asp: 0,
            message: &active,
        },
    )?;
    host.happens(
        "left goes down",
        Event::Message {
            asp: 0,
            message: &down,
        },
    )?;
    host.happens(
        "a unit comes in that nobody will take",
        Event::LinkMessage { message: &later },
    )?;
    host.happens(
        "the recovery time of AS 0 is over",
        Event::Recovery { r#as: 0 },
    )?;
    host.happens(
        "link 100 fails",
        Event::LinkDown {
            link: host.place_of(100),
        },
    )?;
    host.happens(
        "an event of an ASP that there is not",
        Event::Lost { asp: 3 },
    )
}

/// Every name, to be compared with include/m2ua_text.h.
fn words() {
    for &message in MessageType::ALL {
        for value in 0..3 {
            let to = if value == 0 {
                Addressee::LinkSide
            } else {
                Addressee::Asp(value as usize)
            };
            println!(
                "{}",
                Order {
                    to,
                    message,
                    subject: 100 + value,
                    value
                }
            );
        }
    }
    for value in 65537..65542 {
        println!(
            "{}",
            Order {
                to: Addressee::Asp(1),
                message: MessageType::Notify,
                subject: 2,
                value
            }
        );
    }
    for value in 0..100 {
        println!(
            "{}",
            Order {
                to: Addressee::Asp(1),
                message: MessageType::Error,
                subject: 5,
                value
            }
        );
    }
    for code in 1..300 {
        println!("{}", Refusal::of(code).expect("0 alone is none"));
    }
}

fn run(path: &str) -> Result<(), String> {
    if m2ua::abi() != sys::ABI {
        return Err(format!(
            "the library has ABI {}, this program was compiled for {}",
            m2ua::abi(),
            sys::ABI
        ));
    }
    let file = std::fs::read(path).map_err(|e| format!("{path}: {e}"))?;
    let gateway = Gateway::load(&file).map_err(|no| format!("{path}: {no}"))?;
    let gateway = Gateway::from_raw(*gateway.raw()).map_err(|no| no.to_string())?;
    println!(
        "plan: {} ASPs, {} ASes, {} links",
        gateway.asps(),
        gateway.ases(),
        gateway.links()
    );
    scenario(&mut Host {
        gateway,
        hold: Hold::new(),
        orders: Orders::new(),
    })
    .map_err(|no| no.to_string())
}

fn main() -> ExitCode {
    let arguments: Vec<String> = std::env::args().skip(1).collect();
    match &arguments[..] {
        [word] if word == "words" => words(),
        [path] => {
            if let Err(why) = run(path) {
                eprintln!("{why}");
                return ExitCode::from(1);
            }
        }
        _ => {
            eprintln!("usage: scenario PLAN (a file that m2ua-plan compile has made)");
            return ExitCode::from(2);
        }
    }
    ExitCode::SUCCESS
}
